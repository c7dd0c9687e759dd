"""A report as JSON, as counts, as a graph, and as a page to look at."""
