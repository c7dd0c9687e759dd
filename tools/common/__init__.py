"""What the tools share: texts with places, tasks, reports, and starting generators."""
