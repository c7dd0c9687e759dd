"""The pages' links and paths lead somewhere, and pages and pictures keep within their sizes."""
from __future__ import annotations

import glob
import os
import re
import unittest

from support import ROOT

MOST_OF_README = 13 * 1024
MOST_OF_A_PICTURE = 200 * 1000
LONGEST_LINE = 160
FOLDERS = ("crates", "docs", "tools", "examples", "clients", "bench", "unfinished")
# What a page names that a command makes, and what stands for any name.
MADE = ("crates/pddlstream/out", "crates/pddl_validate/out", "crates/NAME")


def pages() -> list[str]:
    """The pages of the repository, by their paths from its root."""
    found = glob.glob("**/*.md", root_dir=ROOT, recursive=True)
    return sorted(path for path in found if "/out/" not in path)


def text_of(page: str) -> str:
    """A page without its blocks of code."""
    with open(os.path.join(ROOT, page), encoding="utf-8") as file:
        return re.sub(r"^```.*?^```$", "", file.read(), flags=re.M | re.S)


def anchors(page: str) -> set[str]:
    """The names that links give to a page's headings."""
    heads = (re.sub(r"\[([^\]]*)\]\([^)]*\)", r"\1", head) for head in re.findall(r"^#+ (.*)$", text_of(page), re.M))
    return {re.sub(r"[^\w\- ]", "", head.strip().lower()).replace(" ", "-") for head in heads}


def fault_of_link(page: str, link: str) -> str | None:
    """What is wrong with a link within the repository."""
    path, _, anchor = link.partition("#")
    there = os.path.normpath(os.path.join(os.path.dirname(page), path)) if path else page
    if not os.path.exists(os.path.join(ROOT, there)):
        return f"{page}: there is no {link}"
    if anchor and anchor not in anchors(there):
        return f"{page}: {link} has no such heading"
    return None


class Pages(unittest.TestCase):
    def test_each_link_leads_somewhere(self):
        links = [(page, link) for page in pages() for link in re.findall(r"\]\(([^)\s]+)\)", text_of(page))
                 if not link.startswith(("http:", "https:"))]
        self.assertGreater(len(links), 150)
        self.assertEqual([fault for fault in (fault_of_link(*one) for one in links) if fault], [])

    def test_each_path_is_there(self):
        named = [(page, path) for page in pages()
                 for path in re.findall(rf"`((?:\.\./)*(?:{'|'.join(FOLDERS)})/[\w./*-]+)`", text_of(page))
                 if not path.startswith(MADE)]
        self.assertGreater(len(named), 50)
        missing = [f"{page}: there is no {path}" for page, path in named
                   if not glob.glob(os.path.join(ROOT, path))
                   and not glob.glob(os.path.join(ROOT, os.path.dirname(page), path))]
        self.assertEqual(missing, [])

    def test_each_file_that_a_guide_names_is_there(self):
        kinds = "py|sh|md|pddl|json|antt|rt|c|html|css|js|png|cff"
        names = {name for _, _, files in os.walk(ROOT) for name in files}
        missing = []
        for page in ("README.md", "SECURITY.md", "examples/README.md", "tools/README.md",
                     *(page for page in pages() if page.startswith("docs/"))):
            missing += [f"{page}: there is no {name}" for name in re.findall(rf"`([\w-]+\.(?:{kinds}))`", text_of(page))
                        if name not in names]
        self.assertEqual(missing, [])

    def test_sizes(self):
        self.assertLessEqual(os.path.getsize(os.path.join(ROOT, "README.md")), MOST_OF_README)
        pictures = [path for path in glob.glob("**/*.png", root_dir=ROOT, recursive=True) if "/out/" not in path]
        self.assertGreater(len(pictures), 0)
        for picture in pictures:
            self.assertLessEqual(os.path.getsize(os.path.join(ROOT, picture)), MOST_OF_A_PICTURE, picture)

    def test_no_line_is_too_long_to_read(self):
        long = [f"{page}:{number}" for page in pages() for number, line in enumerate(text_of(page).split("\n"), 1)
                if len(line) > LONGEST_LINE and not line.startswith(("|", "    "))]
        self.assertEqual(long, [])


if __name__ == "__main__":
    unittest.main()
