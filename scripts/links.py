#!/usr/bin/env python3
"""Links of pages. links.py PACKAGE checks those of a package. links.py PACKAGE FOLDER adapts them
first: the package has a folder of the repository as its root, and beside it some others' files. A
link leads to its file there, and if the package lacks the file, only the link's text stays."""

import os
import re
import sys
from pathlib import Path

ROOT = Path(__file__).resolve().parent.parent
FENCED = re.compile(r"^```.*?^```", re.DOTALL | re.MULTILINE)
LINK = re.compile(r"\]\((?!https?:)([^)]*)\)")


def pages(folder):
    return [page for page in sorted(folder.rglob("*.md"))
            if "out" not in page.relative_to(folder).parts]


def leads_somewhere(page, link):
    """Whether the file is there, and if a heading is named, has it, as GitHub names headings."""
    file, _, anchor = link.partition("#")
    target = page.parent / file if file else page
    if not anchor or not target.exists():
        return target.exists()
    heads = re.findall("^#+ (.*)", FENCED.sub("", target.read_text("utf-8")), re.MULTILINE)
    return anchor in [re.sub(r"[^\w -]", "", head.lower()).replace(" ", "-") for head in heads]


def links(folder):
    """Each link of a folder's pages, by name, and whether it leads somewhere."""
    return [(f"{page.relative_to(folder)} links to {link}", leads_somewhere(page, link))
            for page in pages(folder) for link in LINK.findall(page.read_text("utf-8"))]


def origin(path, folder):
    """Where in the repository a file of a package stands."""
    return ROOT / folder / path if (ROOT / folder / path).exists() else ROOT / path


def adapt(package, folder):
    there = {origin(path.relative_to(package), folder): path for path in package.rglob("*")}
    for page in pages(package):
        before = origin(page.relative_to(package), folder).parent

        def adapted(found):
            file, hash_sign, anchor = found[2].partition("#")
            target = there.get(Path(os.path.normpath(before / file)))
            if file and not target:
                return found[1]
            to = file and os.path.relpath(target, page.parent)
            return f"[{found[1]}]({to}{hash_sign}{anchor})"
        text = re.sub(rf"\[([^][]*){LINK.pattern}", adapted, page.read_text("utf-8"))
        page.write_text(text, "utf-8")


if __name__ == "__main__":
    package, *folder = sys.argv[1:]
    if folder:
        adapt(Path(package), *folder)
    wrong = [name for name, holds in links(Path(package)) if not holds]
    sys.exit("\n".join(wrong) or 0)
