#!/usr/bin/env python3
"""Makes v4.rt of v5.rt in `komihash`, but for its first comment, and in `promises` the impl for
version 4 of that for version 5."""
import re
from pathlib import Path

CRATES = Path(__file__).resolve().parent.parent / "crates"
HEAD = re.compile("^//!.*\n", re.MULTILINE)
NOTE = "// In Rattle, this is made of v5.rt by scripts/twins.py, except for the comment above.\n"
IMPLS = re.compile(r"^impl Promises for v4.*?^(?=(impl Promises for v5.*?^}\n))",
                   re.DOTALL | re.MULTILINE)
VERSION = re.compile(r"((?<![a-zA-Z\d])v|\bversion |<|\b[A-Z]\w+ |\b(?:komi|next|fill|after_\w+) )5"
                     r"(?![a-zA-Z\d])")


def twin(five):
    """The text for version 4. Refuses a number 5 that isn't known to be the version's."""
    four = VERSION.sub(r"\g<1>4", five)
    if odd := re.search(r".*(?<!\w)5(?!\d|_\d).*", four):
        raise SystemExit(f"is 5 the version? {odd[0]}")
    return four


def twins():
    """Each file that has what is made, and what it should be."""
    for five in CRATES.glob("*/src/v5.rt"):
        four = five.with_name("v4.rt")
        head = "".join(HEAD.findall(four.read_text("utf-8")))
        yield four, head + NOTE + twin(HEAD.sub("", five.read_text("utf-8")))
    calls = CRATES / "promises/src/calls.rt"
    yield calls, IMPLS.sub(lambda five: f"{twin(five[1])}\n", calls.read_text("utf-8"))


if __name__ == "__main__":
    for file, text in twins():
        file.write_text(text, "utf-8")
