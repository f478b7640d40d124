#!/usr/bin/env python3
"""Checks that what stands in two places is the same: each block of Rattle in CALLING is a part of a
file of crates/examples, the block of README is one of rust/README, both versions say the same, what
users take has the licence, packages with the library for C inside name its version, and each link
of a page leads to a file that is there, and to a heading of it."""

import re
from pathlib import Path

from links import links
from twins import twins

ROOT = Path(__file__).resolve().parent.parent
CODE = re.compile(r"^```(?:rust|antt)\n(.*?)^```", re.DOTALL | re.MULTILINE)


def text(path):
    return (ROOT / path).read_text("utf-8")


kinds = ("src/*.rt", "specs/*.antt", "proofs/**/*.antt")
examples = [text(file) for kind in kinds for file in (ROOT / "crates/examples").glob(kind)]
checks = [("the block of README", CODE.search(text("README.md"))[1] in text("rust/README.md"))]
checks += [(f"the versions in {file.relative_to(ROOT)}", text(file) == made)
           for file, made in twins()]
checks += [(f"the licence in {folder}", text(f"{folder}/LICENSE") == text("LICENSE"))
           for folder in ("crates/komihash", "rust", "python", "js")]
header = text("c/komihash_rattle.h")
library = re.search('RATTLE_VERSION "(.*)"', header)[1]
numbers = re.findall(r"^#define \w+_VERSION_\w+ (\d+)$", header, re.M)
checks += [("the numbers in the library's version", ".".join(numbers) == library)]
checks += [(f"the library's version in {folder}",
            f"version {library} of " in text(f"{folder}/README.md")) for folder in ("python", "js")]
version = re.search('"version": "(.*)"', text("js/package.json"))[1]
checks += [("the version in komihash_rattle.js",
            f" {version}," in text("js/komihash_rattle.js").splitlines()[0])]
checks += [(f"the block `{code.splitlines()[0]}`", any(code in one for one in examples))
           for code in CODE.findall(text("CALLING.md"))]
checks += links(ROOT)
for name, holds in checks:
    print("ok:" if holds else "FAILED:", name)
failed = sum(not holds for _, holds in checks)
print(f"{len(checks) - failed} passed, {failed} failed")
raise SystemExit(failed > 0)
