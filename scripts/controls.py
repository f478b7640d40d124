#!/usr/bin/env python3
"""Proves the control of each must-fail edit, on a copy of the crates: the same edit, but where its
line `# control: WRONG ==> RIGHT` puts RIGHT in place of WRONG, which is once in its last `new:`.
This shows that `rt must-fail` refuses the wrong value, and not the edit's shape or what the search
can't prove. Makes as many at once as stand in different places. controls.py NAME.. proves those of
the edits with these names."""

import ctypes
import re
import shutil
import signal
import subprocess
import sys
import tempfile
from pathlib import Path

ROOT = Path(__file__).resolve().parent.parent


def end_with_parent():
    """Has the system end this process if the one that began it ends."""
    ctypes.CDLL(None).prctl(1, signal.SIGTERM)


def make(edit, crate):
    """Makes a control, between comments. Returns whether its places are there, and unchanged."""
    text = edit.read_text("utf-8")
    file = crate / re.search("^file: (.*)", text, re.MULTILINE)[1]
    code = file.read_text("utf-8")
    control = re.search("^# control: (.*) ==> (.*)", text, re.MULTILINE)
    *changes, (last, wrong) = re.findall("old: (.*)\nnew: (.*)", text)
    if not control or wrong.count(control[1]) != 1:
        return False
    for old, new in [*changes, (last, wrong.replace(*control.groups()))]:
        if code.count(old) != 1 or code[: code.index(old)].count("/**/") % 2:
            return False
        code = code.replace(old, f"/**/{new}/**/")
    return file.write_text(code, "utf-8") > 0


end_with_parent()
names, counts = sys.argv[1:], [0, 0]
left = sorted(edit for name in names or ["*"]
              for edit in ROOT.glob(f"crates/*/must-fail/{name}.edit"))
with tempfile.TemporaryDirectory() as room:
    shutil.copy(ROOT / "crates.txt", room)
    files = {"ignore": shutil.ignore_patterns("out", "must-fail"), "dirs_exist_ok": True}
    while left:
        crate = shutil.copytree(ROOT / "crates", Path(room, "crates"), **files) / left[0].parts[-3]
        made = [edit for edit in left if edit.parts[-3] == crate.name and make(edit, crate)]
        if not made:
            raise SystemExit(f"{left[0]} has no control, or one that can't be made")
        check = subprocess.run(["rt", "check"], cwd=crate, text=True, preexec_fn=end_with_parent,
                               stdout=subprocess.PIPE, stderr=subprocess.STDOUT)
        counts[check.returncode != 0] += len(made)
        print(f"{len(made)} in {crate.name}:", check.stdout if check.returncode else "proved")
        left = [edit for edit in left if edit not in made]
print(f"{counts[0]} passed, {counts[1]} failed")
raise SystemExit(counts[1] > 0 or not counts[0])
