"""Steps through each call of the library that a program makes, one instruction at a time. gdb runs
this, and ends with status 1 if from some instruction it doesn't find main where main is."""

import pathlib
import re

import gdb


def place_of_main():
    """Returns the program counter and the stack pointer of main, if main is among the callers."""
    try:
        frame = gdb.newest_frame()
        while frame.name() != "main":
            frame = frame.older()
        return frame.pc(), int(frame.read_register("sp"))
    except (AttributeError, gdb.error):
        return None


steps = lost = 0
for name in re.findall(r"(komihash_v\w+)\(", pathlib.Path("komihash_rattle.h").read_text()):
    gdb.Breakpoint(f"*&{name}")
gdb.execute("run")
while gdb.selected_inferior().pid:
    wanted = place_of_main()
    while not str(gdb.newest_frame().find_sal().symtab).endswith("calls.c"):  # the program's file
        steps += 1
        lost += wanted is None or place_of_main() != wanted
        gdb.execute("stepi", to_string=True)
    gdb.execute("continue", to_string=True)
print(f"{steps} instructions, and main is not found from {lost}")
gdb.execute(f"quit {int(lost > 0 or steps == 0)}")
