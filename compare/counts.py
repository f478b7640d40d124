#!/usr/bin/env python3
"""Counts the instructions of calls of the crate for Rust, and the bytes of their machine code.

    counts.py FOLDER          compares with counts.md, where each number may differ by 3%
    counts.py FOLDER anew     makes the tables of counts.md anew

FOLDER is for what is compiled. It may have Rust's core library for TARGET in FOLDER/TARGET, as
../scripts/sysroot.sh makes it. KOMIHASH_CRATE is a folder with the crate komihash 0.5.0. Without
it, only the numbers of this crate are counted and compared.
"""

import ctypes
import os
import re
import resource
import signal
import subprocess
import sys
from pathlib import Path

HERE = Path(__file__).resolve().parent
PAGE = HERE / "counts.md"
RUSTC = "/usr/bin/rustc"
I686, THUMB = "i686-unknown-linux-gnu", "thumbv7em-none-eabi"

# A target, if rustc isn't to compile for this machine, and options for the crates, and for the
# program that calls them.
CHECKED = ["-Cdebug-assertions=on", "-Coverflow-checks=on"]
LEVEL = {level: [f"-Copt-level={level}"] for level in "3sz"}
DEBUG = "debug build"
COUNTED = {
    "release build": (None, LEVEL["3"], LEVEL["3"]),
    "opt-level s": (None, LEVEL["s"], LEVEL["s"]),
    "i686, fat LTO": (I686, LEVEL["3"], [*LEVEL["3"], "-Clto=fat"]),
    "debug build, the crate at 3": (None, [*LEVEL["3"], *CHECKED], CHECKED),
    DEBUG: (None, CHECKED, CHECKED),
}
MEASURED = {f"opt-level {level}": (None, it, it) for level, it in LEVEL.items()} | {
    f"Cortex-M4, {level}, fat LTO": (THUMB, it, [*it, "-Clto=fat"]) for level, it in LEVEL.items()}
# The functions of sizes.rs whose difference is measured.
SIZES = {
    "the first hash": ("nothing", "hash"),
    "each further hash": ("hash", "hash_again"),
    "each further hash with any seed": ("seeded", "seeded_again"),
    "each further stream of two writes": ("stream", "stream_again"),
}

# Has glibc take the same `memcpy` on all processors with AVX2.
MEMCPY_BY_AVX = {"GLIBC_TUNABLES": "glibc.cpu.hwcaps=-AVX512F,-AVX512VL,-ERMS,-FSRM"}
# The requests, signals and places of Linux's ptrace.
TRACE_ME, PEEK_USER, CONTINUE, STEP, SIGNAL_INFO = 0, 3, 7, 9, 0x4202
STACK_POINTER, CODE, FROM_BREAKPOINT = 8 * 19, 8, 0x80
ptrace = ctypes.CDLL(None).ptrace
ptrace.restype = ctypes.c_long
ptrace.argtypes = ctypes.c_long, ctypes.c_int, ctypes.c_void_p, ctypes.c_void_p


def printed(*command):
    return subprocess.run(command, check=True, capture_output=True, text=True).stdout


def rustc(folder, *options):
    command = [RUSTC, "-Cpanic=abort", "--cap-lints=allow", f"-L{folder}", *options]
    subprocess.run(list(map(str, command)), check=True)


class Build:
    """Both crates, compiled by some options, for programs that are compiled by others too."""

    def __init__(self, room, name, options):
        target, of_crates, of_programs = options
        self.folder = room / "counts" / re.sub(r"\W+", "-", name)
        self.folder.mkdir(parents=True, exist_ok=True)
        there = [f"--target={target}", f"--sysroot={room / target}"] if target else []
        if target == I686:
            there.append("-Clinker=i686-linux-gnu-gcc")
        if target and not (room / target).exists():
            script = HERE / "../scripts/sysroot.sh"
            subprocess.run(["bash", script, target, room / target], check=True)
        self.of_crates, self.of_programs = [*of_crates, *there], [*of_programs, *there]
        self.crates = ["komihash_rattle"]
        self.crate("komihash_rattle", 2024, HERE / "../rust/src/lib.rs")
        if crate := os.environ.get("KOMIHASH_CRATE"):
            # The crate names std, but uses only what core has too.
            core = self.folder / "std.rs"
            core.write_text("#![no_std] pub use core::*;", "utf-8")
            self.crate("std", 2024, core)
            self.crate("komihash", 2021, Path(crate, "src/lib.rs"),
                       f"--extern=std={self.library('std')}")
            self.of_programs += [f"--extern=komihash={self.library('komihash')}", "--cfg=beside"]
            self.crates.append("komihash")

    def library(self, name):
        return self.folder / f"lib{name}.rlib"

    def crate(self, name, edition, source, *options):
        rustc(self.folder, *self.of_crates, "--crate-type=rlib", f"--crate-name={name}",
              f"--edition={edition}", "-o", self.library(name), source, *options)

    def program(self, source, *options):
        output = self.folder / "program"
        rustc(self.folder, *self.of_programs, "--edition=2024", "-o", output, source, *options,
              f"--extern=komihash_rattle={self.library('komihash_rattle')}")
        return output


def trace(program):
    """Runs a program. Returns the lines that it prints, and for each two breakpoints the number of
    instructions between them, and how many bytes of stack these take."""
    reads, writes = os.pipe()
    child = os.fork()
    if not child:
        os.dup2(writes, 1)
        ptrace(TRACE_ME, 0, None, None)
        os.execve(program, [program], MEMCPY_BY_AVX)
    os.close(writes)
    counts, steps, top, least = [], None, 0, 0
    info = ctypes.create_string_buffer(128)
    while os.WIFSTOPPED(status := os.waitpid(child, 0)[1]):
        if os.WSTOPSIG(status) != signal.SIGTRAP:
            raise SystemExit(f"{program} got signal {os.WSTOPSIG(status)}")
        ptrace(SIGNAL_INFO, child, None, info)
        stack = ptrace(PEEK_USER, child, STACK_POINTER, None)
        if info[CODE] != bytes([FROM_BREAKPOINT]):
            steps, least = steps and steps + 1, min(least, stack)
        elif steps is None:
            steps, top, least = 1, stack, stack
        else:
            counts.append((steps - 1, top - least))
            steps = None
        ptrace(CONTINUE if steps is None else STEP, child, None, None)
    with open(reads, encoding="utf-8") as printed:
        return printed.read().splitlines(), counts


def count(build):
    """Returns by the name of each call what it takes with each crate."""
    lines, counts = trace(build.program(HERE / "counts.rs", "--crate-type=bin"))
    taken, left = {}, iter(counts)
    for line in lines:
        if line.startswith("= "):
            version = "version 4: " * (line[-1] == "4")
        else:
            taken.setdefault(version + line, []).append(next(left))
    return taken


def size(build, name):
    """Returns the bytes of machine code of a program that begins at a function of sizes.rs."""
    program = build.folder / name
    subprocess.run(["ld.lld", "--gc-sections", "--unresolved-symbols=ignore-all", "--entry", name,
                    "-o", program, "--whole-archive", build.folder / "program"], check=True)
    sections = printed("readelf", "-SW", program)
    return sum(int(it, 16) for it in re.findall(r" \.text\S* +PROGBITS +\w+ \w+ (\w+)", sections))


def sizes(build, crate):
    """Returns how many bytes calls of a crate take, by name."""
    flags = ["--cfg=of_the_other"] if crate == "komihash" else []
    build.program(HERE / "sizes.rs", "--crate-type=staticlib", *flags)
    return {name: size(build, more) - size(build, less) for name, (less, more) in SIZES.items()}


def seconds(build, crate):
    """Returns the processor time of compiling 100 hashes and 100 streams of two writes."""
    source = build.folder / "calls.rs"
    source.write_text(f"#![no_std] use {crate}::{{StreamedKomihash, komihash}};" + "".join(f"""
        pub fn hash_{n}(bytes: &[u8]) -> u64 {{ komihash(bytes, {n}) }}
        pub fn stream_{n}(front: &[u8], back: &[u8]) -> u64 {{
            let mut stream = StreamedKomihash::new_with_seed({n});
            stream.write(front);
            stream.write(back);
            stream.finish()
        }}""" for n in range(100)), "utf-8")
    before = resource.getrusage(resource.RUSAGE_CHILDREN).ru_utime
    build.program(source, "--crate-type=rlib")
    return resource.getrusage(resource.RUSAGE_CHILDREN).ru_utime - before


def counted(room):
    """Returns the two tables: by name of a row, and by column, the numbers of the crates."""
    calls, parts = {}, {}
    for column, options in COUNTED.items():
        for name, taken in count(Build(room, column, options)).items():
            calls.setdefault(name, {})[column] = [instructions for instructions, _ in taken]
            if column == DEBUG:
                calls[name][f"{DEBUG}: bytes of stack"] = [stack for _, stack in taken]
    for column, options in MEASURED.items():
        build = Build(room, column, options)
        for crate in build.crates:
            for name, number in sizes(build, crate).items():
                parts.setdefault(name, {}).setdefault(column, []).append(number)
    return calls, parts


def table(head, rows):
    columns = list(next(iter(rows.values())))
    lines = [[head, *columns], ["---", *["---:"] * len(columns)]]
    for name, cells in rows.items():
        lines.append([name, *(" (".join(map(str, it)) + ")" * (len(it) > 1)
                              for it in cells.values())])
    return "".join(f"| {' | '.join(line)} |\n" for line in lines)


def make(calls, parts, room):
    build = Build(room, *next(iter(COUNTED.items())))
    took = " and ".join(f"{seconds(build, it):.1f} s with `{it}`" for it in build.crates)
    made = f"""<!-- counts -->

{table("Call of version 5", calls)}
{table("Machine code of", parts)}
A release build of 100 hashes and 100 streams of two writes took {took}, of one processor.

Compiler: {printed(RUSTC, "--version").partition(" (built")[0].strip()}

<!-- /counts -->"""
    PAGE.write_text(re.sub("<!-- counts -->.*<!-- /counts -->", lambda _: made,
                           PAGE.read_text("utf-8"), flags=re.DOTALL), "utf-8")


def on_page():
    """Returns the numbers on the page, by the names of the row and the column."""
    numbers = {}
    for block in re.findall(r"(?:^\|.*\n)+", PAGE.read_text("utf-8"), re.MULTILINE):
        heads, _, *rows = ([cell.strip() for cell in line.strip("|").split("|")]
                           for line in block.splitlines())
        numbers |= {(row[0], head): list(map(int, re.findall(r"\d+", cell)))
                    for row in rows for head, cell in zip(heads[1:], row[1:])}
    return numbers


def compare(*tables):
    """Compares with the page, and prints what differs by more than 3%."""
    page = on_page()
    now = {(row, column): it for rows in tables for row, cells in rows.items()
           for column, it in cells.items()}
    failed = page.keys() ^ now.keys() | {
        place for place in page.keys() & now.keys()
        if any(100 * abs(new - old) > 3 * old for old, new in zip(page[place], now[place]))}
    for place in sorted(failed):
        print(f"FAILED: {', '.join(place)}: {page.get(place)} in counts.md, {now.get(place)} now")
    if failed:
        print("Make the tables anew: python3 compare/counts.py FOLDER anew")
    print(f"{len(page | now) - len(failed)} passed, {len(failed)} failed")
    return bool(failed)


if __name__ == "__main__":
    room = Path(sys.argv[1]).resolve()
    tables = counted(room)
    sys.exit(make(*tables, room) if sys.argv[2:] == ["anew"] else compare(*tables))
