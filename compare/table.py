#!/usr/bin/env python3
"""Makes tables of the times that the drivers printed.

    table.py CIRCUMSTANCES WORD BUILD/LAYOUT ..

Each file has the times of a build in a layout of the machine code. If WORD is empty, makes the
picture, and what stands between `<!-- speed -->` and `<!-- /speed -->` in the pages, anew.
Otherwise prints the tables.
"""

import collections
import math
import pathlib
import re
import statistics
import sys

HERE = pathlib.Path(__file__).resolve().parent

# A column has a head, and the build and name of a hash whose time it shows, or by whose time it
# divides that of another one.
RUST = {
    "komihash_rattle": ("plain komihash_rattle 5",),
    "plain": ("plain komihash_rattle 5", "plain komihash 5"),
    "fat LTO": ("fat komihash_rattle 5", "fat komihash 5"),
    "version 4, plain": ("plain komihash_rattle 4", "plain komihash 4"),
    "version 4, fat LTO": ("fat komihash_rattle 4", "fat komihash 4"),
}
C = {
    level: {"assembly": (f"gcc{level} assembly",)} | {
        f"{name}, {compiler}": (f"{compiler}{level} assembly", f"{compiler}{level} {name}")
        for name in ("library", "inlined", "XXH3", "wyhash")
        for compiler in ("gcc", "clang-19")
    }
    for level in ("", "-v3")
}

# The lines of the picture, in its order.
LINES = [*RUST["plain"], "gcc XXH3", "gcc wyhash", "gcc-v3 XXH3"]

# The columns and the rows of the short table.
SHORT_COLUMNS = {"ours": RUST["komihash_rattle"], "theirs / ours": RUST["plain"]}
SHORT_ROWS = [
    *(f"hash of 0 to {greatest} bytes, random lengths" for greatest in (15, 63, 255)),
    "hash of 1 MiB",
    "writes of 1 to 64 bytes, random lengths",
]


def read(files):
    """Returns the nanoseconds of each row, by build and hash, in each layout."""
    times = collections.defaultdict(lambda: collections.defaultdict(list))
    for file in map(pathlib.Path, sorted(files, reverse=True)):
        build = file.parent.name
        heads, *lines = (line.split("\t") for line in file.read_text("utf-8").splitlines())
        for row, *numbers in lines:
            for head, number in zip(heads[1:], numbers):
                times[row][f"{build} {head}"].append(float(number))
    return times


def bytes_in(row):
    number, unit = re.search("([0-9]+) (bytes?|KiB|MiB)", row).groups()
    return int(number) << {"KiB": 10, "MiB": 20}.get(unit, 0)


def speed(row, times):
    """Writes the least time, or the speed if the row is about many bytes."""
    is_long = re.search("64 KiB|1 MiB", row)
    number = bytes_in(row) / min(times) if is_long else min(times)
    places = 0 if number >= 99.95 else 1 if number >= 9.995 else 2
    return f"{number:,.{places}f} {'GB/s' if is_long else 'ns'}"


def cell(row, times, keys):
    """Writes a time, or the median ratio over the layouts, if these were timed. It is bold if all
    are below 1, and has the least and the greatest if only some are."""
    if not all(key in times for key in keys):
        return ""
    if len(keys) == 1:
        return speed(row, times[keys[0]])
    ours, other = (times[key] for key in keys)
    ratios = [above / below for above, below in zip(other, ours)]
    median = f"{statistics.median(ratios):.2f}"
    least, greatest = round(min(ratios), 2), round(max(ratios), 2)
    if greatest < 1:
        return f"**{median}**"
    return f"{median} ({least:.2f} to {greatest:.2f})" if least < 1 else median


def table(times, columns, rows):
    """Returns a table of the rows that were timed."""
    lines = [[row, *(cell(row, times[row], keys) for keys in columns.values())] for row in rows]
    heads = [["Call", *columns], ["---", *["---:"] * len(columns)]]
    lines = heads + [line for line in lines if any(line[1:])]
    return "\n".join(f"| {' | '.join(line)} |" for line in lines)


def points(times, key):
    """Returns the points of a line in the picture, whose scales are logarithmic."""
    for row in times:
        if key in times[row] and re.fullmatch(r"hash of \d+ (bytes|KiB|MiB)", row):
            x, y = math.log2(bytes_in(row)), math.log2(bytes_in(row) / min(times[row][key]))
            if x >= 2 and x == int(x):
                yield f"{36 * x:.0f},{310 - 45 * y:.0f}"


def rewrite(name, pattern, parts):
    """Replaces each match in a file by the next part."""
    path, parts = HERE / name, iter(parts)
    text = re.sub(pattern, lambda _: next(parts), path.read_text("utf-8"), flags=re.DOTALL)
    path.write_text(text, "utf-8")


def rewrite_all(times, measured):
    """Makes the tables of the pages, and the lines of the picture, anew."""
    short = [table(times, SHORT_COLUMNS, SHORT_ROWS), measured.partition(";")[0] + "."]
    pages = {
        "speed.md": [
            *("## Beside komihash 0.5.0", table(times, RUST, times)),
            *("## Beside other hashes", table(times, C[""], times)),
            *("### For x86-64-v3", table(times, C["-v3"], times)),
            measured,
        ],
        "../README.md": short,
        "../rust/README.md": short,
    }
    for page, tables in pages.items():
        part = "\n\n".join(["<!-- speed -->", *tables, "<!-- /speed -->"])
        rewrite(page, "<!-- speed -->.*<!-- /speed -->", [part])
    lines = [f'points="{" ".join(points(times, key))}"' for key in LINES]
    rewrite("speed.svg", 'points="[^"]*"', lines)


def main(circumstances, word, *files):
    times, measured = read(files), f"Measured on {circumstances}."
    if word:
        tables = (table(times, columns, times) for columns in (RUST, *C.values()))
        print(*tables, measured, sep="\n\n")
    else:
        rewrite_all(times, measured)


main(*sys.argv[1:])
