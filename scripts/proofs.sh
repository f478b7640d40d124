#!/usr/bin/env bash
# Checks pages and sources, proves all crates in Rattle, and tests them: what a change of crates/
# needs.
. "$(dirname "$0")/parts.sh"

# An edit that can't be applied counts for nothing in `rt ci`, which prints a line for each edit
# that it tries in this run, and only the number of all where it kept earlier results.
all_refused() {
    local edits=(crates/*/must-fail/*.edit)
    [ "$(grep -c '\.edit: refused' "$scratch/told")" = ${#edits[@]} ] ||
        grep "must-fail edits: ${#edits[@]} refused" "$scratch/told"
}

if part python3 scripts/check_pages.py && part rt ci; then
    run_case 'rt ci refuses each must-fail edit' all_refused
    part python3 scripts/controls.py
    part bash scripts/attacks.sh
    part bash scripts/program.sh
else
    echo 'FAILED: the parts that need these were not run'
fi
finished "Rattle's kit, 8 GB of memory, Python 3.10 and a C compiler"
