# For the parts of the gate, which source this file in bash: proofs.sh, rust.sh, c.sh, verify.sh and
# packages.sh. They count cases as c/tests/cases.sh does, and CASE chooses some.
set -uo pipefail
cd "$(dirname "${BASH_SOURCE[0]}")/.." || exit 1
. c/tests/cases.sh

# Adds the counts in the last line of a file, which a command with this status printed.
add() { # STATUS FILE
    local status=$1 before=$failed counts='^([0-9]+) passed, ([0-9]+) failed(, ([0-9]+) skipped)?'
    [[ $(tail -n 1 "$2") =~ $counts ]] || status=1
    passed=$((passed + ${BASH_REMATCH[1]:-0}))
    failed=$((failed + ${BASH_REMATCH[2]:-0}))
    skipped=$((skipped + ${BASH_REMATCH[4]:-0}))
    [ "$status" = 0 ] || [ "$failed" != "$before" ] || failed=$((failed + 1))
    [ "$failed" = "$before" ]
}
# Runs a command that counts cases: part COMMAND..
part() {
    wanted "$*" || return 0
    echo "== $*"
    (CASE= passed=0 failed=0 skipped=0 && "$@") 2>&1 | tee "$scratch/told"
    add $? "$scratch/told" && return
    echo "FAILED: $*"
    echo "run it alone: CASE=\"$*\" $alone" >> "$scratch/to_run"
    false
}
# The same, with tools: part_with 'TOOL..' COMMAND..
part_with() {
    if type $1 > "$scratch/case" 2>&1; then part "${@:2}"; else skip "${*:2}" "$1"; fi
}
# Runs a case if the compiler that a file names is here, and other tools are:
# by_its_compiler COMPILER FILE 'TOOL..' NAME COMMAND..
by_its_compiler() {
    local version
    version=$("$1" --version 2> "$scratch/case" | head -n 1)
    if [ "$version" ] && grep -aqF "${version% (built*}" "$2"; then
        needs "${@:3}"
    else
        skip "$4 (optional)" "the compiler that $2 names"
    fi
}
# Makes what cases need and another part tests: prepare COMMAND..
prepare() {
    ("$@") > "$scratch/case" 2>&1 && return
    failed=$((failed + 1))
    echo "FAILED: $*"
    cat "$scratch/case"
}
finished() { counted " in $SECONDS seconds; needs $1"; } # WHAT

export CARGO_TARGET_DIR=$scratch/crate
packed=$scratch/packed
release() { bash scripts/release.sh "$packed" "$@"; }

# Unpacks the package of the library for C, and makes it again from what was unpacked.
unpack() {
    release c && tar -xzf "$packed"/c/*.tar.gz -C "$scratch" && in_package dist &&
        cmp "$packed"/c/*.tar.gz "$scratch"/libkomihash_rattle-*/out/*.tar.gz
}
in_package() { make -C "$scratch"/libkomihash_rattle-*/ --no-print-directory "$@"; }

# Unpacks the package of the crate for Rust, which cargo builds first.
unpack_crate() {
    release rust && mkdir "$scratch/rust" &&
        tar -xzf "$packed"/rust/*.crate -C "$scratch/rust" --strip-components=1
}
in_crate() { (cd "$scratch/rust" && "$@"); }
