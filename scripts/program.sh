#!/usr/bin/env bash
# Tests what no contract holds of the program that `rt ci` or `rt run` built: what `main` passes on,
# arguments, faults of the system, and refused allocations. Needs a C compiler. Takes one or two
# minutes, mostly for tests, the last of which are those of `komihash`.
set -uo pipefail
cd "$(dirname "$0")/../crates/komisum" || exit 1
. ../../c/tests/cases.sh

program=out/komisum
long=$(printf '%0300d' 0)

# Runs a command, and then prints its status and its standard error. Cases that CASE leaves out are
# begun too, beside others.
ran() {
    local errors=$scratch/errors-$BASHPID
    "$@" 2> "$errors"
    printf 'status %s\n' $?
    cat "$errors"
}

# Print what `ran` prints for a line and for a fault.
line() { printf '%s\nstatus 0\n' "$1"; }
fault() { printf 'status %s\nkomisum: %s\n' "$1" "$2"; }

run_case 'version 5 and another seed' diff <(line a53b9c6b9eb8afe9) \
    <(printf port | ran "$program" 5 7)

# The program's name need not be UTF-8, may be long, and may be empty.
named() { (exec -a "$1" "$program" 4 1f); }
for name in '' $'\xff' "$long"; do
    run_case "a name of ${#name} characters" \
        diff <(line 4bde5bdc63771675) <(printf a | ran named "$name")
done

# Arguments that it refuses. It then leaves all of the input to `cat`.
refuse() {
    local arguments=${*@Q}
    run_case "refused: ${arguments:0:40}" diff <(fault 2 'usage: komisum [4|5 SEED]'; echo input) \
        <({ ran "$program" "$@"; cat; } <<< input)
}
refuse 5
refuse ''
refuse 5 0 0
refuse 5 FF
refuse 5 $'\xff'
refuse 5 0 $'\xff'
refuse "$long"
refuse 5 0 "$long"

# Sizes around 4,096 bytes, the buffer's 65,536 and above 2^20. The hashes are those of the Rust
# crate. The longest input, 2^40 zero bytes, takes 7 minutes and was tried by hand: its line in
# version 5 is b105583901d0a6f8.
message() { seq 1 1000000 | head -c "$1"; }
while read -r size five four; do
    message "$size" > "$scratch/message"
    run_case "$size bytes from a file" diff <(line "$five") <(ran "$program" < "$scratch/message")
    run_case "$size bytes from a pipe" diff <(line "$four") <(message "$size" | ran "$program" 4 1f)
done << 'SIZES'
0 b7683ea7430132b4 f80fbf600441f1bd
1 7f7f0c9b903d173d 1b8661ed829a60b5
4095 69806fc0c3cc5d40 ef12c1e4d7a95ab5
4096 1b3c4e665cc74b70 dea512fcedc8e721
4097 191d2fed557f1698 323c66cc2b7850c7
65535 df8db897ce0759de 67e3d1ad2c888534
65536 3af8ee05196faaef 8ed2b597002c4474
65537 8a4bc5027a81c850 96048246b1a98f8e
1048577 388de716583121be d577466f23642771
SIZES

full() { "$program" > /dev/full; }
closed() { "$program" >&-; }
run_case 'the input is a folder' diff <(fault 1 'read failed') <(ran "$program" < /)
run_case 'a closed input' diff <(fault 1 'read failed') <(ran "$program" <&-)
for output in full closed; do
    run_case "a $output output" diff <(fault 1 'write failed') <(ran "$output" < stdin)
done

# Refuses all allocations of the program, from the one of this number on. It allocates its arguments
# and the buffer of its input, and nothing after it has read.
refusing() { REFUSE_FROM=$1 LD_PRELOAD=$scratch/refuse.so "$program" "${@:2}"; }
refuse_memory() {
    local count=$1 line=$2 request
    shift 2
    for ((request = 1; request <= count; request++)); do
        run_case "no memory from allocation $request on: ${*:-no arguments}" \
            diff <(fault 1 'no memory') <(ran refusing "$request" "$@" < stdin)
    done
    run_case "memory for $count allocations: ${*:-no arguments}" \
        diff <(line "$line") <(ran refusing "$request" "$@" < stdin)
}
# Makes a library that refuses all requests for memory from the one that REFUSE_FROM counts, from 1.
refuses() {
    "${CC:-cc}" -x c -shared -fPIC -o "$scratch/refuse.so" - << 'END'
#include <stdlib.h>

void *__libc_malloc(size_t size);
void *__libc_calloc(size_t count, size_t size);
void *__libc_realloc(void *old, size_t size);

static int refuses(void) {
    static unsigned long requests;
    const char *first = getenv("REFUSE_FROM");
    return ++requests >= (first ? strtoul(first, NULL, 10) : 1);
}

void *malloc(size_t size) { return refuses() ? NULL : __libc_malloc(size); }

void *calloc(size_t count, size_t size) { return refuses() ? NULL : __libc_calloc(count, size); }

void *realloc(void *old, size_t size) { return refuses() ? NULL : __libc_realloc(old, size); }
END
}
always run_case 'what refuses memory compiles' refuses
refuse_memory 2 "$(cat stdout)"
refuse_memory 5 4bde5bdc63771675 4 1f

# All but `main` takes no memory, so the first request of the tests would be a wrong one.
tests() { rt try --test --fail-alloc 1 --seconds 600 2>&1 | grep '^test result: ok\. [1-9]'; }
run_case 'the tests pass without their first allocation' tests
cd ../komihash && run_case 'those of komihash pass without it too' tests
counted
