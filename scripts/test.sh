#!/usr/bin/env bash
# Runs proofs and tests: test.sh PART, where a part is proofs, rust, c, verify or packages, a script
# of this folder. Its last line says how long it took, and what it needs. Without PART, all run at
# once, the others at a lower priority than proofs, and the last line is the sum, 'N passed, M
# failed', with ', K skipped' if tools are missing. With REQUIRE_ALL=1, c/tests/cases.sh skips less.
set -u
[ $# = 0 ] || exec bash "$(dirname "$0")/$1.sh"
. "$(dirname "$0")/parts.sh"

chmod 711 "$scratch" # rt runs tests as nobody.
parts=(proofs rust c verify packages) priority=0
for name in "${parts[@]}"; do
    : > "$scratch/$name"
    TMPDIR=$scratch nice -n $priority bash "scripts/$name.sh" > "$scratch/$name" 2>&1 &
    processes+=($!) priority=5
done
for name in "${parts[@]}"; do
    echo "== scripts/$name.sh"
    tail -n +1 -f --pid="${processes[0]}" "$scratch/$name"
    wait "${processes[0]}"
    add $? "$scratch/$name" || echo "FAILED: scripts/$name.sh"
    processes=("${processes[@]:1}")
done

grep -hE '^(skipped: |run it alone: .* bash )' "${parts[@]/#/$scratch/}"
tail -q -n 1 "${parts[@]/#/$scratch/}" | paste -d ' ' <(printf '%s:\n' "${parts[@]}") -
counted
