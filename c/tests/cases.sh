# Counts cases, for the scripts that source this file, in sh or bash. The last line of such a script
# is 'N passed, M failed', with ', K skipped' if there are any. With CASE, only those run whose
# names have it in them, and those that others need. Above the last line stands how to run alone
# what failed.
export LC_ALL=C
passed=0 failed=0 skipped=0 met= needed= CASE=${CASE:-} alone="bash $0"
scratch=$(mktemp -d) && scratch=$(realpath "$scratch") || exit
trap 'rm -rf "$scratch"' EXIT
: > "$scratch/to_run"

wanted() { case $1 in *"$CASE"*) met=${CASE:-$met} ;; *) test "$needed" ;; esac; }
# Runs a case that others need: always COMMAND..
always() {
    needed=yes
    "$@"
    needed=
}

# Runs a case, and prints what its command printed if that fails: run_case NAME COMMAND..
run_case() {
    case_name=$1
    shift
    wanted "$case_name" || return 0
    if ("$@") > "$scratch/case" 2>&1; then
        passed=$((passed + 1))
        echo "ok: $case_name"
    else
        failed=$((failed + 1))
        echo "FAILED: $case_name"
        cat "$scratch/case"
        echo "run it alone: CASE=\"$case_name\" $alone" >> "$scratch/to_run"
    fi
}

# A case that can't be run, since something is missing: skip NAME WHAT. With REQUIRE_ALL=1 in the
# environment, it fails if its name doesn't end in (optional).
skip() {
    wanted "$1" || return 0
    case ${REQUIRE_ALL:-0},$1 in
    0,* | *'(optional)') skipped=$((skipped + 1)) && echo "skipped: $1, which needs $2" ;;
    *) failed=$((failed + 1)) && echo "FAILED: $1, which needs $2" ;;
    esac
}

# A case that needs tools: needs 'TOOL..' NAME COMMAND..
needs() {
    tools=$1
    shift
    if type $tools > "$scratch/case" 2>&1; then run_case "$@"; else skip "$1" "$tools"; fi
}

# Prints the last lines, with what more the last one says: counted [MORE]
counted() {
    cat "$scratch/to_run"
    [ "$met" = "$CASE" ] || echo "FAILED: no case has '$CASE' in its name"
    echo "$passed passed, $failed failed$([ "$skipped" = 0 ] || echo ", $skipped skipped")${1:-}"
    [ "$failed" = 0 ] && [ "$passed$skipped" != 00 ] && [ "$met" = "$CASE" ]
}
