# shellcheck shell=sh
# tests/holds.sh: for tests that try one fact after the other. Sourced: it makes the folder $scratch, which goes when the test ends, and
# has 'holds NAME COMMAND..', which counts in $passed or $failed whether the command succeeds, and shows what it printed if it doesn't.
scratch=$(mktemp -d) || exit 2
trap 'rm -rf "$scratch"' EXIT
trap 'exit 2' HUP INT TERM

passed=0
failed=0

holds() { # NAME COMMAND..
    name=$1
    shift
    if "$@" >"$scratch/out" 2>&1; then
        passed=$((passed + 1))
    else
        failed=$((failed + 1))
        echo "FAILED: $name: $(cat "$scratch/out")"
    fi
}
