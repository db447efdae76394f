#!/bin/sh
# tests/proofs.sh: proves every crate, tries the must-fail edits, and runs the programs and the tests in the crates: a plain 'rt ci', on
# everything as it stands. 'rt ci' passes an edit that can't be applied or read, and only counts it as bad on its line 'rt: ok'; here it
# fails. Prints last 'N passed, M failed'.
set -u
cd "$(dirname "$0")/.." || exit 2
scratch=$(mktemp -d) || exit 2
trap 'rm -rf "$scratch"' EXIT
trap 'exit 2' HUP INT TERM

echo 2 >"$scratch/status"
{ rt ci 2>&1; echo $? >"$scratch/status"; } | tee "$scratch/log"
status=$(cat "$scratch/status")

wrong() {
    echo "failed: $*"
    failed=$((failed + 1))
}

counts=$(sed -n '$s/^\([0-9][0-9]*\) passed, \([0-9][0-9]*\) failed$/\1 \2/p' "$scratch/log")
counts=${counts:-0 0}
passed=${counts% *} failed=${counts#* }
if [ "$failed" -eq 0 ]; then
    { [ "$status" -eq 0 ] && [ "$passed" -gt 0 ]; } || wrong "rt ci ended with status $status, and $passed passed"
    grep '^rt: ok' "$scratch/log" >"$scratch/ok" || wrong "rt ci has no line 'rt: ok'"
    bad=$(sed -n 's/.*, \([0-9][0-9]*\) bad.*/\1/p' "$scratch/ok")
    [ "${bad:-0}" -eq 0 ] || wrong "must-fail edits that can't be tried: $bad"
fi
echo "$passed passed, $failed failed"
[ "$failed" -eq 0 ]
