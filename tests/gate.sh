#!/bin/sh
# tests/gate.sh: the gate itself fails where it must. Parts and steps of every kind are run by tests/parts.sh, and the lines of the end are
# held against what they must be, but for the seconds. And tests/proofs.sh meets a stand-in for rt that says what rt ci may come to.
# Prints last 'N passed, M failed'.
set -u
cd "$(dirname "$0")/.." || exit 2
mine=$(mktemp -d) || exit 2
trap 'rm -rf "$mine"' EXIT
trap 'exit 2' HUP INT TERM
right=0
wrong=0

# What rt ci's last line is where it is run with names, which is not the gate.
named='3 passed, 0 failed (low and the crates below alone: not the gate)'

samples() {
    part "well" 20 sh -c 'echo "skipped: a thing"; echo "3 passed, 0 failed"'
    part "nothing passed" 20 echo "0 passed, 0 failed"
    part "no count" 20 echo "all well"
    part "more after the count" 20 sh -c 'echo "3 passed, 0 failed"; echo more'
    part "a count of crates that were named" 20 echo "$named"
    part "a bad status" 20 sh -c 'echo "3 passed, 0 failed"; exit 3'
    part "one failed" 20 sh -c 'echo "3 passed, 1 failed"; exit 1'
    part "too long" 1 sh -c 'sleep 20; echo "3 passed, 0 failed"'
    step "a step" 20 true
    step "a bad step" 20 false
    finish
}

# shellcheck disable=SC1091
(. tests/parts.sh && samples) >"$mine/out" 2>&1
status=$?
sed -e '1,/^$/d' -e 's/, [0-9]* seconds$//' "$mine/out" >"$mine/lines"
cat >"$mine/wanted" <<'TEXT'
part well: 3 passed, 0 failed, 1 skipped
part nothing passed: 0 passed, 1 failed, 0 skipped
part no count: 0 passed, 1 failed, 0 skipped
part more after the count: 0 passed, 1 failed, 0 skipped
part a count of crates that were named: 0 passed, 1 failed, 0 skipped
part a bad status: 3 passed, 1 failed, 0 skipped
part one failed: 3 passed, 1 failed, 0 skipped
part too long: 0 passed, 1 failed, 0 skipped
part a step: 1 passed, 0 failed, 0 skipped
part a bad step: 0 passed, 1 failed, 0 skipped
skipped: a thing
10 passed, 8 failed
TEXT

if [ "$status" -eq 1 ] && diff "$mine/lines" "$mine/wanted"; then
    right=$(wc -l <"$mine/wanted" | tr -d ' ')
else
    echo "FAILED: the gate's lines are not as they must be, or its status is $status"
    wrong=1
fi

# A stand-in for rt that says and does what it is told to, and writes down how and where it was called.
mkdir "$mine/bin"
cat >"$mine/bin/rt" <<TEXT
#!/bin/sh
echo "\$*" in "\$PWD" >>"$mine/calls"
cat "$mine/said"
exit "\$(cat "$mine/ends")"
TEXT
chmod +x "$mine/bin/rt"
ok='rt: ok; handles allowed: none; must-fail edits: 2 refused'
all='every proof and must-fail edit was done in this run'

proofs() { # NAME STATUS-OF-RT STATUS LAST-LINE LINE..: what tests/proofs.sh makes of a run of rt ci that prints these lines
    name=$1 ended=$2 last=$4
    echo "$2" >"$mine/ends"
    wanted=$3
    shift 4
    printf '%s\n' "$@" >"$mine/said"
    PATH="$mine/bin:$PATH" tests/proofs.sh >"$mine/out" 2>&1
    status=$?
    printed=$(tail -n 1 "$mine/out")
    if [ "$status" -eq "$wanted" ] && [ "$printed" = "$last" ] && [ "$(grep -cxF -f "$mine/said" "$mine/out")" -ge $# ]; then
        right=$((right + 1))
    else
        echo "FAILED: $name: rt ended with $ended, and tests/proofs.sh with $status and the line '$printed'"
        wrong=$((wrong + 1))
    fi
}

proofs "all well" 0 0 '5 passed, 0 failed' "$ok; $all" '5 passed, 0 failed'
proofs "an edit refused only by a limit" 0 0 '5 passed, 0 failed' "$ok, 1 of them only by a limit; $all" '5 passed, 0 failed'
proofs "a bad edit" 0 1 '5 passed, 1 failed' "$ok, 1 bad; $all" '5 passed, 0 failed'
proofs "bad edits, and some refused only by a limit" 0 1 '5 passed, 1 failed' "$ok, 1 of them only by a limit, 12 bad; $all" \
    '5 passed, 0 failed'
proofs "a crate that fails" 1 1 '4 passed, 1 failed' 'rt: FAILED: low' '4 passed, 1 failed'
proofs "a bad status" 2 1 '5 passed, 1 failed' "$ok; $all" '5 passed, 0 failed'
proofs "nothing passed" 0 1 '0 passed, 1 failed' "$ok; $all" '0 passed, 0 failed'
proofs "no line 'rt: ok'" 0 1 '5 passed, 1 failed' '5 passed, 0 failed'
proofs "no count" 0 1 '0 passed, 1 failed' "$ok; $all"
proofs "crates that were named" 0 1 '0 passed, 2 failed' 'rt: low and the crates below passed' "$named"

sort -u "$mine/calls" >"$mine/called"
if [ "$(cat "$mine/called")" = "ci in $PWD" ]; then
    right=$((right + 1))
else
    echo "FAILED: tests/proofs.sh calls rt otherwise than by a plain 'rt ci' at the top: $(cat "$mine/called")"
    wrong=$((wrong + 1))
fi

echo "$right passed, $wrong failed"
[ "$wrong" -eq 0 ]
