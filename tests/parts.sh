# shellcheck shell=sh
# tests/parts.sh: what ./test is made of, to be read by it: parts and steps, their counts and their limits.
#
# A part is a command that may print what it likes, and prints last 'N passed, M failed'. For whatever it leaves out, since the machine
# lacks something, it prints a line 'skipped: WHAT'. It fails by counting a failure, by another exit status than 0, by passing nothing, and
# by taking longer than its limit. A step makes something that parts need; it passes or fails as one.

passed=0
failed=0
scratch=$(mktemp -d) || exit 2
trap 'rm -rf "$scratch"' EXIT
trap 'exit 2' HUP INT TERM
: >"$scratch/parts"
: >"$scratch/skipped"

# Runs a command with a limit in seconds, shows and keeps what it prints, and sets status and seconds.
limited() { # SECONDS COMMAND..
    limit=$1
    shift
    begun=$(date +%s)
    echo 1 >"$scratch/status"
    { timeout -k 30 "$limit" "$@" 2>&1; echo $? >"$scratch/status"; } | tee "$scratch/log"
    status=$(cat "$scratch/status")
    seconds=$(($(date +%s) - begun))
    [ "$status" -ne 124 ] || echo "failed: stopped after its limit of $limit seconds: $*"
}

# Adds a part to the counts and to the lines of the end.
enter() { # NAME PASSED FAILED
    skipped=$(grep -c '^skipped:\{0,1\} ' "$scratch/log")
    grep '^skipped:\{0,1\} ' "$scratch/log" >>"$scratch/skipped"
    passed=$((passed + $2))
    failed=$((failed + $3))
    echo "part $1: $2 passed, $3 failed, $skipped skipped, $seconds seconds" >>"$scratch/parts"
}

part() { # NAME SECONDS COMMAND..
    name=$1
    shift
    limited "$@"
    counts=$(sed -n '$s/^\([0-9][0-9]*\) passed, \([0-9][0-9]*\) failed$/\1 \2/p' "$scratch/log")
    counts=${counts:-0 0}
    more=${counts#* }
    if [ "$more" -eq 0 ] && { [ "$status" -ne 0 ] || [ "${counts% *}" -eq 0 ]; }; then
        echo "failed: $name: status $status, ${counts% *} passed"
        more=1
    fi
    enter "$name" "${counts% *}" "$more"
}

step() { # NAME SECONDS COMMAND..
    name=$1
    shift
    limited "$@"
    if [ "$status" -eq 0 ]; then
        enter "$name" 1 0
    else
        echo "failed: $name: status $status"
        enter "$name" 0 1
        return 1
    fi
}

# The lines of the end; true only if all passed.
finish() {
    echo
    cat "$scratch/parts"
    sort "$scratch/skipped" | uniq -c | sed 's/^ *1 //'
    echo "$passed passed, $failed failed"
    [ "$failed" -eq 0 ] && [ "$passed" -gt 0 ]
}
