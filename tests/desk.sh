#!/bin/sh
# tests/desk.sh: tests what people meet at the desk. First the scripts alone, with a stand-in for the programs and the kit, so that
# every answer can be tried; then with the programs themselves, which ./desk builds where they are missing. If one can't be built,
# nothing more is tried.
# Prints a line for each test, a line 'skipped: WHAT' for a part that can't be run here, and last 'N passed, M failed'. Exit status: 0
# if none failed.
set -u

root=$(CDPATH='' cd "$(dirname "$0")/.." && pwd -P) || exit 2
expected=$root/tests/expected
scratch=$(mktemp -d) || exit 2
trap 'rm -rf "$scratch"' EXIT
trap 'exit 2' HUP INT TERM
passed=0
failed=0

# ---- how a test is told

pass() {
    passed=$((passed + 1))
    printf 'ok      %s\n' "$1"
}

fail() { # NAME WHY
    failed=$((failed + 1))
    printf 'FAILED  %s: %s\n' "$1" "$2"
}

skip() { printf 'skipped: %s\n' "$1"; }

finish() {
    printf '%s passed, %s failed\n' "$passed" "$failed"
    [ "$failed" -eq 0 ]
    exit
}

holds() { # NAME COMMAND..
    name=$1
    shift
    if "$@" >"$scratch/out" 2>&1; then pass "$name"; else fail "$name" "$(cat "$scratch/out")"; fi
}

# Runs a command and keeps its status and what it said, for gives and says.
call() {
    "$@" >"$scratch/out" 2>"$scratch/err"
    status=$?
}

gives() { # NAME STATUS FILE: what was called ended so and printed exactly this
    if [ "$status" -ne "$2" ]; then
        fail "$1" "status $status: $(cat "$scratch/out" "$scratch/err")"
    elif ! cmp -s "$scratch/out" "$3"; then
        fail "$1" "printed $(cat "$scratch/out")"
    else
        pass "$1"
    fi
}

says() { # NAME STATUS TEXT..: what was called ended so and said each of these
    says_name=$1 says_status=$2
    shift 2
    if [ "$status" -ne "$says_status" ]; then
        fail "$says_name" "status $status: $(cat "$scratch/out" "$scratch/err")"
        return
    fi
    for text in "$@"; do
        if ! cat "$scratch/out" "$scratch/err" | grep -qF -e "$text"; then
            fail "$says_name" "it does not say '$text' but: $(cat "$scratch/out" "$scratch/err")"
            return
        fi
    done
    pass "$says_name"
}

# ---- stand-ins

kit=$scratch/kit
tree=$scratch/tree
plain=$scratch/plain

# A kit whose rt writes down what it was called for, and with which crate, and puts for a program into out/NAME what runs $kit/program.
# Before it ends it does what is asked by a file: $kit/refuses to fail at the crate that it names, though a program is there then, and at a
# program $kit/slow to take a while, and $kit/edits to change a source meanwhile.
make_kit() {
    mkdir -p "$kit/bin"
    echo 'stand-in' >"$kit/KIT-ID"
    cat >"$kit/bin/rt" <<'TEXT'
#!/bin/sh
kit=$(cd "$(dirname "$0")/.." && pwd)
crate=${PWD##*/}
echo "$* $crate" >>"$kit/calls"
if [ "$1" = run ]; then
    mkdir -p out
    printf '%s\n' '#!/bin/sh' "exec '$kit/program' \"\$@\"" >"out/$crate"
    chmod +x "out/$crate"
    [ ! -f "$kit/edits" ] || echo '// edited' >>src/main.rt
    [ ! -f "$kit/slow" ] || { sleep "$(cat "$kit/slow")" & wait; }
fi
if [ -f "$kit/refuses" ] && [ "$(cat "$kit/refuses")" = "$crate" ]; then
    echo "fn $crate::main: not proved"
    exit 1
fi
TEXT
    chmod +x "$kit/bin/rt"
}

# A repository with the scripts as they are and nothing built.
make_tree() {
    mkdir -p "$tree/docs" "$tree/crates/part/src" "$tree/crates/part/must-fail" "$tree/crates/desk/src" "$tree/crates/both/src" \
        "$tree/crates/accept/src" "$tree/crates/compare/src" "$tree/crates/other/src"
    cp -R "$root/desk" "$root/tools" "$tree"
    cp "$root/docs/CARD.md" "$tree/docs"
    printf '%s\n' '# a comment' 'part:' 'desk: part' 'both: part' 'accept: part' 'compare: part' 'other: part' >"$tree/crates.txt"
    for crate in part desk both accept compare other; do echo 'fn main() {}' >"$tree/crates/$crate/src/main.rt"; done
}

# A PATH of the usual tools alone: no rt, no Graphviz.
make_plain() {
    mkdir "$plain"
    for tool in sh awk cat chmod cmp cp cut dirname find flock grep head mkdir mktemp mv od readlink rm sed setsid sha256sum sleep sort \
        tail touch tr uname wc; do
        ln -s "$(command -v "$tool")" "$plain/$tool"
    done
}

# The program that the next calls meet: it keeps what it reads, the words it is called with and the file that the second word may name, and
# prints these lines.
program_prints() { # LINE..
    {
        printf '%s\n' '#!/bin/sh' "cat >'$scratch/received'" "printf '%s\\n' \"\$@\" >'$scratch/words'"
        printf '%s\n' "[ ! -f \"\${2:-}\" ] || cp \"\$2\" '$scratch/received.rows'" "cat <<'TEXT'"
        printf '%s\n' "$@" 'TEXT'
    } >"$kit/program"
    chmod +x "$kit/program"
}

# The answers of a program that finds no controller up to this patience; the program for two tables also prints which.
none_up_to() { # LAST [WHICH]
    awk -v last="$1" -v which="${2:-}" '
        BEGIN { for (k = 0; k <= last; k++) print "k " k " code 1 place 0" which " rounds 1 winners 1 start 0" }'
}

stand_in() { # WORD..
    call env PATH="$kit/bin:$plain" RATTLE_HOME="$kit" "$tree/desk" "$@"
}

# ---- the scripts as text

# Every script of the repository: a file whose first line names a shell. The parts of ./desk are read with it.
scripts() {
    find "$root" \( -name .git -o -name target -o -name crates \) -prune -o -type f -exec awk '
        FNR == 1 && /^#!.*sh$/ { print FILENAME }' {} +
}

test_scripts() {
    scripts | sort >"$scratch/scripts"
    holds "the scripts are found" grep -qxF "$root/test" "$scratch/scripts"
    for script in "$root"/tools/desk/*.sh; do holds "sh can read tools/desk/$(basename "$script")" sh -n "$script"; done
    command -v shellcheck >/dev/null || skip "shellcheck, which is not installed"
    while IFS= read -r script; do
        path=${script#"$root/"}
        holds "sh can read $path" sh -n "$script"
        ! command -v shellcheck >/dev/null || holds "shellcheck finds nothing in $path" shellcheck -x -P SCRIPTDIR "$script"
    done <"$scratch/scripts"
}

test_card() {
    code=0
    for name in REALIZABLE UNREALIZABLE BOUND ROOM LENGTH RECORD ORDER STATES START EDGE GAP FULL NOTHING LETTERS SIZE ROWS; do
        row="^\\| $code \\| $name \\| [A-Z][^|]*\\. \\| [A-Z][^|]*\\. \\|\$"
        holds "the card has code $code, $name" grep -qE "$row" "$root/docs/CARD.md"
        code=$((code + 1))
    done
    sed '/^<div/,$d' "$root/docs/CARD.md" >"$scratch/page"
    holds "the card's first page has at most 450 words" test "$(wc -w <"$scratch/page")" -le 450
    for code in 0 1 4 5 6 7 8 9 10 11 13 14; do holds "code $code is on the first page" grep -q "^| $code |" "$scratch/page"; done
    for field in k code place which rounds winners start; do
        holds "the card explains $field" grep -q "[*][*]${field}[*][*][:,]" "$scratch/page"
    done
    call "$root/desk" --card
    says "the card as a page to print" 0 '<h1>The card: what the desk' '<tr><td>14</td><td>SIZE</td>' '<b>winners</b>:' '</ul>' \
        '<code>./desk --plain FILE</code>' 'page-break-before: always'
    holds "it has every row" test "$(grep -c '<tr><td>' "$scratch/out")" -eq "$(grep -c '^| [0-9]' "$root/docs/CARD.md")"
}

# What the documents name is there, in the repository or in each crate, and a crate stands below all that it uses.
test_documents() {
    # shellcheck disable=SC2016
    holds "in crates.txt a crate stands below all that it uses" awk '
        { sub(/#.*/, "") }
        /:/ { sub(/:/, " "); line[$1] = NR; uses[$1] = $0 }
        END {
            for (crate in uses) {
                last = split(uses[crate], used, " ")
                for (i = 2; i <= last; i++)
                    if (line[used[i]] > line[crate]) {
                        print crate " stands above " used[i]
                        wrong = 1
                    }
            }
            exit wrong
        }' "$root/crates.txt"
    for document in README CARD TABLES READING; do
        document=$(find "$root/README.md" "$root/docs" -name "$document.md")
        # shellcheck disable=SC2016
        for path in $(grep -ho '`[^` ]*/[^` ]*`' "$document" | tr -d '`' | grep -v -e '^target/' -e '^crates/NAME/' | sort -u); do
            place=$root/$path
            [ -e "$place" ] || place=$root/crates/meaning/$path
            holds "${document#"$root/"} names $path" test -e "$place"
        done
    done
}

# ---- calls that are not right

test_calls() {
    call "$root/desk" --help
    says "--help" 0 "./desk --picture-table FILE" "Exit status"
    call "$root/desk"
    says "no file named" 2 "Name one file with a table"
    call "$root/desk" one two
    says "two files named" 2 "Name one file with a table"
    call "$root/desk" --plain
    says "an option and no file" 2 "Name one file with a table"
    call "$root/desk" --join one
    says "one file where two are needed" 2 "Name two files with a table each: ./desk --join A B"
    call "$root/desk" --parts one two three
    says "three files where two are needed" 2 "Name two files with a table each: ./desk --parts A B"
    call "$root/desk" --check one two
    says "a table and rows without a patience" 2 "./desk --check TABLE ROWS K"
    for word in '' -1 1.0 one 0000000001; do
        call "$root/desk" --check "$root/tables/lamp.table" "$root/tables/lamp.rows" "$word"
        says "the patience '$word'" 2 "The patience is a number from 0 to 7: ./desk --check TABLE ROWS K."
    done
    call "$root/desk" --compare
    says "no position" 2 "Give two positions of one side, eight digits each: ./desk --compare A B."
    call "$root/desk" --compare 00000000
    says "one position" 2 "Give two positions of one side, eight digits each: ./desk --compare A B."
    call "$root/desk" --compare 00000000 00000000 00000000
    says "three positions" 2 "Give two positions of one side, eight digits each: ./desk --compare A B."
    call "$root/desk" --colour "$root/tables/owed.table"
    says "an option that is not there, and a file" 2 "./desk --help"
    call "$root/desk" --colour
    says "an option that is not there" 2 "There is no option --colour."
}

test_files() {
    stand_in "$scratch/nowhere"
    says "a file that is not there" 2 "There is no file $scratch/nowhere."
    stand_in "$scratch"
    says "a folder" 2 "$scratch is a folder."
    echo 1020 >"$scratch/closed"
    chmod 000 "$scratch/closed"
    if [ -r "$scratch/closed" ]; then
        skip "a file that may not be read, since this user may read every file"
    else
        stand_in "$scratch/closed"
        says "a file that may not be read" 2 "$scratch/closed can't be read."
    fi
    stand_in /dev/zero
    says "bytes that never end" 2 "/dev/zero has more than 1048576 bytes, or it never ends."
    mkfifo "$scratch/pipe"
    yes 1020 >"$scratch/pipe" 2>/dev/null &
    stand_in "$scratch/pipe"
    says "a text that never ends" 2 "$scratch/pipe has more than 1048576 bytes, or it never ends."
    stand_in --join "$root/tables/owed.table" "$scratch/nowhere"
    says "a second file that is not there" 2 "There is no file $scratch/nowhere."
    stand_in --check "$root/tables/owed.table" "$scratch/nowhere" 0
    says "rows that are not there" 2 "There is no file $scratch/nowhere."
    stand_in --check "$scratch/nowhere" "$root/tables/lamp.rows" 0
    says "a table for rows that is not there" 2 "There is no file $scratch/nowhere."
}

# ---- text and bytes

# OWED, a record a line.
owed_records() { printf '%s\n' 1020 1100 2000 2110 3000 3010 3101 3110 4000 4010 4011 4101 4111; }

# Records as bytes, one digit a byte.
as_bytes() { printf %b "$(sed 's/./\\00&/g' | tr -d '\n')"; }

reaches_the_program() { # NAME FILE
    rm -f "$scratch/received"
    stand_in "$2"
    if [ "$status" -eq 0 ] && cmp -s "$scratch/received" "$scratch/owed.bytes"; then
        pass "$1"
    else
        fail "$1" "status $status; the program met $(od -An -tu1 "$scratch/received")"
    fi
}

test_text() {
    program_prints 'k 0 code 0 place 0 rounds 0 winners 1 start 0' '0 1 0 0' '0 1 1 0'
    owed_records >"$scratch/table"
    owed_records | as_bytes >"$scratch/owed.bytes"
    reaches_the_program "digits without blanks" "$scratch/table"
    owed_records | sed 's/./ &  /g' >"$scratch/blanks"
    reaches_the_program "digits with blanks" "$scratch/blanks"
    owed_records | awk '{ printf "\t%s \t# record %d: 9999\n\n  # 1234\n", $0, NR }' >"$scratch/comments"
    reaches_the_program "comments, blank lines and tabs" "$scratch/comments"
    owed_records | awk '{ printf "%s # gr\303\274n\n", $0 }' >"$scratch/letters"
    reaches_the_program "comments with letters of any language" "$scratch/letters"
    owed_records | awk '{ printf "%s\r\n", $0 }' >"$scratch/returns"
    reaches_the_program "lines that end in a return and a newline" "$scratch/returns"
    owed_records | awk '{ printf "%s%s", (NR > 1 ? "\n" : ""), $0 }' >"$scratch/unended"
    reaches_the_program "a last line without its end" "$scratch/unended"
    { printf '\357\273\277'; owed_records; } >"$scratch/mark"
    reaches_the_program "a byte order mark" "$scratch/mark"
    { printf '\357\273\277# a comment\n'; owed_records; } >"$scratch/mark"
    reaches_the_program "a byte order mark before a comment" "$scratch/mark"
    cp "$scratch/table" "$scratch/a = b \\n 'table'"
    reaches_the_program "a file with a strange name" "$scratch/a = b \\n 'table'"
    reaches_the_program "a file of bytes" "$scratch/owed.bytes"
    reaches_the_program "the table in the folder" "$root/tables/owed.table"
}

# A bad line is refused before anything is built or run: here there is nothing that could be.
refused_text() { # NAME LINE TEXT WHY; the text goes to printf
    # shellcheck disable=SC2059
    { printf '1020\n\n# comment\n'; printf "$3"; printf '\n1100\n'; } >"$scratch/bad"
    rm -f "$scratch/received"
    call env PATH="$plain" RATTLE_HOME="$scratch/nowhere" "$tree/desk" "$scratch/bad"
    says "$1" 2 "Line 4 of $scratch/bad $4:" "    $2" "nothing was run"
    [ ! -e "$scratch/received" ] || fail "$1" "the program was run"
}

test_bad_text() {
    refused_text "a letter in a record" '10a0' '10a0' "has something other than digits in its record"
    refused_text "a word in place of a record" 'start  # here' 'start  # here' "has something other than digits in its record"
    refused_text "a sign in a record" '1 0 -2 0' '1 0 -2 0' "has something other than digits in its record"
    refused_text "a comma in a record" '1,0,2,0' '1,0,2,0' "has something other than digits in its record"
    refused_text "a fifth digit" '1 0 2 0 0  # five' '1 0 2 0 0  # five' "has more than four digits"
    refused_text "two records on a line" '1020 1100' '1020 1100' "has more than four digits"
    refused_text "a digit short" '102 # three' '102 # three' "has fewer than four digits"
    refused_text "a blank that is not plain" '1100??# note' '1100\302\240# note' "has something other than digits in its record"
    refused_text "a control character" '1100?[2J' '1100\033[2J' "has a control character"
    refused_text "a return within a line" '11?00' '11\r00' "has a control character"
    refused_text "a return within a comment" '1100 # one?1200 # two' '1100 # one\r1200 # two' "has a control character"
}

# ---- the plain words

owed=$scratch/owed

# What is said where patience 0 was not enough since a start state is marked.
marked_start='With less patience none can be made: a start state is marked, and to begin there is a visit.'

# What the card says of a code: its name and what it means.
meaning_of() { awk -F ' [|] ' -v code="| $1" '$1 == code { print $2 ": " $3 }' "$root/docs/CARD.md"; } # CODE

test_words() {
    owed_records | awk 'NR == 1 { print "# OWED" } { print $0 "  # comment" }' >"$owed"
    program_prints 'k 0 code 0 place 0 rounds 0 winners 1 start 0' '0 1 0 0' '0 1 1 0'
    stand_in --plain "$owed"
    says "one state" 0 "A controller was made: with patience 0 it has 1 state of its own."
    program_prints "$(none_up_to 0)" 'k 1 code 0 place 0 rounds 0 winners 2 start 1' '1 1 0 0' '1 1 1 0' '0 1 0 0' '0 1 1 1'
    stand_in --plain "$owed"
    says "two states, patience 1" 0 "with patience 1 it has 2 states of its own. With less patience none can be made."
    holds "no mark of a start is spoken of" test "$(grep -c 'is marked' "$scratch/out")" -eq 0
    owed_records | sed 's/^1020/1030/' >"$scratch/marked"
    stand_in --plain "$scratch/marked"
    says "a marked start state, patience 1" 0 "$marked_start"
    program_prints "$(none_up_to 1)" 'k 2 code 0 place 0 rounds 0 winners 1 start 0' '0 1 0 0' '0 1 1 0'
    stand_in --plain "$scratch/marked"
    says "a marked start state, patience 2" 0 "it has 1 state of its own. With less patience none can be made."
    program_prints "$(none_up_to 7)"
    stand_in --plain "$owed"
    says "no controller" 1 "Tried with patience 0 to 7: no controller." "The rule writer should look at which rule can't be kept."
    program_prints 'k 0 code 6 place 12 rounds 0 winners 0 start 0'
    stand_in --plain "$owed"
    says "a record and its line" 3 "The record is 4111, line 14 of $owed (record 12, counted from 0)." "Before it stands 4101, line 13."
    stand_in --plain "$scratch/owed.bytes"
    says "a record and its bytes" 3 "The record is 4 1 1 1, bytes 48 to 51 of $scratch/owed.bytes (record 12, counted from 0)." \
        "Before it stands 4 1 0 1, bytes 44 to 47." "was taken as plain bytes"
    program_prints "$(none_up_to 0)" 'k 1 code 11 place 0 rounds 0 winners 0 start 0'
    stand_in --plain "$owed"
    says "full with patience 1" 3 "Tried with patience 0: no controller. With patience 1 the answer is another:" \
        "Refused with code 11, FULL:"
    for code in 2 3 4 5 6 7 8 9 10 11 12 13 14; do
        program_prints "k 0 code $code place 1 rounds 0 winners 0 start 0"
        stand_in --plain "$owed"
        says "code $code in the card's words" 3 "Refused with code $code, $(meaning_of "$code")"
    done
}

# What is found where a code comes without a record.
finds() { # NAME CODE EDIT TEXT: OWED with this change, refused with this code
    owed_records | sed "$3" >"$scratch/faulty"
    program_prints "k 0 code $2 place 0 rounds 0 winners 0 start 0"
    stand_in --plain "$scratch/faulty"
    says "$1" 3 "In $scratch/faulty: $4"
}

test_finds() {
    finds "no record" 4 d "records found: 0."
    finds "a state left out" 7 s/^1100/1200/ "the controller-turn state 2 stands where state 1 should be: 1200 (line 2)."
    finds "the first state left out" 7 /^2000/d "the world-turn state 1 stands where state 0 should be: 2110 (line 3)."
    finds "a state twice" 7 's/^1100/1030/' "the controller-turn state 0 has a second record, 1030 (line 2)."
    finds "no state of the controller's turn" 7 /^1/d "there is no controller-turn state (no record begins with 1)."
    finds "no state of the world's turn" 7 /^2/d "there is no world-turn state (no record begins with 2)."
    finds "no start" 8 s/^1020/1010/ "the controller-turn states are 1010 (line 1), 1100 (line 2); none has 2 or 3 in its third place."
    finds "a gap at the world's turn" 10 /^4111/d \
        "the first gap: the world-turn state 1 has no edge for input 1 (no record begins with 411)."
    finds "a gap at the controller's turn" 10 /^3101/d \
        "the first gap: the controller-turn state 1 has no edge for output 0 (no record begins with 310)."
    finds "no input at all" 10 /^4/d "there is no edge on an input at all (no record begins with 4)."
}

# ---- two tables

# Answers of the program for two tables.
both_say() { # CODE PLACE WHICH
    program_prints "k 0 code $1 place $2 which $3 rounds 0 winners 0 start 0"
    stand_in --parts "$scratch/one" "$scratch/two"
}

test_two() {
    owed_records >"$scratch/one"
    { echo '# two' && owed_records; } >"$scratch/two"
    both_say 9 12 1
    says "a record of the first table" 3 "Refused with code 9, EDGE:" \
        "The record is 4111, line 13 of $scratch/one (record 12, counted from 0)."
    holds "the program is called for parts" grep -qx parts "$scratch/words"
    both_say 6 12 2
    says "a record of the second table" 3 "The record is 4111, line 14 of $scratch/two (record 12, counted from 0)."
    both_say 8 0 2
    says "what is found in the second table" 3 "In $scratch/two: the controller-turn states are 1020 (line 2), 1100 (line 3);"
    both_say 11 0 1
    says "the room for the first table" 3 "The room ran out while $scratch/one was solved alone."
    both_say 11 0 0
    says "the room for both" 3 "The room ran out while the two were solved together."
    printf '%s\n' 1020 2000 3000 4000 4010 4020 >"$scratch/two"
    both_say 13 0 0
    says "letters that differ" 3 "$scratch/one has the outputs 0 to 1 and the inputs 0 to 1." \
        "$scratch/two has the outputs 0 and the inputs 0 to 2."
    both_say 14 0 0
    says "states that are too many" 3 "$scratch/one has 2 controller-turn and 2 world-turn states." \
        "$scratch/two has 1 controller-turn and 1 world-turn states." "Together that is 3 controller-turn and 3 world-turn states."
    program_prints "$(none_up_to 7 ' which 0')"
    stand_in --parts "$scratch/one" "$scratch/two"
    says "no controller by parts" 1 "k 7 code 1 place 0 which 0 " "Tried with patience 0 to 7: no controller."
    program_prints "$(none_up_to 0 ' which 0')" 'k 1 code 0 place 0 which 0 rounds 0 winners 1 start 0' '0 1 0 0' '0 1 1 0'
    stand_in --parts "$scratch/one" "$scratch/marked"
    says "a marked start state of the second table" 0 "$marked_start"
    program_prints 'code 13 place 0 which 0 rounds 0 winners 0 start 0'
    stand_in --join "$scratch/one" "$scratch/two"
    says "a join that is refused" 3 "Refused with code 13, LETTERS:" "$scratch/two has the outputs 0 and the inputs 0 to 2."
    holds "it writes no table then" test ! -s "$scratch/out"
    program_prints 'code 0 place 8 which 0 rounds 0 winners 0 start 0' '1 0 2 0' '1 1 3 0'
    stand_in --join "$scratch/one" "$scratch/two"
    says "a record that comes from neither table" 4 "a record that comes from neither table"
}

# ---- rows from elsewhere

asked_rows=$scratch/rows

# Rows as bytes, any four numbers a line.
rows_as_bytes() { printf %b "$(awk '{ printf "\\0%o\\0%o\\0%o\\0%o", $1, $2, $3, $4 }')"; }

# A right controller for OWED with a state of two digits and one of three: it warns when a warning is owed.
good_rows() { printf '%s\n' '40 0 0 40' '40 0 1 255' '255 1 0 40' '255 1 1 255'; }

rows_reach_the_program() { # NAME
    rm -f "$scratch/received.rows"
    stand_in --check "$owed" "$asked_rows" 3
    if [ "$status" -eq 0 ] && cmp -s "$scratch/received.rows" "$scratch/rows.bytes"; then
        pass "$1"
    else
        fail "$1" "status $status; the program met $(od -An -tu1 "$scratch/received.rows"): $(cat "$scratch/err")"
    fi
}

test_rows_text() {
    program_prints 'k 3 code 0 place 0'
    good_rows | rows_as_bytes >"$scratch/rows.bytes"
    good_rows >"$asked_rows"
    rows_reach_the_program "rows as numbers"
    holds "the patience is handed on" grep -qx 3 "$scratch/words"
    good_rows | awk '{ printf "\t%s \t# row %d: 9 9 9 9\r\n\n  # 1 2 3 4\n", $0, NR }' >"$asked_rows"
    rows_reach_the_program "rows with comments, blank lines and tabs"
    good_rows | sed 's/ /   00/g' >"$asked_rows"
    rows_reach_the_program "rows with more blanks, and zeros before a number"
    { none_up_to 0 && echo 'k 1 code 0 place 0 rounds 1 winners 2 start 1' && good_rows; } >"$asked_rows"
    rows_reach_the_program "rows with the answers that ./desk prints"
    { none_up_to 0 ' which 0' && good_rows && echo 'A controller was made: with patience 1 it has 2 states of its own.'; } >"$asked_rows"
    rows_reach_the_program "rows with the sentence that ./desk --parts prints"
    cp "$scratch/rows.bytes" "$asked_rows"
    rows_reach_the_program "a file of rows as bytes"
}

# A bad line is refused before anything is built or run.
refused_rows() { # NAME LINE WHY
    { echo '0 1 0 0' && echo && echo "$2"; } >"$asked_rows"
    call env PATH="$plain" RATTLE_HOME="$scratch/nowhere" "$tree/desk" --check "$owed" "$asked_rows" 0
    says "$1" 2 "Line 3 of $asked_rows $3:" "    $2" "A row is four numbers on a line of its own" "nothing was run"
}

test_bad_rows_text() {
    refused_rows "a letter in a row" '0 1 x 0' "has something other than numbers in its row"
    refused_rows "a number of a row left out" '0 1 0' "has fewer than four numbers"
    refused_rows "a row without blanks" '0100' "has fewer than four numbers"
    refused_rows "a fifth number" '0 1 0 0 0 # five' "has more than four numbers"
    refused_rows "a number that is no byte" '0 1 1 256' "has a number over 255"
}

# What came of a check in plain words. The table is OWED, which has two outputs and two inputs.
checked_with() { # CODE ROW..
    program_prints "k 2 code $1 place 0"
    shift
    { echo '# rows' && printf '%s\n' "$@"; } >"$asked_rows"
    stand_in --check "$owed" "$asked_rows" 2
}

finds_row() { # NAME CODE WHERE ROW..: what is said of these rows
    finds_name=$1 finds_code=$2 finds_text=$3
    shift 3
    checked_with "$finds_code" "$@"
    says "$finds_name" 3 "Refused with code $finds_code" "In $asked_rows$finds_text"
}

test_rows_words() {
    checked_with 0 '0 1 0 0' '0 1 1 0'
    says "rows that are right" 0 'k 2 code 0 place 0' "Yes: whoever follows these rows keeps the rules of $owed within patience 2" \
        "Pass the rows on to the handset fitter."
    checked_with 1 '0 0 0 0' '0 0 1 0'
    says "rows that are wrong" 1 'k 2 code 1 place 0' "No: for some inputs, following these rows breaks the rules of $owed" \
        "more often than patience 2 allows." "Send them back to their maker"
    program_prints 'k 0 code 1 place 0'
    echo '1 0 3 0' >"$asked_rows"
    stand_in --check "$owed" "$asked_rows" 0
    says "rows that are wrong with patience 0" 1 "Send them back to their maker"
    stand_in --check "$scratch/marked" "$asked_rows" 0
    says "rows for a table with a marked start state, patience 0" 1 "more often than patience 0 allows." \
        "Don't put these rows into a cradle. No rows can do with patience 0: a start state of the table is marked." \
        "To begin there is a visit. Ask for a patience from 1 to 7, or ask the rule writer whether that mark is meant."
    holds "they are not sent back then" test "$(grep -c 'Send them back' "$scratch/out")" -eq 0
    program_prints 'k 8 code 2 place 0'
    stand_in --check "$scratch/owed.bytes" "$asked_rows" 8
    says "a patience over 7" 3 "Refused with code 2, BOUND: The patience asked for is over 7." "Ask for a patience from 0 to 7."
    holds "nothing more is said of it" test "$(wc -l <"$scratch/out")" -eq 3
    program_prints 'k 2 code 9 place 12'
    stand_in --check "$owed" "$asked_rows" 2
    says "a record of the table" 3 "Refused with code 9, EDGE:" "The record is 4111, line 14 of $owed (record 12, counted from 0)."
    program_prints 'k 2 code 8 place 0'
    stand_in --check "$owed" "$asked_rows" 2
    says "what is found in the table" 3 "In $owed: the controller-turn states are 1020 (line 2), 1100 (line 3);"
    program_prints 'k 1 code 1 place 0'
    stand_in --check "$owed" "$asked_rows" 2
    says "an answer for another patience" 4 "The program's output broke off before its end"
    for code in 2 4 5 6 7 8 9 10 13 15; do
        checked_with "$code" '0 1 0 0' '0 1 1 0'
        says "code $code of a check in the card's words" 3 "Refused with code $code, $(meaning_of "$code")"
    done
}

# Each clause of 15, and the line that breaks it.
test_rows_form() {
    checked_with 15 '# none'
    says "no row" 3 "In $asked_rows: there is no row." "Put right the row that is named"
    awk 'BEGIN { for (i = 0; i < 2049; i++) print 0, 0, 0, 0 }' >"$asked_rows"
    stand_in --check "$owed" "$asked_rows" 2
    says "a row too many" 3 "In $asked_rows, line 2049 (0 0 0 0): there are at most 2,048 rows, and this is one more."
    finds_row "a first input that is not 0" 15 ", line 2 (0 1 1 0): the inputs of state 0 begin with 1, and not with 0." '0 1 1 0'
    finds_row "an input left out" 15 ", line 3 (0 1 2 0): after input 0 of state 0 comes input 2." '0 1 0 0' '0 1 2 0'
    finds_row "an input twice" 15 ", line 3 (0 1 0 0): after input 0 of state 0 comes input 0." '0 1 0 0' '0 1 0 0'
    finds_row "an input over 7" 15 ", line 10 (0 1 8 0): its input is 8, and the largest is 7." '0 1 0 0' '0 1 1 0' '0 1 2 0' \
        '0 1 3 0' '0 1 4 0' '0 1 5 0' '0 1 6 0' '0 1 7 0' '0 1 8 0'
    finds_row "a state with fewer inputs" 15 \
        ", line 4 (3 1 0 0): the inputs of state 3 end with 0, and those of state 0, the first, with 1." \
        '0 1 0 3' '0 1 1 0' '3 1 0 0' '4 1 0 0' '4 1 1 0'
    finds_row "a last state with more inputs" 15 ", line 4 (3 1 1 0): the inputs of state 3 end with 1" '0 1 0 3' '3 1 0 0' '3 1 1 0'
    finds_row "a later state that begins with input 1" 15 ", line 3 (3 1 1 0): the inputs of state 3 begin with 1" '0 1 0 3' '3 1 1 0'
    finds_row "two outputs of a state" 15 ", line 3 (0 0 1 0): state 0 gives output 0 here and output 1 in the row before." \
        '0 1 0 0' '0 0 1 0'
    finds_row "an output over 7" 15 ", line 2 (0 8 0 0): its output is 8, and the largest is 7." '0 8 0 0'
    finds_row "states that descend" 15 ", line 4 (10 1 0 9): state 10 comes after state 90. The states after the first one ascend." \
        '9 1 0 9' '90 1 0 9' '10 1 0 9'
    finds_row "the first state again" 15 ", line 4 (9 1 0 9): state 9, the first, comes again." '9 1 0 9' '10 1 0 9' '9 1 0 9'
    finds_row "a next state without rows" 15 ", line 3 (0 1 1 100): its next state 100 has no rows." '0 1 0 0' '0 1 1 100'
}

# The same of bytes, by the row's number; and 13, whose rows are well formed.
test_rows_letters() {
    program_prints 'k 2 code 15 place 0'
    printf '0 1 0 0\n0 1 0 0\n' | rows_as_bytes >"$asked_rows"
    stand_in --check "$owed" "$asked_rows" 2
    says "bytes with an input twice" 3 \
        "In $asked_rows, row 1 counted from 0, bytes 4 to 7 (0 1 0 0): after input 0 of state 0 comes input 0." \
        "$asked_rows was taken as plain bytes."
    printf '\0\1\0\0\0\1\1' >"$asked_rows"
    stand_in --check "$owed" "$asked_rows" 2
    says "bytes that are cut short" 3 "In $asked_rows: 7 bytes are no whole number of rows."
    finds_row "an output that the table does not have" 13 ", line 4 (5 2 0 0): its output is 2, and the outputs of the table are 0 to 1." \
        '0 1 0 0' '0 1 1 0' '5 2 0 0' '5 2 1 0'
    says "what to do then" 3 "Use the same letters in both."
    finds_row "an input too many" 13 ", line 4 (0 1 2 0): its input is 2, and the inputs of the table are 0 to 1." \
        '0 1 0 0' '0 1 1 0' '0 1 2 0'
    finds_row "an input too few" 13 ", line 2 (0 1 0 3): the inputs end with 0, and the inputs of the table are 0 to 1." '0 1 0 3' '3 1 0 0'
    program_prints 'k 2 code 13 place 0'
    printf '7 0 0 7\n7 0 1 7\n9 3 0 7\n9 3 1 7\n' | rows_as_bytes >"$asked_rows"
    stand_in --check "$owed" "$asked_rows" 2
    says "bytes with an output that the table does not have" 3 \
        "In $asked_rows, row 2 counted from 0, bytes 8 to 11 (9 3 0 7): its output is 3" "$asked_rows was taken as plain bytes."
}

# ---- two positions

# A word that is no position is refused before anything is built or run: here there is nothing that could be.
refused_position() { # NAME FIRST SECOND WHICH
    call env PATH="$plain" RATTLE_HOME="$scratch/nowhere" "$tree/desk" --compare "$2" "$3"
    says "$1" 2 "The $4 position is not eight digits. It has one for each state: the count + 1, or 0 where no run is."
    holds "$1: nothing is printed" test ! -s "$scratch/out"
}

test_bad_positions() {
    for word in '' 0000000 000000000 0000000a '0000 000' ' 00000000' '00000000 ' 0000000-; do
        refused_position "the first position '$word'" "$word" 00000000 first
        refused_position "the second position '$word'" 00000000 "$word" second
    done
    refused_position "a position on two lines" '0000
000' 00000000 first
    refused_position "two words that are no positions" 0 0 first
}

# What is said of two positions where the program prints this line, and that the program was called with them.
compares() { # FIRST SECOND LINE SENTENCE..
    compares_name="$1 and $2"
    rm -f "$scratch/words"
    printf '%s\n' "$1" "$2" >"$scratch/given"
    program_prints "$3"
    stand_in --compare "$1" "$2"
    shift 2
    printf '%s\n' "$@" >"$scratch/said"
    gives "positions $compares_name" 0 "$scratch/said"
    holds "the program is called with $compares_name" cmp "$scratch/words" "$scratch/given"
}

is_below='The first is below the second: no state has a higher count in the first, and some state has a lower one.
If the rules can be kept from the second, they can be kept from the first.'
is_above='The first is above the second: no state has a lower count in the first, and some state has a higher one.
If the rules can be kept from the first, they can be kept from the second.'
is_neither='Neither is below the other: some state has a higher count in the first, and some other a higher one in the second.
Whether the rules can be kept from one of them says nothing of the other.'
is_same='The two are the same position: every state has the same count in both.'

test_positions() {
    compares 12000000 12000000 same "$is_same"
    compares 00000000 00000000 same "$is_same"
    compares 12000000 13000001 'below 1 7' "$is_below" 'State 1: count 1 in the first, count 2 in the second.' \
        'State 7: no run in the first, count 0 in the second.'
    compares 90000000 00000000 'above 0' "$is_above" 'State 0: count 8 in the first, no run in the second.'
    compares 10020000 01010000 'neither 0 1 3' "$is_neither" 'State 0: count 0 in the first, no run in the second.' \
        'State 1: no run in the first, count 0 in the second.' 'State 3: count 1 in the first, count 0 in the second.'
}

compared_badly() { # NAME LINE..: what the program prints for two positions that differ in the states 0 and 1
    badly_name=$1
    shift
    program_prints "$@"
    stand_in --compare 10000000 01000000
    says "$badly_name" 4 "The program's output broke off before its end" "Is the disk full?"
    holds "$badly_name: nothing of it is shown" test ! -s "$scratch/out"
}

test_broken_comparison() {
    compared_badly "a state too few" 'neither 0'
    compared_badly "a state too many" 'neither 0 1 2'
    compared_badly "states in another order" 'neither 1 0'
    compared_badly "the same with states" 'same 0 1'
    compared_badly "no states where some differ" same
    compared_badly "a word that is not known" 'unlike 0 1'
    compared_badly "states without a word" '0 1'
    compared_badly "two lines" 'neither 0 1' 'neither 0 1'
    compared_badly "an empty line" ''
    printf '%s\n' '#!/bin/sh' "printf 'neither 0 1'" >"$kit/program"
    stand_in --compare 10000000 01000000
    says "a comparison without its end" 4 "The program's output broke off before its end"
    printf '%s\n' '#!/bin/sh' >"$kit/program"
    stand_in --compare 10000000 01000000
    says "a comparison that prints nothing" 4 "The program's output broke off before its end"
    printf '%s\n' '#!/bin/sh' 'exit 7' >"$kit/program"
    stand_in --compare 10000000 01000000
    says "a comparison that breaks off" 4 "The program broke off."
}

# ---- output that breaks off

breaks_off() { # NAME
    stand_in --plain "$owed"
    says "$1" 4 "The program's output broke off before its end" "Is the disk full?"
    holds "$1: nothing of it is shown" test ! -s "$scratch/out"
}

test_broken_output() {
    answer='k 0 code 0 place 0 rounds 0 winners 1 start 0'
    program_prints "$answer" '0 1 0 0'
    breaks_off "a row too few"
    program_prints "$answer" '0 1 0 0' '0 1 1 0' '0 1 1 0'
    breaks_off "a row too many"
    program_prints "$answer" '0 1 0 0' '0 1 1'
    breaks_off "a row that is not whole"
    printf '%s\n' '#!/bin/sh' "printf '%s\\n0 1 0 0\\n0 1 1 0' '$answer'" >"$kit/program"
    breaks_off "a last line without its end"
    program_prints 'k 0 code 0 place 0 rounds 0 winners 1'
    breaks_off "an answer that is not whole"
    program_prints "$(none_up_to 3)"
    breaks_off "answers that stop after code 1"
    program_prints "$(none_up_to 1)" 'k 3 code 6 place 1 rounds 0 winners 0 start 0'
    breaks_off "answers that leave out a patience"
    program_prints 'no answer'
    breaks_off "no answer"
    printf '%s\n' '#!/bin/sh' >"$kit/program"
    breaks_off "nothing at all"
    printf '%s\n' '#!/bin/sh' 'exit 7' >"$kit/program"
    stand_in "$owed"
    says "a program that breaks off" 4 "The program broke off."
    program_prints "$answer" '0 1 0 0' '0 1 1 0'
    if [ -c /dev/full ]; then
        env PATH="$kit/bin:$plain" RATTLE_HOME="$kit" "$tree/desk" --plain "$owed" >/dev/full 2>"$scratch/err"
        status=$?
        : >"$scratch/out"
        says "a full disk" 4 "What came of it could not be written. Is the disk full?"
    else
        skip "a full disk, since there is no /dev/full"
    fi
}

# ---- building and running

builds() { # NAME TIMES: how often rt was called for the program, and as often for the library below it
    times=$(grep -cx 'run desk' "$kit/calls" 2>/dev/null)
    below=$(grep -cx 'lib part' "$kit/calls" 2>/dev/null)
    if [ "$status" -eq 0 ] && [ "${times:-0}" -eq "$2" ] && [ "${below:-0}" -eq "$2" ]; then
        pass "$1"
    else
        fail "$1" "status $status, built ${times:-0} times: $(cat "$scratch/err")"
    fi
    rm -f "$kit/calls"
}

edit() { echo '// edited' >>"$tree/$1"; } # FILE

test_building() {
    program_prints 'k 0 code 0 place 0 rounds 0 winners 1 start 0' '0 1 0 0' '0 1 1 0'
    rm -rf "$tree/target" "$kit/calls"
    echo 3 >"$kit/slow"
    stand_in "$owed"
    rm "$kit/slow"
    says "what is being proved is shown" 0 "proved and built first" "  proving desk; left to prove: 1"
    builds "a program that is missing is built" 1
    stand_in "$owed"
    builds "a program that is there is not built again" 0
    find "$tree/crates" "$tree/crates.txt" -exec touch {} +
    stand_in "$owed"
    builds "a program is not old because of a date" 0
    edit crates/other/src/main.rt
    edit crates/part/must-fail/wrong.edit
    echo '# another comment' >>"$tree/crates.txt"
    stand_in "$owed"
    builds "a program is not old because of what it is not made of" 0
    edit crates/part/src/main.rt
    stand_in "$owed"
    builds "a program is old when what it is made of has changed" 1
    sed 's/^part:/part: hex/' "$tree/crates.txt" >"$scratch/crates.txt"
    cp "$scratch/crates.txt" "$tree/crates.txt"
    stand_in "$owed"
    builds "a program is old when a crate of its uses another" 1
    echo 'another stand-in' >"$kit/KIT-ID"
    stand_in "$owed"
    builds "a program is old when the kit is another" 1
    ln -s "$tree/desk" "$scratch/link"
    call env PATH="$kit/bin:$plain" RATTLE_HOME="$kit" "$scratch/link" "$owed"
    builds "a link to ./desk works" 0
    call env PATH="$plain" RATTLE_HOME= "$tree/desk" "$owed"
    says "no kit" 4 "The Rattle kit was not found."
}

# Nothing is run but a program whose whole check has passed.
test_failed_check() {
    edit crates/desk/src/main.rt
    echo desk >"$kit/refuses"
    rm -f "$scratch/received"
    for times in first second; do
        stand_in "$owed"
        says "a check that fails, for the $times time" 4 "fn desk::main: not proved" "rt: desk NOT PROVED" "The check failed"
        holds "neither the old program nor the new is run then" test ! -e "$scratch/received"
    done
    holds "though the new one is there" test -f "$tree/crates/desk/out/desk"
    echo part >"$kit/refuses"
    rm "$kit/calls"
    stand_in "$owed"
    says "a check that fails at what the program uses" 4 "rt: part NOT PROVED" "The check failed"
    holds "the program is not even built then" test "$(cat "$kit/calls")" = 'lib part'
    rm "$kit/refuses" "$kit/calls"
    stand_in "$owed"
    builds "a check that passes next time" 1
    edit crates/desk/src/main.rt
    : >"$kit/edits"
    stand_in "$owed"
    says "a source that changes during the check" 4 "was changed while it was being proved"
    rm "$kit/edits" "$kit/calls"
    stand_in "$owed"
    builds "the check is made again then" 1
}

# A program that does other than what is stored beside it does not pass.
test_stored_run() {
    beside=$tree/crates/desk
    mkdir "$beside/data"
    echo text >"$beside/data/file"
    printf '%s\n' 'one word' two >"$beside/args"
    echo input >"$beside/stdin"
    printf '%s\n' 2 'one word' two input text >"$beside/stdout"
    # shellcheck disable=SC2016
    printf '%s\n' '#!/bin/sh' '[ $# -eq 0 ] || { printf "%s\n" "$#" "$@" && cat && cat file && exit; }' 'cat >/dev/null' \
        "printf '%s\\n' 'k 0 code 0 place 0 rounds 0 winners 1 start 0' '0 1 0 0' '0 1 1 0'" >"$kit/program"
    stand_in "$owed"
    builds "a program that prints what is stored beside it" 1
    echo more >>"$beside/stdout"
    stand_in "$owed"
    says "a program that prints something else" 4 "desk is proved, but on what is stored for it" "rt: desk NOT PROVED" "The check failed"
    printf '%s\n' 2 'one word' two input text >"$beside/stdout"
    sed 's/exit/exit 3/' "$kit/program" >"$scratch/program"
    cat "$scratch/program" >"$kit/program"
    edit crates/desk/src/main.rt
    stand_in "$owed"
    says "a program that ends badly" 4 "desk is proved, but on what is stored for it" "The check failed"
    rm -r "$beside/data" "$beside/args" "$beside/stdin" "$beside/stdout" "$kit/calls"
    program_prints 'k 0 code 0 place 0 rounds 0 winners 1 start 0' '0 1 0 0' '0 1 1 0'
    stand_in "$owed"
    builds "a program with nothing stored beside it" 1
}

test_broken_off_check() { # SIGNAL
    edit crates/desk/src/main.rt
    echo 60 >"$kit/slow"
    rm -f "$scratch/received"
    call timeout -s "$1" 3 env PATH="$kit/bin:$plain" RATTLE_HOME="$kit" "$tree/desk" "$owed"
    rm "$kit/slow"
    holds "a check broken off by $1" grep -qF "Broken off: the program was not built." "$scratch/err"
    holds "no program is run then" test ! -e "$scratch/received"
    rm -f "$kit/calls"
    stand_in "$owed"
    holds "nothing of that check is left, which a call would wait for" test "$(grep -c Another "$scratch/err")" -eq 0
    builds "the next call after $1 checks again" 1
}

# Two calls at once: one checks, and the other waits for it.
test_two_at_once() {
    edit crates/desk/src/main.rt
    echo 4 >"$kit/slow"
    rm -f "$kit/calls"
    env PATH="$kit/bin:$plain" RATTLE_HOME="$kit" "$tree/desk" "$owed" >"$scratch/first.out" 2>"$scratch/first.err" &
    other=$!
    for _ in 1 2 3 4 5 6 7 8 9; do [ -s "$kit/calls" ] || sleep 1; done
    stand_in "$owed"
    says "a call during a check waits" 0 "Another ./desk is proving and building the program." 'k 0 code 0 '
    rm "$kit/slow"
    builds "both by one check" 1
    cp "$scratch/out" "$scratch/second.out"
    holds "the other call goes well too" wait "$other"
    holds "and prints the same" cmp "$scratch/first.out" "$scratch/second.out"
}

test_program() {
    # shellcheck disable=SC2016
    printf '%s\n' '#!/bin/sh' 'printf "%s\n" "$#" "$@"' 'cat' 'exit 5' >"$tree/crates/desk/out/desk"
    printf '%s\n' 2 'one word' two input >"$scratch/echo"
    echo input >"$scratch/input"
    call env PATH="$plain" "$tree/tools/program" desk 'one word' two <"$scratch/input"
    gives "tools/program hands on words, input and status, and needs no kit" 5 "$scratch/echo"
    call "$tree/tools/program" "$tree/crates/desk/out/desk" 'one word' two <"$scratch/input"
    gives "tools/program runs a program by its path" 5 "$scratch/echo"
    mkdir -p "$tree/target/bin"
    cp "$tree/crates/desk/out/desk" "$tree/target/bin/elsewhere"
    call "$tree/tools/program" elsewhere 'one word' two <"$scratch/input"
    gives "tools/program runs a program of target/bin" 5 "$scratch/echo"
    printf '%s\n' '#!/bin/sh' 'exit 0' >"$tree/target/bin/desk"
    chmod +x "$tree/target/bin/desk"
    call "$tree/tools/program" desk 'one word' two <"$scratch/input"
    gives "tools/program runs the crate's program where both are there" 5 "$scratch/echo"
    call "$tree/tools/program" nothing
    says "tools/program without the program" 127 "there is no program $tree/target/bin/nothing"
    call "$tree/tools/program" other
    says "tools/program without the program of a crate" 127 "there is no program $tree/crates/other/out/other; 'rt run'"
    chmod -x "$tree/target/bin/elsewhere"
    call "$tree/tools/program" elsewhere
    says "tools/program with a file that is no program" 127 "may not be run"
    mkdir "$scratch/elsewhere"
    printf '%s\n' '#!/bin/sh' 'echo riscv64' >"$scratch/elsewhere/uname"
    chmod +x "$scratch/elsewhere/uname"
    call env PATH="$scratch/elsewhere:$plain" "$tree/tools/program" desk
    says "tools/program on another machine" 127 "programs are for x86-64, and this machine is riscv64"
}

# Where the kit is.
test_kit() {
    echo "$kit" >"$scratch/kit.place"
    call env RATTLE_HOME="$kit" "$tree/tools/kit"
    gives "tools/kit by RATTLE_HOME" 0 "$scratch/kit.place"
    mkdir -p "$scratch/links/far"
    ln -s far/rt "$scratch/links/rt"
    ln -s "$kit/bin/rt" "$scratch/links/far/rt"
    (cd "$kit" && pwd -P) >"$scratch/kit.place"
    call env PATH="$scratch/links:$plain" RATTLE_HOME= "$tree/tools/kit"
    gives "tools/kit through links" 0 "$scratch/kit.place"
    : >"$scratch/kit.place"
    call env PATH="$plain" RATTLE_HOME= "$tree/tools/kit"
    gives "tools/kit without the kit" 1 "$scratch/kit.place"
}

# ---- pictures

draws_nothing() { # NAME STATUS TEXT
    says "$1" "$2" "$3"
    holds "$1: no DOT is written" test ! -e "$scratch/owed.controller.dot"
    holds "$1: no SVG is written" test ! -e "$scratch/owed.controller.svg"
}

test_pictures() {
    owed_records >"$scratch/owed"
    program_prints "$(none_up_to 7)"
    stand_in --picture "$scratch/owed"
    draws_nothing "no picture without a controller" 1 "Tried with patience 0 to 7: no controller."
    program_prints 'k 0 code 8 place 0 rounds 0 winners 0 start 0'
    stand_in --picture "$scratch/owed"
    draws_nothing "no picture of a refusal" 3 "Refused with code 8, START:"

    program_prints 'k 0 code 0 place 0 rounds 0 winners 1 start 0' '0 1 0 0' '0 1 1 0'
    stand_in --picture "$scratch/owed"
    says "the controller where Graphviz is missing" 0 "it has 1 state of its own." \
        "Drawn as $scratch/owed.controller.dot. Graphviz is not installed here"
    holds "the controller as DOT" cmp "$scratch/owed.controller.dot" "$expected/owed.controller.dot"
    holds "no SVG of it" test ! -e "$scratch/owed.controller.svg"

    # shellcheck disable=SC2016
    printf '%s\n' '#!/bin/sh' 'echo "$1"' 'cat "$2"' >"$kit/bin/dot"
    chmod +x "$kit/bin/dot"
    stand_in --picture "$scratch/owed"
    says "the controller where Graphviz is there" 0 "Drawn as $scratch/owed.controller.svg"
    { echo -Tsvg && cat "$expected/owed.controller.dot"; } >"$scratch/svg"
    holds "the controller as SVG" cmp "$scratch/owed.controller.svg" "$scratch/svg"
    printf '%s\n' '#!/bin/sh' 'exit 1' >"$kit/bin/dot"
    rm "$scratch/owed.controller.svg"
    stand_in --picture "$scratch/owed"
    says "the controller where Graphviz fails" 4 "Graphviz could not make a picture of it"
    holds "no SVG then" test ! -e "$scratch/owed.controller.svg"
    rm "$kit/bin/dot" "$scratch/owed.controller.dot"
    mkdir "$scratch/owed.controller.dot"
    stand_in --picture "$scratch/owed"
    says "a picture that can't be written" 4 "$scratch/owed.controller.dot can't be written."
}

# The picture of a table needs no program, so that a table can be looked at before it is good.
draws_table() { # NAME FILE
    rm -f "$2.table.dot"
    call env PATH="$plain" RATTLE_HOME="$scratch/nowhere" "$tree/desk" --picture-table "$2"
    says "$1" 0 "Drawn as $2.table.dot. Graphviz is not installed here"
}

test_table_pictures() {
    for table in owed silent first night loud lamp calm; do
        cp "$root/tables/$table.table" "$scratch/$table"
        draws_table "the table $table" "$scratch/$table"
        holds "the table $table as DOT" cmp "$scratch/$table.table.dot" "$expected/$table.table.dot"
    done
    draws_table "a table of bytes" "$scratch/owed.bytes"
    holds "the table of bytes as DOT" cmp "$scratch/owed.bytes.table.dot" "$expected/owed.table.dot"
    printf '%s\n' 1030 2010 3015 3005 3015 4706 >"$scratch/faulty"
    draws_table "a faulty table" "$scratch/faulty"
    holds "the faulty table as DOT" cmp "$scratch/faulty.table.dot" "$expected/faulty.table.dot"
    printf '%s\n' 1020 '# comment' 5020 >"$scratch/strange"
    stand_in --picture-table "$scratch/strange"
    says "a record that can't be drawn" 2 "the record 5020, line 3, is neither a state nor an edge"
    echo '# nothing' >"$scratch/strange"
    stand_in --picture-table "$scratch/strange"
    says "a table without a record" 2 "there is nothing to draw"
    holds "nothing is written for either" test ! -e "$scratch/strange.table.dot"
}

test_graphviz() {
    if ! command -v dot >/dev/null; then
        skip "Graphviz, which is not installed"
        return
    fi
    for picture in "$expected"/*.dot; do holds "Graphviz can read $(basename "$picture")" dot -Tsvg "$picture"; done
}

# ---- the programs themselves

# Without them nothing more can be tried, and each further call would only try again to build them.
test_built() {
    call "$root/desk" "$root/tables/owed.table"
    says "the desk program is built" 0 'k 0 code 0 '
    [ "$status" -eq 0 ] || finish
    call "$root/desk" --parts "$root/tables/owed.table" "$root/tables/owed.table"
    says "the program for two tables is built" 0 'k 0 code 0 '
    [ "$status" -eq 0 ] || finish
    call "$root/desk" --check "$root/tables/lamp.table" "$root/tables/lamp.rows" 1
    says "the program for rows is built" 0 'k 1 code 0 '
    [ "$status" -eq 0 ] || finish
    call "$root/desk" --compare 00000000 00000000
    says "the program for two positions is built" 0 "$is_same"
    [ "$status" -eq 0 ] || finish
}

# The scripts name a missing file before a program is called; a program that is called with one says so too.
test_missing_files() {
    none=$scratch/none
    call "$root/tools/program" accept "$none" "$root/tables/lamp.rows" 1
    says "a table that is missing, to the program for rows" 0 "$none: No such file or directory"
    holds "nothing is printed for it" test ! -s "$scratch/out"
    call "$root/tools/program" both join "$root/tables/work.tab" "$none"
    says "a second table that is missing, to the program for two tables" 0 "$none: No such file or directory"
    holds "nothing is printed for them" test ! -s "$scratch/out"
}

test_tables() {
    for table in owed silent first night loud lamp calm; do
        cp "$root/tables/$table.table" "$scratch/$table.table"
        call "$root/desk" --plain "$scratch/$table.table"
        gives "$table: what ./desk --plain says" 0 "$expected/$table.said"
        call "$root/desk" --picture "$scratch/$table.table"
        says "$table: its controller is drawn" 0 "Drawn as $scratch/$table.table.controller."
        holds "$table: its controller as DOT" cmp "$scratch/$table.table.controller.dot" "$expected/$table.controller.dot"
    done
    printf '%s\n' 'k 0 code 0 place 0 rounds 0 winners 1 start 0' '0 1 0 0' '0 1 1 0' >"$scratch/owed.answer"
    call "$root/desk" "$scratch/owed.table"
    gives "owed: ./desk prints what the program prints, and no more" 0 "$scratch/owed.answer"
    call "$root/desk" "$scratch/owed.bytes"
    gives "owed as bytes" 0 "$scratch/owed.answer"
}

# OWED joined with SILENT: a warning is owed, and must never come.
both_records() {
    printf '%s\n' 1020 1100 1220 1300 2000 2110 2200 2310 3000 3010 3101 3110 3202 3213 3303 3313 \
        4000 4010 4011 4101 4111 4202 4212 4303 4313
}

asked=$scratch/asked

answers() { # NAME STATUS TEXT..: what ./desk --plain answers for the table in $asked
    call "$root/desk" --plain "$asked"
    says "$@"
}

changed() { owed_records | sed "$1" >"$asked"; }

# The lines of docs/TABLES.md that are set in by four blanks and match a pattern, without the blanks.
shown() { sed -n "s/^    \\($1\\)\$/\\1/p" "$root/docs/TABLES.md"; }

# What docs/TABLES.md shows is so: its records, its answers, and what it says of its examples with a record changed.
test_examples() {
    shown '[1-4] [0-9] [0-9] [0-9] .*' >"$scratch/records"
    holds "docs/TABLES.md shows records" test -s "$scratch/records"
    cat "$root/tables/owed.table" "$root/tables/lamp.table" >"$scratch/tables"
    holds "they are records of OWED and LAMP" test -z "$(grep -vxF -f "$scratch/tables" "$scratch/records")"
    { grep -v '^A' "$expected/owed.said" && grep -v '^A' "$expected/lamp.said" && cat "$root/crates/both/stdout" \
        "$root/crates/accept/stdout"; } >"$scratch/answers"
    shown '\(k [0-9].*\|[0-9]* [0-9]* [0-9]* [0-9]*\)' >"$scratch/shown"
    holds "docs/TABLES.md shows the answers" cmp "$scratch/answers" "$scratch/shown"
    both_records >"$asked"
    answers "unrealizable" 1 'k 0 code 1 place 0 rounds 2 winners 2 start 0' 'k 7 code 1 ' 'Tried with patience 0 to 7: no controller.'
    sed 's/^3 2 1 3/3 2 1 1/' "$root/tables/lamp.table" >"$asked"
    answers "LAMP with a run that comes back" 1 'Tried with patience 0 to 7: no controller.'
    sed -e '/^4 0 1 0/d' -e '/^4 1 1 1/d' "$root/tables/lamp.table" >"$asked"
    answers "LAMP without the runs that watch on" 0 'with patience 0 it has'
    sed '/^4 0 1 0/d' "$root/tables/owed.table" >"$asked"
    answers "OWED without the run that watches on" 0 'with patience 0 it has 1 state of its own.'
}

test_joins() {
    one=$root/tables/owed.table two=$root/tables/silent.table
    call "$root/desk" --join "$one" "$two"
    says "a join" 0 "# $one joined with $two." \
        "# The controller-turn states 0 to 1 are those of $one, and 2 to 3 are 0 to 1 of $two." \
        "1 2 2 0   # $two, line 10, state 0: controller-turn state 0, the start: there has been no warning" \
        "3 2 1 3   # $two, line 17, state 0 to 1: no warning so far, and now one"
    cp "$scratch/out" "$asked"
    sed -n 's/^\([1-4]\) \(.\) \(.\) \(.\) .*/\1\2\3\4/p' "$asked" >"$scratch/joined"
    both_records >"$scratch/records"
    holds "its records are those of the joined table" cmp "$scratch/joined" "$scratch/records"
    answers "the joined table can be asked about" 1 'k 0 code 1 place 0 rounds 2 winners 2 start 0'
    call "$root/desk" --parts "$one" "$two"
    says "by parts" 1 'k 0 code 1 place 0 which 0 rounds 2 winners 2 start 0' 'Tried with patience 0 to 7: no controller.'
    call "$root/desk" --parts "$scratch/owed.bytes" "$root/tables/lamp.table"
    says "bytes and text by parts" 1 'k 7 code 1 '
    call "$root/desk" --parts "$root/tables/lamp.table" "$root/tables/calm.table"
    { cat "$root/crates/both/stdout" &&
        echo 'A controller was made: with patience 1 it has 3 states of its own. With less patience none can be made.'; } >"$scratch/said"
    gives "by parts with patience 1" 0 "$scratch/said"
    call "$root/desk" --parts "$one" "$root/tables/first.table"
    says "letters that differ, by parts" 3 'code 13, LETTERS' "$root/tables/first.table has the outputs 0 and the inputs 0."
    call "$root/desk" --join "$root/tables/loud.table" "$root/tables/loud.table"
    says "a join with too many states" 3 'code 14, SIZE' 'Together that is 12 controller-turn and 12 world-turn states.'
    changed 's/^4111/4112/'
    call "$root/desk" --join "$one" "$asked"
    says "a fault of the second table" 3 'code 9, EDGE' "The record is 4112, line 13 of $asked (record 12, counted from 0)."
    holds "no table is written then" test ! -s "$scratch/out"
}

# What ./desk --check answers for the rows in $asked_rows and a table.
checks() { # NAME STATUS TABLE PATIENCE TEXT..
    checks_name=$1 checks_status=$2
    call "$root/desk" --check "$3" "$asked_rows" "$4"
    shift 4
    says "$checks_name" "$checks_status" "$@"
}

test_checks() {
    lamp=$root/tables/lamp.table
    cp "$root/tables/lamp.rows" "$asked_rows"
    checks "a maker's rows with patience 1" 0 "$lamp" 1 'k 1 code 0 place 0' "Yes: whoever follows these rows keeps the rules of $lamp"
    checks "a maker's rows with patience 0" 1 "$lamp" 0 'k 0 code 1 place 0' "No: for some inputs"
    checks "a maker's rows with patience 8" 3 "$lamp" 8 'k 8 code 2 place 0' 'code 2, BOUND'
    checks "a maker's rows for a table with other inputs" 3 "$root/tables/night.table" 0 'k 0 code 13 place 0' \
        "In $asked_rows, line 9 (7 0 1 20): the inputs end with 1, and the inputs of the table are 0 to 3."
    cp "$root/crates/accept/data/lamp.rows" "$asked_rows"
    checks "a maker's rows as bytes" 0 "$lamp" 1 'k 1 code 0 place 0' "Yes: "
    for table in owed silent first night loud lamp calm; do
        "$root/desk" "$root/tables/$table.table" >"$asked_rows"
        patience=$(awk '$1 == "k" { k = $2 } END { print k }' "$asked_rows")
        checks "$table: what ./desk prints is right" 0 "$root/tables/$table.table" "$patience" "k $patience code 0 place 0" "Yes: "
    done
    "$root/desk" "$root/tables/loud.table" >"$asked_rows"
    checks "loud: with less patience it is not" 1 "$root/tables/loud.table" 0 'k 0 code 1 place 0' "No: "
    "$root/desk" "$root/tables/first.table" >"$asked_rows"
    checks "first: with patience 0 no rows can do" 1 "$root/tables/first.table" 0 'k 0 code 1 place 0' "No: " \
        "No rows can do with patience 0: a start state of the table is marked"
    "$root/desk" --parts "$lamp" "$root/tables/calm.table" >"$asked_rows"
    checks "what ./desk --parts prints is right for the first table" 0 "$lamp" 1 "Yes: "
    checks "and for the second" 0 "$root/tables/calm.table" 1 "Yes: "
    sed 's/^20 1 1/20 1 2/' "$root/tables/lamp.rows" >"$asked_rows"
    checks "rows with an input changed" 3 "$lamp" 1 'k 1 code 15 place 0' 'code 15, ROWS' \
        "In $asked_rows, line 11 (20 1 2 200): after input 0 of state 20 comes input 2."
    sed 's/^20 1/20 2/' "$root/tables/lamp.rows" >"$asked_rows"
    checks "rows with an output changed" 3 "$lamp" 1 'k 1 code 13 place 0' 'code 13, LETTERS' \
        "In $asked_rows, line 10 (20 2 0 7): its output is 2, and the outputs of the table are 0 to 1."
    changed '/^4111/d'
    checks "rows for a table with a gap" 3 "$asked" 1 'k 1 code 10 place 0' 'code 10, GAP' 'no edge for input 1 (no record begins with 411)'
    changed 's/^4111/4112/'
    checks "rows for a table with an edge to nowhere" 3 "$asked" 1 'k 1 code 9 place 12' \
        "The record is 4112, line 13 of $asked (record 12, counted from 0)."
}

# What the program for two positions prints, and what ./desk --compare says of it.
compared() { # FIRST SECOND LINE TEXT..
    compared_name="$1 and $2 with the program"
    echo "$3" >"$scratch/line"
    call "$root/tools/program" "$root"/target/desk/compare.* "$1" "$2"
    gives "what is printed for $compared_name" 0 "$scratch/line"
    call "$root/desk" --compare "$1" "$2"
    shift 2
    says "$compared_name" 0 "$@"
}

test_compares() {
    compared 10230000 10230000 same "$is_same"
    compared 10230000 10240001 'below 3 7' 'State 3: count 2 in the first, count 3 in the second.' \
        'State 7: no run in the first, count 0 in the second.'
    compared 10240001 10230000 'above 3 7' 'State 3: count 3 in the first, count 2 in the second.'
    compared 10000000 01000000 'neither 0 1' 'State 1: no run in the first, count 0 in the second.'
    compared 99999999 00000000 'above 0 1 2 3 4 5 6 7' 'State 7: count 8 in the first, no run in the second.'
    compared 01234567 76543210 'neither 0 1 2 3 4 5 6 7' 'State 3: count 2 in the first, count 3 in the second.'
    call "$root/desk" --compare 01200000 11120000
    shown '\(neither .*\|Neither .*\|Whether .*\|State [0-7]: .*\)' >"$scratch/said"
    gives "docs/TABLES.md shows a comparison" 0 "$scratch/said"
    compared 01200000 10220000 'neither 0 1 3' 'State 1: count 0 in the first, no run in the second.'
    compared 01200000 22230000 'below 0 1 3' "$is_below"
    for word in '' 0000000 000000000 0000000a '0000 000'; do
        call "$root/tools/program" "$root"/target/desk/compare.* "$word" 00000000
        says "the program for '$word'" 0 'The first word is not a position: eight digits, one for each state'
        holds "it prints nothing for '$word'" test ! -s "$scratch/out"
        call "$root/tools/program" "$root"/target/desk/compare.* 00000000 "$word"
        says "the program for '$word' as the second" 0 'The second word is not a position: eight digits, one for each state'
        holds "it prints nothing for '$word' as the second" test ! -s "$scratch/out"
    done
}

test_refusals() {
    : >"$asked"
    answers "an empty file" 3 'k 0 code 4 place 0 ' 'code 4, LENGTH'
    echo '# nothing' >"$asked"
    answers "a text without records" 3 'code 4, LENGTH'
    { cat "$scratch/owed.bytes" && echo; } >"$asked"
    answers "a byte too many" 3 'code 4, LENGTH'
    awk 'BEGIN { for (i = 0; i < 1041; i++) print "1000" }' >"$asked"
    answers "a record too many" 3 'code 4, LENGTH'
    changed 's/^2110/2120/'
    answers "a flag that the world's states don't have" 3 'code 5, RECORD' \
        "The record is 2120, line 4 of $asked (record 3, counted from 0)."
    changed 's/^4111/4 1 8 1/'
    answers "an input over 7" 3 'code 5, RECORD' "The record is 4181, line 13 of $asked (record 12, counted from 0)."
    { cat "$scratch/owed.bytes" && printf 'abcd'; } >"$asked"
    answers "bytes and text in one file" 3 'code 5, RECORD' \
        "The record is 97 98 99 100, bytes 52 to 55 of $asked (record 13, counted from 0)." 'taken as plain bytes'
    printf '1020\n\000' >"$asked"
    answers "a text with a zero byte" 3 'code 4, LENGTH' 'taken as plain bytes'
    changed 's/^4101/held/; s/^4111/4101/; s/^held/4111/'
    answers "the last two records exchanged" 3 'k 0 code 6 place 12 ' 'code 6, ORDER' \
        "The record is 4101, line 13 of $asked (record 12, counted from 0)." "Before it stands 4111, line 12."
    changed '/^1020/p'
    answers "a record twice" 3 'code 6, ORDER' \
        "The record is 1020, line 2 of $asked (record 1, counted from 0)." "Before it stands 1020, line 1."
    changed 's/^1100/1200/'
    answers "a state left out" 3 'code 7, STATES' "the controller-turn state 2 stands where state 1 should be"
    changed 's/^1020/1000/'
    answers "no start state" 3 'code 8, START' 'the controller-turn states are 1000 (line 1), 1100 (line 2)'
    changed 's/^4111/4112/'
    answers "an edge to nowhere" 3 'code 9, EDGE' "The record is 4112, line 13 of $asked (record 12, counted from 0)."
    changed '/^4111/d'
    answers "the last record left out" 3 'k 0 code 10 ' 'code 10, GAP' 'no edge for input 1 (no record begins with 411)'
}

make_kit
make_tree
make_plain
test_scripts
test_card
test_documents
test_calls
test_files
test_text
test_bad_text
test_words
test_finds
test_two
test_rows_text
test_bad_rows_text
test_rows_words
test_rows_form
test_rows_letters
test_bad_positions
test_positions
test_broken_comparison
test_broken_output
test_building
test_failed_check
test_stored_run
test_broken_off_check TERM
test_broken_off_check INT
test_two_at_once
test_program
test_kit
test_pictures
test_table_pictures
test_graphviz
test_built
test_missing_files
test_tables
test_examples
test_joins
test_checks
test_compares
test_refusals
finish
