# shellcheck shell=sh disable=SC2154
# A part of ./desk: how a table is read, asked about, and what came of it read back. File 1 is the first that the call names and file 2
# the second; each has passing files $scratch/NUMBER.file, .records and .bytes. Rows are read like a table: a row stands for a record.

# The longest file that is read, in bytes: 1,040 records with a comment of a thousand bytes each. So a file that never ends is refused.
longest=1048576

# The first and the last patience that a program tries.
least=0 most=7

name_of() { # NUMBER
    case $1 in
    1) tell "$first" ;;
    2) tell "$second" ;;
    esac
}

take() { # NUMBER FORM: records or rows
    fetch "$1" "$(name_of "$1")"
    read_records "$1" "$2"
    write_bytes "$1"
}

# Copies the file, so that it is read once, whatever it is.
fetch() { # NUMBER FILE
    [ -e "$2" ] || stop "There is no file $2."
    [ ! -d "$2" ] || stop "$2 is a folder. Name a file."
    [ -r "$2" ] || stop "$2 can't be read. Look at who may read it."
    head -c "$((longest + 1))" <"$2" >"$scratch/$1.file" || give_up "$2 could not be copied. Is the disk full?"
    [ "$(wc -c <"$scratch/$1.file")" -le "$longest" ] ||
        stop "$2 has more than $longest bytes, or it never ends. A table has at most 1,040 records, a controller at most 2,048 rows."
}

# A text has no control characters but tabs and line ends, so it has none of the bytes 0 to 8. A byte table that is good has no others,
# since no byte of a record is over 7; and good rows have some, since no output and no input is over 7. So a file with such a byte is
# taken as bytes and any other as text, and no file is good both ways. A mixed file goes to the program as it is, which refuses it.
is_bytes() { [ -n "$(LC_ALL=C tr -cd '\000-\010' <"$scratch/$1.file" | od -An -N1)" ]; } # NUMBER

# The records, one to a line: where it stands, its four numbers, its comment. It stands in a line of a text; '-' is for a file of bytes.
read_records() { # NUMBER FORM
    if is_bytes "$1"; then
        od -An -v -tu1 <"$scratch/$1.file" | awk '
            { for (i = 1; i <= NF; i++) { record = record " " $i; if (++count % 4 == 0) { print "-" record; record = "" } } }
        ' >"$scratch/$1.records"
    else
        file=$(name_of "$1") LC_ALL=C awk -f "$tools/text.awk" -f "$tools/$2.awk" <"$scratch/$1.file" >"$scratch/$1.records" || case $2 in
        records) stop "A record is four digits on a line of its own, and a comment begins with #. Put the line right; nothing was run." ;;
        rows) stop "A row is four numbers on a line of its own, with blanks between, and a comment begins with #. Put the line right;" \
            "nothing was run." ;;
        esac
    fi
}

# The bytes for the program. awk can't print a zero byte everywhere, printf can.
write_bytes() { # NUMBER
    if is_bytes "$1"; then
        cat "$scratch/$1.file"
    else
        printf %b "$(awk '{ printf "\\0%o\\0%o\\0%o\\0%o", $2, $3, $4, $5 }' "$scratch/$1.records")"
    fi >"$scratch/$1.bytes" || give_up "A passing file could not be written. Is the disk full?"
}

# How many inputs the first table has: one more than the largest letter of its edges on inputs.
inputs() { awk '$2 == 4 && $4 + 1 > most { most = $4 + 1 } END { print most + 0 }' "$scratch/1.records"; }

# Runs a program with these words and keeps what it prints.
run_program() { # PROGRAM [WORD..]
    ready "$1"
    shift
    "$root/tools/program" "$program" "$@" >"$scratch/answer" || case $? in
    127) give_up "The program could not be started. Why stands above." ;;
    *) give_up "The program broke off. This is a fault of the program and not of what it was given; please report it." ;;
    esac
}

# Reads what the program printed and keeps what awk makes of it, which fails unless the output is whole.
read_answer() { # WORD.. of awk
    { [ -z "$(tail -c 1 "$scratch/answer")" ] && awk "$@" "$scratch/answer"; } >"$scratch/read" || give_up \
        "The program's output broke off before its end, so none of it is shown. Is the disk full? If it is not, please report this."
}

# Runs a program on the files and reads the last answer it printed into k, code, place, which, rounds, winners and start.
ask() { # PROGRAM FIELDS [WORD..]
    name=$1 fields=$2
    shift 2
    run_program "$name" "$@" <"$scratch/1.bytes"
    read_answer -v fields="$fields" -v inputs="$(inputs)" -v least="$least" -v most="$most" -f "$tools/answer.awk"
    # shellcheck disable=SC2034
    read -r k code place which rounds winners start <"$scratch/read"
}

# 0 done, 1 no controller can be made or the rows are wrong, 3 refused
status() {
    case $code in
    0 | 1) echo "$code" ;;
    *) echo 3 ;;
    esac
}

# Prints a file and then a text.
show() { # FILE [TEXT]
    { cat "$1" && { [ $# -eq 1 ] || tell "$2"; }; } || give_up "What came of it could not be written. Is the disk full?"
}
