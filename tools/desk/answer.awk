# Reads what a program of the desk printed and prints the fields of its last answer: k code place which rounds winners start, 0 for a field
# that its lines don't have. The exit status is 1 unless the output is whole: the answer lines have the fields named by -v fields; where k
# is one of them they count it from -v least, and the program goes on after code 1 up to -v most and only then; and after code 0 there are
# as many lines of four numbers as there must be: winners times -v inputs, or for a join as many as its place has fours.

function is_answer(    names, i) {
    for (i = 1; i < NF; i += 2) {
        if ($(i + 1) !~ /^[0-9]+$/) return 0
        names = names (i > 1 ? " " : "") $i
    }
    return names == fields && NF % 2 == 0
}

is_answer() {
    if (rows || answers && value["code"] != 1) broken = 1
    for (i = 1; i < NF; i += 2) value[$i] = $(i + 1)
    if (counts && value["k"] != least + answers) broken = 1
    answers++
    next
}
/^[0-9]+ [0-9]+ [0-9]+ [0-9]+$/ { rows++; next }
{ broken = 1 }

BEGIN { counts = fields ~ /^k / }

END {
    due = 0
    if (answers && value["code"] == 0) due = counts ? value["winners"] * inputs : value["place"] / 4
    if (counts && value["code"] == 1 && value["k"] != most + 0) broken = 1
    if (broken || !answers || rows + 0 != due) exit 1
    count = split("k code place which rounds winners start", name, " ")
    for (i = 1; i <= count; i++) printf "%d%s", value[name[i]], i < count ? " " : "\n"
}
