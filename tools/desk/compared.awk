# Reads what the program for two positions printed, a word and the states that differ, and says it in plain words. The positions are
# -v first and -v second, eight digits each. The exit status is 1 unless the output is whole: one line, with a word that is known and the
# states in which the digits differ.

function count_in(position, q,    digit) {
    digit = substr(position, q + 1, 1)
    return digit == "0" ? "no run" : "count " (digit - 1)
}

BEGIN {
    means["same"] = "The two are the same position: every state has the same count in both."
    means["below"] = "The first is below the second: no state has a higher count in the first, and some state has a lower one." \
        "\nIf the rules can be kept from the second, they can be kept from the first."
    means["above"] = "The first is above the second: no state has a lower count in the first, and some state has a higher one." \
        "\nIf the rules can be kept from the first, they can be kept from the second."
    means["neither"] = "Neither is below the other: some state has a higher count in the first," \
        " and some other a higher one in the second." \
        "\nWhether the rules can be kept from one of them says nothing of the other."
    for (q = 0; q < 8; q++) if (substr(first, q + 1, 1) != substr(second, q + 1, 1)) states = states " " q
}

NR > 1 || !($1 in means) || $0 != $1 states || ($1 == "same") != (states == "") { broken = 1; exit }
{ print means[$1] }
{ for (i = 2; i <= NF; i++) print "State " $i ": " count_in(first, $i) " in the first, " count_in(second, $i) " in the second." }

END { exit broken || NR != 1 }
