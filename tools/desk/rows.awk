# Reads controller rows written as text, after text.awk. Prints each row as the number of its line and its four numbers, blanks between.
# What ./desk prints can be read as it is: the lines of its answers and its sentence are passed over. A line that is none of these, nor
# a row, a comment or blank, is refused.

/^ *$/ || /^k [0-9]+ code [0-9]+ place / || /^A controller was made: / { next }

{
    if (/[^0-9 ]/) refuse("has something other than numbers in its row")
    if (NF < 4) refuse("has fewer than four numbers")
    if (NF > 4) refuse("has more than four numbers")
    for (i = 1; i <= 4; i++) if ($i > 255) refuse("has a number over 255")
    print NR, $1 + 0, $2 + 0, $3 + 0, $4 + 0
}
