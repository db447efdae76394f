# Reads a table written as text, after text.awk. Prints each record as the number of its line, its four digits and its comment, blanks
# between. A line that is neither a record, a comment nor blank is refused.

{
    gsub(/ /, "")
    if ($0 == "") next
    if (/[^0-9]/) refuse("has something other than digits in its record")
    if (length($0) < 4) refuse("has fewer than four digits")
    if (length($0) > 4) refuse("has more than four digits")
    print NR, substr($0, 1, 1), substr($0, 2, 1), substr($0, 3, 1), substr($0, 4, 1) (comment == "" ? "" : " " comment)
}
