# What the desk's texts have in common, read before records.awk or rows.awk: takes from each line its comment, and from the first one the
# byte order mark that some editors put there.
# The first line that is refused, here or by the script that is read after this one, is told on standard error, and the exit status is 1.
# A comment may have any letters, but no control character: a return alone, which some editors show as a new line, would hide what stands
# after it. It is run in the C locale, where a character is a byte.

function refuse(why) {
    gsub(/[^ -~]/, "?", line)    # what a screen can't show, or might obey
    printf "Line %d of %s %s:\n    %s\n", NR, ENVIRON["file"], why, line > "/dev/stderr"
    exit 1
}

{
    if (NR == 1) sub(/^\357\273\277/, "")
    sub(/\r$/, "")               # how some editors end a line
    gsub(/\t/, " ")
    line = $0
    if (/[\001-\037\177]/) refuse("has a control character")
    comment = /#/ ? $0 : ""
    sub(/^[^#]*# */, "", comment)
    sub(/ *$/, "", comment)
    sub(/#.*/, "")
}
