# Writes the card, docs/CARD.md, as a page to print from any browser. It knows the few forms that the card uses: headings, tables, lists,
# lines set in, **strong** and `code`, and the line with a <div that begins the page overleaf.

BEGIN {
    print "<!DOCTYPE html>\n<html lang=\"en\">\n<meta charset=\"utf-8\">\n<title>The card</title>"
    print "<style>\n@page { size: A4; margin: 15mm }\nbody { font: 11pt sans-serif; margin: 0 }"
    print "table { border-collapse: collapse; width: 100% }"
    print "th, td { border: 1px solid #888; padding: 3pt 5pt; text-align: left; vertical-align: top }\ntr { page-break-inside: avoid }"
    print "li { margin-bottom: 3pt }\n</style>"
}

# Puts what stands between two equal signs between two tags.
function between(text, sign, tag,    parts, count, i, out) {
    count = split(text, parts, sign)
    for (i = 1; i <= count; i++) out = out (i == 1 ? "" : i % 2 ? "</" tag ">" : "<" tag ">") parts[i]
    return out
}
function inline(text) {
    gsub(/&/, "\\&amp;", text)
    gsub(/</, "\\&lt;", text)
    return between(between(text, "[*][*]", "b"), "`", "code")
}
function within(name) {
    if (block == name) return
    if (block != "") print "</" block ">"
    if (name != "") print "<" name ">"
    block = name
}

/^<div/ { within(""); print; next }
/^# / { within(""); print "<h1>" inline(substr($0, 3)) "</h1>"; next }
/^## / { within(""); print "<h2>" inline(substr($0, 4)) "</h2>"; next }
/^[|]-/ { next }
/^[|] / {
    cell = block == "table" ? "td" : "th"
    within("table")
    sub(/^[|] /, "")
    sub(/ [|]$/, "")
    count = split($0, cells, / [|] /)
    row = ""
    for (i = 1; i <= count; i++) row = row "<" cell ">" inline(cells[i]) "</" cell ">"
    print "<tr>" row "</tr>"
    next
}
/^- / { within("ul"); print "<li>" inline(substr($0, 3)) "</li>"; next }
/^    / { within("pre"); print inline(substr($0, 5)); next }
/^$/ { within(""); next }
{ within("p"); print inline($0) }
END { within("") }
