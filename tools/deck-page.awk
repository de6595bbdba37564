#!/usr/bin/awk -f
# Turns docs/deck.md into the manual page pert-deck(5): headings, paragraphs, indented texts, lists and tables. So the page
# and the document cannot differ.
#
#   tools/deck-page.awk docs/deck.md >pert-deck.5

# between TEXT MARK ON OFF: each part between two marks, set between ON and OFF
function between(text, mark, on, off,    part, n, i, out) {
    n = split(text, part, mark)
    for (i = 1; i <= n; i++) out = out part[i] (i == n ? "" : i % 2 ? on : off)
    return out
}

# a link without its address
function unlinked(text,    at) {
    while (match(text, /\]\([^)]*\)/)) text = substr(text, 1, RSTART - 1) substr(text, RSTART + RLENGTH)
    while (at = index(text, "[")) text = substr(text, 1, at - 1) substr(text, at + 1)
    return text
}

function shown(text) {
    gsub(/\\/, "\\e", text)
    gsub(/-/, "\\-", text)
    text = between(text, "`", "\\fB", "\\fR")
    text = between(text, "[*][*]", "\\fB", "\\fR")
    sub(/^[*]/, "", text)
    sub(/[*]$/, "", text)
    if (text ~ /\]\(/) text = unlinked(text)
    if (text ~ /^[.']/) text = "\\&" text
    return text
}

# a line of an example as it is
function verbatim(text) {
    gsub(/\\/, "\\e", text)
    gsub(/-/, "\\-", text)
    if (text ~ /^[.']/) text = "\\&" text
    return text
}

# the text of a cell in bold, whatever it is marked with
function bold(text) {
    gsub(/`/, "", text)
    return "\\fB" shown(text) "\\fR"
}

# say TEXT: writes a text, broken between words into lines of at most 80 bytes, none of which begins like a macro
function say(text,    word, n, i, line) {
    n = split(text, word, " ")
    for (i = 1; i <= n; i++) {
        if (line != "" && length(line) + 1 + length(word[i]) > 80 && word[i] !~ /^[.']/) { print line; line = word[i] }
        else line = line == "" ? word[i] : line " " word[i]
    }
    print line
    fresh = 0
}

# head KIND TITLE: a heading; the text after it needs no macro of a paragraph
function heading_of(kind, title) { end_paragraph(); print "." kind " " title; state = ""; fresh = 1 }

function paragraph() { if (!fresh) print ".PP"; fresh = 0 }

function end_paragraph() { if (state == "code") { print ".RE"; print ".fi" } state = state == "table" ? "table" : "" }

# The date is that of the manual page next to the document.
BEGIN {
    page = ARGV[1]
    sub(/[^\/]*$/, "man/pert.1", page)
    if ((getline first < page) > 0 && match(first, /"[0-9-]+"/)) date = substr(first, RSTART + 1, RLENGTH - 2)
    print ".TH PERT\\-DECK 5 \"" date "\" \"pert @VERSION@\" \"File Formats\""
    print ".SH NAME"
    print "pert\\-deck \\- the deck of cards that pert(1) reads"
    print ".SH DESCRIPTION"
    fresh = 1
}

/^# / { next }
/^## / { heading_of("SH", toupper(shown(substr($0, 4)))); next }
/^### / { heading_of("SS", shown(substr($0, 5))); next }
/^    / {
    if (state != "code") { paragraph(); print ".nf"; print ".RS"; state = "code" }
    if (/^    \$ /) gsub(/bin\/pert/, "pert")
    print verbatim(substr($0, 5))
    next
}
/^\|[-| ]*\|$/ { next }
/^\|/ {
    end_paragraph()
    line = $0
    sub(/^\| */, "", line)
    sub(/ *\|$/, "", line)
    cells = split(line, cell, / *\| */)
    if (state != "table") { state = "table"; for (i = 1; i <= cells; i++) head[i] = cell[i]; next }
    print ".TP"
    print bold(cell[1])
    for (i = 2; i <= cells; i++)
        if (cell[i] != "") { if (i > 2) print ".br"; say((cells > 2 ? shown(head[i]) ": " : "") shown(cell[i])) }
    next
}
/^$/ { end_paragraph(); state = ""; next }
/^- / { end_paragraph(); print ".IP \\(bu 2"; say(shown(substr($0, 3))); state = "text"; next }
/^[0-9]+\. / { end_paragraph(); match($0, /^[0-9]+\. /); print ".IP " substr($0, 1, RLENGTH - 1) " 4"; say(shown(substr($0, RLENGTH + 1))); state = "text"; next }
/^  +/ && state == "text" { sub(/^ +/, ""); say(shown($0)); next }
{
    if (state != "text") { end_paragraph(); paragraph(); state = "text" }
    say(shown($0))
}
END {
    end_paragraph()
    print ".SH SEE ALSO"
    print "pert(1), pert_check(1), pert_whatif(1)"
}
