# Prints the line of a deck that has a record, with its number: awk -v r=20 -f record.awk deck.csv
# Blank lines are no records, and a record goes on over the line breaks in its quotes.
{ sub(/\r$/, "") }
!q && $0 != "" && ++n == r { print NR ": " $0 }
{
    s = q $0
    gsub(/""/, "", s)
    for (q = ""; s != "" && !q;) {
        if (s !~ /^"/) sub(/^[^,]*,?/, "", s)
        else if (!sub(/^"[^"]*"/, "", s)) q = "\""
        else sub(/^[^,]*,?/, "", s)
    }
}
