# Reads a report of a ledger, then its drawing with '#', and says what is wrong with the drawing: every line fits into 'width' columns, there
# are 'rows' bars at most, the columns add up, and each share is the nearest but for what makes them add up. The functions come by their
# samples, those with as many by their number, and a bar is as long as its share. The report's numbers must be exact in an awk.
function wrong(what) { print what ": " $0; failed = 1; exit 1 }
NR == FNR { split($0, part, "="); value[part[1]] = part[2]; functions += $0 ~ /^fn/; next }
length($0) > width { wrong("wider than " width) }
/ more functions\)/ { more = substr($1, 2); sub(/^ *\([0-9]* more functions\)/, "more") }
FNR == 1 { if ($0 !~ /^ *function +samples$/) wrong("no heading"); next }
$1 == "all" { if ($2 != value["samples"] || $3 != "100.0%") wrong("no sum"); summed = 1; next }
summed { wrong("behind the sum") }
{
    lines++
    share = $3 + 0
    shares += int(share * 10 + 0.5)
    samples += $2
    if (share - 100 * $2 / value["samples"] > 0.1001 || 100 * $2 / value["samples"] - share > 0.1001) wrong("no share of its samples")
    if ($1 ~ /^[0-9]/) {
        shown++
        if (last_count != "" && ($2 > last_count || $2 == last_count && $1 + 0 <= last_name + 0)) wrong("out of order")
        last_count = $2; last_name = $1
        if (value["fn" $1] != $2) wrong("other samples than in the report")
    } else if ($1 != "more" && value[$1] != $2) wrong("other samples than in the report")
    if ($2 > most) { most = $2; longest = length($4) }
    bar[lines] = length($4); count[lines] = $2
}
END {
    if (failed) exit 1
    if (shares != 1000) wrong("the shares add up to " shares / 10)
    if (samples != value["samples"]) wrong("the counts add up to " samples)
    if (shown + more != functions) wrong("there are " functions " functions, and not " shown + more)
    if (lines > rows) wrong("more than " rows " rows")
    if (!summed) wrong("no sum at the end")
    for (i = 1; i <= lines; i++) {
        if (longest && bar[i] < 1) wrong("no bar for " count[i])
        off = bar[i] - longest * count[i] / most
        if (longest && bar[i] != 1 && (off > 0.57 || off < -0.57)) wrong("a bar of " bar[i] " for " count[i])
    }
}
