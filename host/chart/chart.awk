# Draws the report of a sample ledger as bars in text: the functions with the most samples, the rest in one row, then the samples of
# functions that are not counted ('other') and of keys without a record ('none').
#   LC_ALL=C awk -f host/chart/chart.awk -v width=80 -v rows=20 -v blocks=1 REPORT
# width: no line of a drawing is wider; 20 columns at least. rows: so many bars at most, 4 at least. blocks: bars of eighth blocks in UTF-8, else of '#'.
# LC_ALL=C lets every awk count bytes, and all that is measured here is ASCII.
# Exit status: 0; 1, there is no report to draw, and standard error says why.
#
# Counts stay text, since they may be larger than 2^53, up to which an awk's numbers are exact. They are compared and added as text. Only
# their shares are numbers: of the first 12 digits. So a thousand times one stays below 2^53, and no share or bar is off by as much as can
# be seen.

BEGIN {
    FS = "="
    if (width == "") width = 80
    if (width < 20) width = 20
    if (rows == "") rows = 20
    if (rows < 4) rows = 4
    split("\342\226\217 \342\226\216 \342\226\215 \342\226\214 \342\226\213 \342\226\212 \342\226\211 \342\226\210", block, " ")
}

{ value[$1] = $2 "" }
/^fn[0-9]/ {
    functions++
    name[functions] = substr($1, 3)
    count[functions] = $2 ""
}

END {
    if (!has_report()) exit 1
    if (value["samples"] == "0") {
        print "There are no samples to draw."
        exit 0
    }
    choose_rows()
    share_out()
    measure()
    draw()
}

# ---- the report ----

function has_report() {
    if ("bad" in value) return complain("line " value["bad"] " of the ledger is bad")
    if ("made" in value) return complain("the ledger's header is refused with " value["made"])
    if ("answer" in value) return complain("recovery refuses the ledger's table with " value["answer"])
    if (("samples" in value) && ("none" in value) && ("other" in value)) return 1
    return complain("this is no report of a ledger")
}

# not /dev/stderr: an awk that opens it as a file empties what it leads to
function complain(sentence) {
    print "ragansils: " sentence ", so there is nothing to draw" | "cat 1>&2"
    close("cat 1>&2")
    return 0
}

# ---- whole numbers as text ----

function is_more(one, other) {
    if (length(one) != length(other)) return length(one) > length(other)
    return one "" > other ""
}

function sum(one, other,    digits, carry, at, digit) {
    digits = ""
    carry = 0
    for (at = 0; at < length(one) || at < length(other) || carry; at++) {
        digit = digit_at(one, at) + digit_at(other, at) + carry
        digits = digit % 10 digits
        carry = int(digit / 10)
    }
    return digits == "" ? "0" : digits
}

# the last digit is at 0; before the first one stand zeros
function digit_at(number, at) {
    return at < length(number) ? substr(number, length(number) - at, 1) + 0 : 0
}

# ---- the rows ----

function add_row(label, samples) {
    shown++
    label_of[shown] = label
    samples_of[shown] = samples
}

# The report has functions in ascending order, so that of two with as many samples the smaller comes first.
function choose_rows(    room, picked, at, best, rest) {
    room = rows - (value["other"] != "0") - (value["none"] != "0")
    if (functions > room) room--
    else room = functions
    for (picked = 0; picked < room; picked++) {
        best = 0
        for (at = 1; at <= functions; at++) {
            if (!(at in taken) && (best == 0 || is_more(count[at], count[best]))) best = at
        }
        taken[best] = 1
        add_row(name[best], count[best])
    }
    if (room < functions) {
        rest = "0"
        for (at = 1; at <= functions; at++) if (!(at in taken)) rest = sum(rest, count[at])
        add_row("(" functions - room " more functions)", rest)
    }
    if (value["other"] != "0") add_row("other", value["other"])
    if (value["none"] != "0") add_row("none", value["none"])
}

# ---- shares: thousandths that add up to 1000, by the largest remainders ----

function share_out(    dropped, all, at, left, best) {
    dropped = length(value["samples"]) - 12
    all = 0
    for (at = 1; at <= shown; at++) {
        part[at] = dropped > 0 ? substr(samples_of[at], 1, max(length(samples_of[at]) - dropped, 0)) + 0 : samples_of[at] + 0
        all += part[at]
        if (part[at] > largest) largest = part[at]
    }
    left = 1000
    for (at = 1; at <= shown; at++) {
        thousandths[at] = whole_quotient(1000 * part[at], all)
        remainder[at] = 1000 * part[at] - thousandths[at] * all
        left -= thousandths[at]
    }
    for (; left > 0; left--) {
        best = 1
        for (at = 2; at <= shown; at++) if (remainder[at] > remainder[best]) best = at
        thousandths[best]++
        remainder[best] = -1
    }
}

# a quotient that rounding has made larger than it is, is one too large
function whole_quotient(dividend, divisor,    quotient) {
    quotient = int(dividend / divisor)
    return quotient * divisor > dividend ? quotient - 1 : quotient
}

function max(one, other) {
    return one > other ? one : other
}

# ---- the drawing ----

# Columns are as wide as what stands in them. A bar that would be short is left out, then the counts, and then the labels lose their
# first digits.
function measure(    at) {
    label_width = length("function")
    samples_width = max(length("samples"), length(value["samples"]))
    share_width = length("100.0%")
    for (at = 1; at <= shown; at++) label_width = max(label_width, length(label_of[at]))
    bar_width = width - label_width - samples_width - share_width - 4
    if (bar_width < 4) bar_width = 0
    if (label_width + samples_width + share_width + 3 > width) samples_width = 0
    if (label_width + share_width + 2 > width) label_width = width - share_width - 2
}

function draw(    at) {
    if (samples_width > 0) print fitted("function", label_width) " " fitted("samples", samples_width)
    for (at = 1; at <= shown; at++) print line(label_of[at], samples_of[at], thousandths[at], bar(part[at]))
    print line("all", value["samples"], 1000, "")
}

function line(label, samples, share, drawn,    text) {
    text = fitted(label, label_width)
    if (samples_width > 0) text = text " " fitted(samples, samples_width)
    text = text "  " fitted(int(share / 10) "." share % 10 "%", share_width)
    return drawn == "" ? text : text " " drawn
}

function fitted(text, room) {
    if (length(text) > room) return ".." substr(text, length(text) - room + 3)
    return sprintf("%" room "s", text)
}

# the longest bar is as wide as there is room; what is not 0 is seen
function bar(samples,    eighths, drawn) {
    if (bar_width == 0) return ""
    eighths = int(samples * bar_width * 8 / largest + 0.5)
    if (!blocks) return repeated("#", max(int(eighths / 8 + 0.5), 1))
    eighths = max(eighths, 1)
    drawn = repeated(block[8], int(eighths / 8))
    return eighths % 8 ? drawn block[eighths % 8] : drawn
}

function repeated(text, times,    all) {
    all = ""
    while (times-- > 0) all = all text
    return all
}
