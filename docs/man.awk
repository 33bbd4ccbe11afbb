# Makes the manual page of ft4sh out of the manual: awk -f docs/man.awk docs/MANUAL.md.

# A text in the words of roff, with `code` and **strong** words in bold.
function inline(text,    shown, at) {
    gsub(/\\\|/, "|", text)
    gsub(/\\/, "\\e", text)
    gsub(/-/, "\\-", text)
    gsub(/\*\*/, "`", text)
    shown = ""
    for (bold = 0; (at = index(text, "`")) > 0; bold = !bold) {
        shown = shown substr(text, 1, at - 1) (bold ? "\\fR" : "\\fB")
        text = substr(text, at + 1)
    }
    return shown text
}

# A line of text, which roff doesn't take as a request.
function line(text) { print (text ~ /^[.']/ ? "\\&" : "") text }

# Ends the paragraph or the item that was read.
function flush() {
    if (par != "") line(inline(par))
    par = ""
}

# The cells of a row of a table, without their blanks.
function cells(row,    n, k) {
    gsub(/\\\|/, "\001", row)
    n = split(row, cell, "|")
    for (k = 1; k <= n; k++) {
        gsub(/^ +| +$/, "", cell[k])
        gsub(/\001/, "|", cell[k])
    }
    return n - 1
}

# A row as an item: its first cell, and the others, with the heads of their columns where there are several.
function row(n,    k, text) {
    print ".TP"
    line(cell[2] ~ /[`*]/ ? inline(cell[2]) : "\\fB" inline(cell[2]) "\\fR")
    for (k = 3; k <= n; k++) if (cell[k] != "") text = text (text == "" ? "" : "; ") (n > 3 ? head[k] ": " : "") cell[k]
    if (text != "") line(inline(text))
}

FNR == 1 {
    print ".TH FT4SH 1 \"\" ft4sh \"User Commands\"\n.SH NAME\nft4sh \\- SQL shell with full\\-text tables"
    print ".SH SYNOPSIS\n.B ft4sh\n.RI [ OPTIONS ]\n.RI [ FILE ]\n.RI [ SQL ]...\n.SH DESCRIPTION"
    next
}
/^```/ {
    flush()
    print code ? ".RE\n.fi" : ".PP\n.nf\n.RS 4"
    code = !code
    next
}
code { gsub(/\\/, "\\e"); gsub(/-/, "\\-"); line($0); next }
/^#/ { flush(); sub(/^###/, ".SS") || sub(/^##/, ".SH"); gsub(/-/, "\\-"); print; next }
/^\|/ {
    flush()
    n = cells($0)
    if (!table) for (k = 3; k <= n; k++) head[k] = cell[k]
    else if ($0 !~ /^\|-/) row(n)
    table = 1
    next
}
{ table = 0 }
/^$/ { flush(); gap = 1; next }
/^(-|[0-9]+\.) / { flush(); print ".IP " (/^-/ ? "\\(bu 2" : $1 " 3"); sub(/^[^ ]+ +/, ""); par = $0; gap = 0; next }
{
    if (gap) print ".PP"
    gap = 0
    sub(/^ +/, "")
    par = par == "" ? $0 : par " " $0
}
END {
    flush()
    print ".SH \"SEE ALSO\"\n.BR sqlite3 (1)"
}
