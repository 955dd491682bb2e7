# Writes the page of the manual: what the first file has, which is what `grinc help` says, and of docs/commands.md, the second, the
# sections with their paragraphs, lists, tables and blocks.

# A text as roff has it: what stands between backquotes in bold.
function roff(text, out, bold) {
    gsub(/\\\|/, "|", text)
    gsub(/\\/, "\\e", text)
    gsub(/-/, "\\-", text)
    while (match(text, /`/)) {
        out = out substr(text, 1, RSTART - 1) (bold ? "\\fR" : "\\fB")
        bold = !bold
        text = substr(text, RSTART + 1)
    }
    out = out text
    return out ~ /^[.']/ ? "\\&" out : out
}

function leave(kind) {
    if (kind != "block" && state == "block") print ".fi"
    state = kind
}

# The cells of a row, but for bars that stand for themselves.
function row(line, count, i, cell) {
    gsub(/\\\|/, "\001", line)
    count = split(line, cell, "|")
    if (line ~ /^\|[-|]*$/) { begun = 1; return }
    for (i in cell) { gsub(/\001/, "|", cell[i]); gsub(/^ +| +$/, "", cell[i]) }
    # The head of a table names its columns.
    if (!begun) { for (i = 2; i < count; i++) named[i] = cell[i]; return }
    print ".TP"
    print roff(cell[2])
    for (i = 3; i < count; i++) if (cell[i] != "") print roff(named[i] ": " cell[i]) (i < count - 1 ? "\n.br" : "")
}

BEGIN {
    print ".TH GRINC 1"
    print ".SH NAME"
    print "grinc \\- compiles Core, a small lazy language, to executables for RV32IM, and runs them"
    print ".SH SYNOPSIS"
    print ".nf"
    state = "block"
}
FNR == NR { print roff($0); next }
/^## / { begun_sections = 1 }
!begun_sections { next }
/^## / { leave(""); print ".SH " toupper(roff(substr($0, 4))); next }
!/^\|/ { begun = 0 }
/^\|/ { leave("table"); row($0); next }
/^    / {
    if (state != "block") { leave(""); print ".PP\n.nf"; state = "block" }
    print roff(substr($0, 5))
    next
}
/^$/ { leave(""); next }
/^ *- / { leave("item"); print ".IP \\(bu " (/^-/ ? 2 : 4); sub(/^ *- /, ""); print roff($0); next }
{
    sub(/^ +/, "")
    if (state == "") {
        print ".PP"
        leave("text")
    }
    print roff($0)
}
END { leave("") }
