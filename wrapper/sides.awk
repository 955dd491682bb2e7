# The two sides of types once more, with the name of a variable of a signature in place of the number that it has there: the first
# line has them with numbers, the second one those of the text where a type, the mark, stands for the variable. The numbers in the
# second are one less from that of the variable on. Where the lines don't fit so, the first one stays.
function parts(text, list, n) {
    n = 0
    while (match(text, /[A-Za-z0-9_']+/)) {
        list[++n] = substr(text, RSTART, RLENGTH)
        text = substr(text, RSTART + RLENGTH)
    }
    return n
}
NR == 1 { first = $0 }
NR == 2 {
    count = parts(first, old)
    if (parts($0, new) == count) for (i = 1; i <= count; i++) if (new[i] == mark) {
        if (!variable) variable = old[i]
        if (old[i] != variable || variable !~ /^v[0-9]+$/) wrong = 1
    }
    for (i = 1; i <= count; i++) if (old[i] == variable && new[i] != mark) wrong = 1
}
END {
    if (variable && !wrong) {
        text = first
        out = ""
        while (match(text, /[A-Za-z0-9_']+/)) {
            word = substr(text, RSTART, RLENGTH)
            out = out substr(text, 1, RSTART - 1) (word == variable ? name : word)
            text = substr(text, RSTART + RLENGTH)
        }
        print out text
    } else print first
}
