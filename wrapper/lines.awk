# Puts each declaration that `lift`, `match` or `types` writes on the line of the text where it comes from, so that what is said of the
# one speaks of lines of the other. It reads the tokens of the text, as more.awk does, and then what was written. A constructor stands
# where it is declared, a function where its first equation begins, `lift'N` where the lambda or the local function of this number does,
# and `match'N` where the equation does. The order of declarations means nothing.

function is_name(text) { return text ~ /^[a-z_]/ && text !~ /^(data|let|in|case|of)$/ }

NR == FNR {
    split($0, part, ":")
    text = substr($0, length(part[1]) + length(part[2]) + 3)
    if (text ~ /^--/) next
    word[++words] = text
    line[words] = part[1]
    starts = !depth && (words == 1 || word[words - 1] == ";")
    if (starts) {
        is_type = text == "type"
        if (is_name(text) && text != "type" && text != "sig") {
            equation[equations++] = part[1]
            if (!(text in begins)) begins[text] = part[1]
        }
    }
    before = word[words - 1]
    if (before == "data" || is_type && (before == "=" || before == "|")) begins["data " text] = part[1]
    # The second of two names that a group or a `;` in it begins with: the first is a local function.
    if (depth && is_name(text) && is_name(before) && (word[words - 2] == "let" || word[words - 2] == ";")) lifted[functions++] = line[words - 1]
    if (text == "\\") lifted[functions++] = part[1]
    if (text == "(" || text == "{" || text == "let") depth++
    if (text == ")" || text == "}" || text == "in") depth--
    next
}

{
    name = $1 == "data" ? "data " $2 : $1
    number = name
    sub(/^[a-z]+'/, "", number)
    at = name ~ /^lift'[0-9]+$/ ? lifted[number] : name ~ /^match'[0-9]+$/ ? equation[number] : begins[name]
    if (at + 0 < 1) at = last + 1
    at += 0
    written[at] = (at in there ? written[at] " " : "") $0
    there[at] = 1
    if (at > last) last = at
}

END { for (i = 1; i <= last; i++) print written[i] }
