# Writes bytes, which come as numbers, as a line of text: tabs as spaces, and what is no text (control bytes, and what is not
# UTF-8) by its numbers, as \x1B. `before` and `behind` stand around it. Where `mark` is not negative, a line with a caret
# below the byte of this number follows, the first one being 0.

# How many bytes the character at i has, or 0 where no character of a text begins there.
function length_at(i, first, count, j) {
    first = byte[i]
    if (first < 128) return first >= 32 && first != 127
    count = first >= 240 ? 4 : first >= 224 ? 3 : 2
    if (first < 194 || first > 244 || i + count > bytes) return 0
    for (j = 1; j < count; j++) if (byte[i + j] < 128 || byte[i + j] > 191) return 0
    # The control characters beyond 127.
    return first == 194 && byte[i + 1] < 160 ? 0 : count
}

{ for (i = 1; i <= NF; i++) byte[bytes++] = $i + 0 }

END {
    line = before
    width = length(before)
    if (bytes && byte[bytes - 1] == 13) bytes--
    # Of a character that the line's cut goes through nothing is shown.
    for (i = 0; before != "" && i < 3 && byte[i] >= 128 && byte[i] < 192; ) i++
    for (; i < bytes; i += count) {
        if (i == mark) caret = width
        count = byte[i] == 9 ? 1 : length_at(i)
        if (!count && behind != "" && byte[i] >= 194 && i + 3 >= bytes && byte[bytes - 1] >= 128) break
        if (byte[i] == 9) line = line " "
        else for (j = 0; j < count; j++) line = line sprintf("%c", byte[i + j])
        width += count ? 1 : 4
        if (!count) {
            line = line sprintf("\\x%02X", byte[i])
            count = 1
        }
    }
    print line behind
    if (mark >= 0) printf "%*s\n", (mark < bytes ? caret : width) + 1, "^"
}
