# What docs/help.txt says: of a command, or of all of them where none is named. A line at the left begins what is said of it.

# The words of a command line of which something is said apart: those in capitals, and options.
function words_of(line, count, i, part) {
    count = split(line, part, /[][ .]+/)
    for (i = 3; i <= count; i++) wanted[part[i]] = 1
}

# The words and options of a command behind its operands.
function in_short(line, text, bare) {
    bare = line
    sub(/^\.\//, "", bare)
    if (match(bare, / \[/)) { more = substr(bare, RSTART + 1); bare = substr(bare, 1, RSTART - 1) } else more = ""
    printf "%-33s%s\n", bare, text
    if (more) printf "%-33s%s\n", "", more
}

/^#/ { next }
/^[^ ]/ {
    head = $0
    is_command = /^(\.\/)?grinc /
    told = command != "" && (is_command ? $2 == command : $0 in wanted)
    if (told && is_command) { words_of($0); found = 1 }
    fresh = 1
}
command == "" && /^    / && is_command && fresh { in_short(head, substr($0, 5)) }
/^    / { fresh = 0 }
told && !/^$/ { print (begun && /^[^ ]/ ? "\n" : "") $0; begun = 1 }
END { exit command != "" && !found }
