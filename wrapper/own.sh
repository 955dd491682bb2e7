# shellcheck shell=sh disable=SC2034,SC2154,SC2016,SC1091
# The words that ./grinc does itself, without the program: help, its version, a rule with its example, a page, and what puts it
# where the path finds it. docs/help.txt has the texts of help, and docs/rules.txt those of rules.

# The program's commands, and the script's own.
help() {
    awk -f "$top/wrapper/help.awk" <"$top/docs/help.txt"
    echo 'docs/commands.md has how commands end, and every rule.'
}

# The page of the manual.
manual() {
    awk -f "$top/wrapper/help.awk" <"$top/docs/help.txt" | awk -f "$top/wrapper/man.awk" - "$top/docs/commands.md"
}

# Which toolchain built the program, or, where nothing is built, which one would; what it says of itself is kept.
version() {
    if [ -s "$kept.version" ]; then
        read -r toolchain <"$kept.version"
        printf 'grinc, built by %s%s\n' "$toolchain" "${unproved:+, unproved}"
    elif tool=$(command -v rt); then
        if [ ! -s "$top/.grinc/toolchain" ] || [ "$tool" -nt "$top/.grinc/toolchain" ]; then
            toolchain=$(rt version 2>/dev/null | head -n 1)
            { mkdir -p "$top/.grinc" && printf '%s\n' "$toolchain" >"$top/.grinc/toolchain"; } 2>/dev/null
        else
            read -r toolchain <"$top/.grinc/toolchain"
        fi
        printf 'grinc; the toolchain is %s\n' "$toolchain"
    else
        echo "grinc; there is no toolchain, since rt isn't on the path"
    fi
}

# The texts of a rule, and its examples: a rule has more than one where a command has another meaning for its number.
explain_rule() {
    awk -F '\t' -v rule="${1#0}" '
        {
            number = $1
            sub(/^[a-z]+ /, "", number)
        }
        number == rule {
            print (found ? "\n" : "") "rule " $1 ": " $2
            print "  " $3
            if ($4 != "") print "  NUMBER: " $4
            print "  example: " $5
            found = 1
        }
        END { exit !found }' <"$top/docs/rules.txt" || { say "no rule has the number $1; docs/rules.txt lists them"; exit 2; }
}

# Does the words, or comes back where they are none of these.
own_words() {
    case $#:$1 in
        1:--help | 1:help) help; exit ;;
        2:help) awk -v command="$2" -f "$top/wrapper/help.awk" <"$top/docs/help.txt" || { help >&2; exit 2; }; exit ;;
        1:--version) version; exit ;;
        2:--explain) explain_rule "$2"; exit ;;
        1:man) manual; exit ;;
        1:completion) awk -f "$top/wrapper/completion.awk" <"$top/docs/help.txt"; exit ;;
        2:install | 2:page) . "$top/wrapper/build.sh"; reading=''; is_kept || build_once || exit 125 ;;
    esac
    case $#:$1 in
        2:install) . "$top/wrapper/install.sh"; install_in "$2"; exit ;;
        2:page)
            # A text that is refused has no page; what is wrong is said as by `check`.
            "$kept" check -- "$2" >/dev/null 2>&1 || do_words check -- "$2"
            GRINC=$kept UNPROVED=$unproved exec python3 "$top/wrapper/page" "$2" ;;
    esac
}
