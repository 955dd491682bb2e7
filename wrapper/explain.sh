# shellcheck shell=sh disable=SC2034,SC2154,SC2016,SC1091
# What ./grinc says behind the program's own line, which it reads this file for where a command didn't go well, or where it
# looks at a text: the place, the rule, and notes. With `--json` each is an object on a line.

# The bytes of the input as a terminal may be given them. Where the first word is a byte's number, a line with a caret below
# that byte follows; the other two stand around the line.
shown() {
    od -An -v -tu1 | awk -v mark="${1:--1}" -v before="${2:-}" -v behind="${3:-}" -f "$top/wrapper/shown.awk"
}

# A text as JSON has it; what `shown` gives has no other byte that must not stand there.
in_json() {
    printf '"%s"' "$(printf '%s' "$1" | sed 's/[\\"]/\\&/g')"
}

# note NAME LINE COLUMN TEXT: a further line, or one more note of the object that is made. What has no place has no line.
note() {
    if [ -n "$json" ]; then
        notes="$notes${notes:+,}{\"file\":$(in_json "$1"),\"line\":${2:-null},\"column\":${3:-null},\"text\":$(in_json "$4")}"
    elif [ -n "$2" ]; then
        printf '%s:%s:%s: %s: %s\n' "$1" "$2" "$3" "${kind:-note}" "$4"
    else
        printf '%s: note: %s\n' "$1" "$4"
    fi
}

# object MEMBERS: a line of JSON with these and what belongs to each.
object() {
    proved=true
    [ -z "$unproved" ] || proved=false
    printf '{%s,"status":%s,"proved":%s,"notes":[%s]}\n' "$1" "$status" "$proved" "$notes"
    notes=''
}

# Sets `line`, `column` and `length`, the length of the line, for a place in the file.
find_place() {
    # shellcheck disable=SC2046
    set -- $(tr '\000' ' ' <"$file" | awk -v place="$1" '
        place <= length($0) { print NR, place + 1, length($0); exit }
        { place -= length($0) + 1 }')
    line=${1-} column=${2-} length=${3-}
}

# The end of the last line of the file that has more than blanks. Each blank is made a line, since a pattern for a row of them
# at a line's end takes the square of its length.
end_of_text() {
    tr '\000 \t\r' '\n\n\n\n' <"$file" | awk 'length($0) { last = begin + length($0) } { begin += length($0) + 1 } END { print last + 0 }'
}

# The line with a caret below the place. Of a line of more than 200 bytes those around the place are shown.
show_line() {
    skipped=0 before='' behind=''
    if [ "$length" -gt 200 ]; then
        skipped=$((column - 101))
        [ $skipped -le $((length - 200)) ] || skipped=$((length - 200))
        [ $skipped -ge 0 ] || skipped=0
        [ $skipped -eq 0 ] || before=...
        [ $((length - skipped)) -le 200 ] || behind=...
        length=200
    fi
    tail -c +$(($1 - column + 2 + skipped)) <"$file" | head -c "$length" |
        shown $((column - 1 - skipped)) "$before" "$behind"
}

# tokens FILE: its tokens, one a line, each with its line, its place and colons before it.
tokens() {
    tr '\000' ' ' <"$1" | grep -anobE -e '--.*|->|-?[0-9]+|[][(){};=|:\\"+*/<>&,.!?@#$%^~-]' \
        -e "[A-Za-z_][A-Za-z0-9_']*" 2>/dev/null
}

# begins FILE: the places where a name begins a line, as tokens without a text.
begins() {
    tr '\000' ' ' <"$1" | grep -anob '^[a-z]' 2>/dev/null | sed 's/.$//'
}

# more RULE: what the text tells of a rule at the place, as lines of a place, or `here`, and a sentence.
more() {
    case $command in types | sides) typed=1 ;; *) typed=0 ;; esac
    { [ "$1" != 2 ] || begins "$source"; tokens "$source"; } | awk -v rule="$1" -v place="$place" -v types=$typed -f "$top/wrapper/more.awk"
}

# tell_more RULE: these lines as notes.
tell_more() {
    said_more=$(more "$1")
    own_line=$line own_column=$column
    while read -r at text; do
        case $at in
            '') continue ;;
            here) line=$own_line column=$own_column ;;
            *) find_place "$at" ;;
        esac
        note "$name" "$line" "$column" "$text"
    done <<END
$said_more
END
    line=$own_line column=$own_column
}

# tell_file RULE WORD..: at `link`, with these words, the place of the first in an earlier file, or in this one. A function is one of
# its own module.
tell_file() {
    first_rule=$1 own=$file number=0
    shift
    wanted=$(tail -c +$((place + 1)) <"$own" | sed -nE "1s/^([A-Za-z_][A-Za-z0-9_']*).*/\\1/p")
    case $first_rule:$wanted in 58:[a-z_]*) number=$file_number ;; esac
    while [ $number -le $file_number ]; do
        find_file $number "$@"
        limit=-1
        [ $number -lt $file_number ] || limit=$place
        [ ! -f "$file" ] ||
            at=$(tokens "$file" | awk -v rule="file$first_rule" -v name_sought="$wanted" -v place=$limit -f "$top/wrapper/more.awk")
        if [ -n "${at-}" ]; then
            find_place "$at"
            note "$(printf '%s' "$file" | shown)" "$line" "$column" 'the first one is here'
            break
        fi
        number=$((number + 1))
    done
    file=$own
}

# What the byte at the place of rule 1 is for, where another command reads it, or what stands in its place.
tell_byte() {
    # shellcheck disable=SC2046
    set -- $(head -c $((place + 2)) <"$file" | tail -c +$((place > 0 ? place : 1)) | od -An -v -tu1)
    [ "$place" -gt 0 ] || set -- 32 "$@"
    case $2 in
        92) text='`\` begins a lambda, `(\x -> ..)`: `grinc lift` reads such texts' ;;
        124) text='`|` stands between the constructors of a type: `grinc types` reads such texts; the alternatives of a case have `;` between them' ;;
        58) text='`:` stands in a signature, `sig f : ..`: `grinc types` reads such texts'
            [ "${3-}" != 58 ] || text='there is no `::`: a list of x and others is `Cons x xs`' ;;
        34) text='there are no texts: one is the list of its bytes, as `Cons 72 (Cons 105 Nil)`' ;;
        39) text="\`'\` may only follow the first letter of a name; a character is its number, as 65" ;;
        91 | 93) text='there are no signs for lists: one of 1 and 2 is `Cons 1 (Cons 2 Nil)`' ;;
        44) text='there are no tuples: declare a constructor, `data Pair 2;`, and write `Pair a b`' ;;
        43) text='there are no operators: a sum is `add a b`' ;;
        45) text='`-` stands right before the digits of an integer; a difference is `sub a b`' ;;
        42) text='there are no operators: a product is `mul a b`' ;;
        47) text='there are no operators: a quotient is `quot a b`' ;;
        37) text='there are no operators: a remainder is `rem a b`' ;;
        60 | 62) text='there are no operators: `lt a b` is 1 where a is less than b' ;;
        46) text='there are no operators and no fractions: a composition is a function, `compose f g x = f (g x)`' ;;
        33 | 35 | 36 | 38 | 63 | 64 | 94 | 96 | 126) text='there are no operators: a function stands before its arguments, `f a b`' ;;
        *) text='outside of comments a text has letters and digits of ASCII, spaces, and its signs' ;;
    esac
    note "$name" "$line" "$column" "$text"
}

# Whether a program goes on with this token behind the text in `begun`. A command that takes the token comes to the `?`, with
# which none begins.
goes_on_with() {
    answer=$(printf '%s\n%s ?' "$begun" "$1" | "$kept" "$grammar" /dev/stdin 2>&1 >/dev/null)
    [ "$answer" = "grinc: refused 1 at $((${#begun} + ${#1} + 2))" ]
}

# begin_at FROM TO: sets `begun` to these bytes of the text. Of a row of blanks one is enough.
begin_at() {
    begun=$(tail -c +$(($1 + 1)) <"$source" | head -c $(($2 - $1)) | tr '\000\t\r' '   ' | tr -s ' \n')
}

# What was found at the place, of which no more than 80 bytes are shown, and the tokens that are expected there, by the
# command that takes such texts.
tell_expected() {
    grammar=$command declares=data from=0 others='' last=''
    case $command in
        lift | match) set -- ;;
        link) declares='' && set -- module export import ;;
        types | sides) grammar=types declares=type && set -- type sig ;;
        *) grammar=check && set -- ;;
    esac
    # Where a line begins with a declaration, those before it don't matter; but a module has more before them.
    to=$(head -c "$place" <"$source" | grep -abo '^[a-z]' | tail -n 1 | sed 's/:.*//')
    if [ -n "$declares" ] && [ -n "$to" ] && [ "$to" -gt 0 ]; then
        begin_at 0 "$to"
        ! goes_on_with $declares || from=$to
    fi
    begin_at "$from" "$place"
    for token in "$@" data let case in of a A 0 '(' ')' '{' '}' = '->' ';' '|' ':' '\'; do
        goes_on_with "$token" || continue
        [ -z "$last" ] || others="${others:+$others, }$last"
        case $token in
            a) last='a name' ;;
            A) last='a constructor'; goes_on_with A_ || last="$last of letters and digits" ;;
            0) last='an integer'; goes_on_with -1 || last="$last without \`-\`" ;;
            *) last="\`$token\`" ;;
        esac
    done
    [ -n "$last" ] || return 0
    found=$(tail -c +$((place + 1)) <"$file" | head -c 81 |
        sed -nE "1s/^([A-Za-z_][A-Za-z0-9_']*|-?[0-9]+|->|.).*/\\1/p")
    [ ${#found} -le 80 ] || found="${found%?}..."
    if [ -n "$at_end" ]; then found='the text ends here'; else found="found \`$found\`"; fi
    note "$name" "$line" "$column" "$found, expected ${others:+$others or }$last"
}

# Of what doesn't go on: an operator that there isn't, an open bracket, and a `;` that is missing.
tell_syntax() {
    whole=$(tail -c +$((place + 1)) <"$file" | head -c 81 | sed -nE "1s/^([A-Za-z_][A-Za-z0-9_']*|-?[0-9]+|->|.).*/\\1/p")
    [ "$whole" != = ] || [ "$(tail -c +$((place + 1)) <"$source" | head -c 2)" != '==' ] ||
        note "$name" "$line" "$column" 'there are no operators: `eq a b` is 1 where both are the same number'
    tell_more 2
    [ -n "$at_end" ] || tell_missing "$whole"
}

# Where the text would go on past the token at the place with a `;` at the end of the line before: that one is missing.
tell_missing() {
    missing=$(more missing)
    [ -n "$missing" ] || return
    begin_at 0 "$missing"
    start=$begun
    begin_at "$missing" "$place"
    begun="$start ; $begun"
    goes_on_with "$1" || return
    own_line=$line own_column=$column
    find_place "$missing"
    note "$name" "$line" "$column" '`;` is missing here, at the end of the line before'
    line=$own_line column=$own_column
}

# The two sides of the types that don't fit, of each no more than 80 bytes, and which is which. Where there is no memory for them,
# nothing.
tell_sides() {
    sides=$("$kept" sides -- "$file" 2>/dev/null </dev/null) && [ -n "$sides" ] || return
    role=$(more sides)
    name_sides
    sides=$(printf '%s\n' "$sides" | awk -v role="$role" '
        function cut(side) { return length(side) > 80 ? substr(side, 1, 80) "..." : side }
        {
            at = index($0, " and ")
            left = "`" cut(substr($0, 1, at - 1)) "`"
            right = "`" cut(substr($0, at + 5)) "`"
            split(role, part, " ")
            if (part[1] == "head") print "`" part[2] "` has the type " left ", and " right " is expected here"
            else if (part[1] == "pattern") print "the pattern `" part[2] "` has the type " right ", and " left " is expected here"
            else if (part[1] == "signature") print "the equation of `" part[2] "` has the type " right ", and " left " is expected, by its signature"
            else print "the two sides are " left " and " right
        }')
    note "$name" "$line" "$column" "$sides${named:+; $named of \`sig $signed\` may be any type}"
}

# Gives `sides` the names that the signature of `signed` gives its variables, which `named` lists, where these can be told: each
# stands for a type of its own in the body, so with a type in its place the text is refused at the same place, and the sides have
# that type. A name as the program numbers others gets a word before it.
name_sides() {
    signed='' named=''
    # shellcheck disable=SC2046
    set -- $(more rigid)
    [ $# -gt 0 ] || return
    signed=$1
    shift
    for rigid; do
        changed=$(tokens "$file" | awk -v rule=rename -v place="$place" -v types=1 -v name_sought="$rigid" -f "$top/wrapper/more.awk")
        other=$(replaced "$rigid" "$changed" | "$kept" sides /dev/stdin 2>/dev/null)
        [ -n "$other" ] || continue
        shows=$rigid
        case $rigid in v[0-9]*) shows="sig'$rigid" ;; esac
        changed=$(printf '%s\n%s\n' "$sides" "$other" | awk -v name="$shows" -v mark="Rigid'$rigid" -f "$top/wrapper/sides.awk")
        [ "$changed" = "$sides" ] || named="$named${named:+, }\`$shows\`"
        sides=$changed
    done
}

# replaced NAME PLACES: the text of the file with a type of no parameters in place of the variable at these places.
replaced() {
    tr '\000' ' ' <"$file" | awk -v name="$1" -v places="$2" '
        { text = text $0 "\n" }
        END {
            count = split(places, at, " ")
            for (i = 1; i <= count; i++) {
                printf "%s%s", substr(text, done + 1, at[i] - done), "Rigid'"'"'" name
                done = at[i] + length(name)
            }
            printf "%stype Rigid'"'"'%s = Rigid'"'"'%s;\n", substr(text, done + 1), name, name
        }'
}

# Sets `file` to the operand of this number, the first being 0, among the words of `link`.
find_file() {
    before=$1 ended='' file=''
    shift 2
    for word; do
        if [ -z "$ended" ] && [ "$word" = -- ]; then
            ended=1
        elif [ "$before" -eq 0 ]; then
            file=$word
            return
        else
            before=$((before - 1))
        fi
    done
}

# What a refusal says: the rule, and where it has a place in a text, the line and the column, as compilers say it. Only
# a plain file is read again. The words follow: at `link` the number tells the file too, but at rule 59, which is no file's.
explain() {
    at=''
    rule=$1 place=$2 line='' column='' at_end='' notes='' file_number=0
    shift 2
    command=$1
    if [ "$command" = link ]; then
        file_number=$((place / 2097152))
        find_file $file_number "$@"
        place=$((place % 2097152))
    fi
    source=${rest:-$file}
    name=$(printf '%s' "$file" | shown)
    [ "$rule" -ne 59 ] || name=grinc
    rule_text=$(awk -F '\t' -v rule="$rule" -v own="$command $rule" '$1 == rule && !text || $1 == own { text = $2 } END { print text }' \
        <"$top/docs/rules.txt")
    case $rule in
        5 | 19 | 21 | 35 | 36 | 4? | 50 | 59 | 86) ;;
        *)
            if [ -f "$file" ] && [ -r "$file" ]; then
                [ "$place" -ne "$(wc -c <"$file")" ] || at_end=yes place=$(end_of_text)
                find_place "$place"
            fi ;;
    esac
    if [ -n "$json" ]; then
        :
    elif [ -z "$line" ]; then
        printf '%s: rule %s: %s\n' "$name" "$rule" "$rule_text"
    else
        printf '%s:%s:%s: rule %s: %s\n' "$name" "$line" "$column" "$rule" "$rule_text"
        show_line "$place"
    fi
    own_line=$line own_column=$column
    [ -z "$line" ] || tell_notes "$@"
    [ "$rule" -ne 36 ] || tell_largest
    [ -z "$json" ] ||
        object "\"file\":$(in_json "$name"),\"line\":${own_line:-null},\"column\":${own_column:-null},\"rule\":$rule,\"text\":$(in_json "$rule_text")"
}

# Where a program is too large once each `eval` is spelled out: in which procedures these get the most alternatives.
tell_largest() {
    [ -f "$file" ] && [ -r "$file" ] && found=$(mktemp 2>/dev/null) || return
    "$kept" points -- "$file" >"$found" 2>/dev/null
    largest=$("$kept" list --after translate -- "$file" 2>/dev/null | awk -f "$top/wrapper/kinds.awk" "$found" -)
    rm -f "$found"
    [ -z "$largest" ] ||
        note "$name" '' '' "each \`eval\` gets an alternative for each kind of cell; the most have $(printf '%s' "$largest" | shown)"
}

# The notes at a rule, by the command.
tell_notes() {
    case $command:$rule in
        *:1) tell_byte ;;
        # Of further refusals there is less, since each token that is tried is a run of the program.
        *:2) [ -n "$rest" ] || tell_expected; tell_syntax ;;
        link:5[28]) tell_file "$rule" "$@" ;;
        link:56) tell_more "$rule" ;;
        link:*) ;;
        types:83) tell_sides ;;
        *:1[1235678] | *:23 | *:3[34] | *:61 | *:7[13] | *:8[145]) tell_more "$rule" ;;
    esac
}

# Up to nine more refusals of a text, each of the text without the body of what was refused before. `check` is asked again, so
# that what is said is what it says of a text.
tell_others() {
    rest=$(mktemp 2>/dev/null) || return
    tr '\000' ' ' <"$file" >"$rest"
    grammar=check told=1 gone=' ' tries=0 places=" $place "
    while [ $told -lt 10 ] && [ $tries -lt 20 ]; do
        tries=$((tries + 1))
        # What of the text goes, what stands there then, and the name that is declared no more.
        cut=$({ begins "$rest"; tokens "$rest"; } | awk -v rule=blank -v place="$place" -v is_syntax=$((rule < 5)) -f "$top/wrapper/more.awk")
        [ -n "$cut" ] || break
        read -r from to filler <<END
$cut
END
        [ "$filler" = 1 ] || { gone="$gone$filler "; filler=''; }
        {
            head -c "$from" "$rest"
            printf '%*s' $((to - from)) "$filler"
            tail -c +$((to + 1)) "$rest"
        } >"$rest.new" && mv "$rest.new" "$rest"
        next=$("$kept" check "$rest" 2>&1 >/dev/null | sed -n 's/^grinc: refused \([0-9]*\) at \([0-9]*\)$/\1 \2/p')
        case $next in
            '' | 5\ * | 19\ * | 2[01]\ * | 3[1256]\ *) break ;;
            2\ *) [ "${next#* }" -lt "$(wc -c <"$rest")" ] || break ;;
            14\ * | 15\ *)
                # A name that was declared where something is gone now is no mistake.
                place=${next#* }
                case $gone in
                    *" $(tail -c +$((place + 1)) "$rest" | head -c 200 | sed -nE "1s/^([A-Za-z_][A-Za-z0-9_']*).*/\\1/p") "*) continue ;;
                esac ;;
        esac
        # A mistake that doesn't go has been told.
        case $places in *" ${next#* } "*) break ;; esac
        places="$places${next#* } "
        # shellcheck disable=SC2086
        explain $next check "$file"
        told=$((told + 1))
    done
    rm -f "$rest" "$rest.new"
    rest=''
}

# Warnings on a text that breaks no rule, up to ten.
warn() {
    [ -f "$file" ] && [ -r "$file" ] || return
    source=$file place=-1
    said_more=$(more warn)
    [ -n "$said_more" ] || return
    name=$(printf '%s' "$file" | shown) kind=warning notes='' told=0
    while read -r at text && [ $told -lt 10 ]; do
        told=$((told + 1))
        find_place "$at"
        if [ -n "$json" ]; then
            object "\"file\":$(in_json "$name"),\"line\":$line,\"column\":$column,\"rule\":null,\"text\":$(in_json "$text")"
        else
            note "$name" "$line" "$column" "$text"
        fi
    done <<END
$said_more
END
    kind=''
}

# Does the words, and puts each declaration that they write on the line of the text where it comes from, if that is a plain file.
do_by_lines() {
    case $command in
        lift | match | types) [ ! -f "$file" ] || written=$(mktemp 2>/dev/null) || written='' ;;
        *) written='' ;;
    esac
    [ -n "${written-}" ] || { attend "$kept" "$@" 2>&8; return; }
    attend "$kept" "$@" 2>&8 >"$written"
    ended=$?
    [ $ended -ne 0 ] || tokens "$file" | awk -f "$top/wrapper/lines.awk" - "$written"
    rm -f "$written"
    return $ended
}

grouped() {
    printf '%s\n' "$1" | sed -e :a -e 's/^\([0-9]*[0-9]\)\([0-9]\{3\}\)/\1,\2/;ta'
}

# option NAME DEFAULT WORD..: the value that the words give an option.
option() {
    wanted=$1 value=$2
    shift 2
    while [ $# -gt 0 ]; do
        case $1 in
            --) break ;;
            "$wanted"=*) value=${1#*=} ;;
            "$wanted") value=${2-$value} ;;
        esac
        shift
    done
    printf '%s\n' "$value" | sed 's/^0*\(.\)/\1/'
}

# What a run that didn't come to its end says beside its line.
tell_end() {
    case $status in
        2) say_usage "$@" ;;
        3) [ -z "$where" ] || say_where "$@" ;;
        4) note grinc '' '' "it has bound all its $(grouped "$(option --heap 1000000 "$@")") cells; \`--heap CELLS\` gives more, up to 8,000,000" ;;
        5) note grinc '' '' "its stack has $(grouped "$(option --stack 1048576 "$@")") bytes; \`--stack BYTES\` gives more, up to 67,108,864" ;;
        6) note grinc '' '' "it did $(grouped "$(option --steps 1000000000 "$@")") instructions; \`--steps M\` lets it go on, up to 1,000,000,000,000" ;;
        9) [ -z "$file" ] || [ -r "$file" ] || note grinc '' '' "the file can't be read: $(printf '%s' "$file" | shown)" ;;
    esac
}

# Where no alternative was found: a procedure that the text has, or one that the compiler adds.
say_where() {
    case $where in
        @print | @start) text="what is to be printed isn't a list of numbers (\`$where\`)" ;;
        @[0-9]*) text="what is applied isn't a function, in an application that was put off (\`$where\`)" ;;
        @*) text="an operand isn't a number, in an operation that was put off (\`$where\`)" ;;
        *) text="the value was met in \`$where\`" ;;
    esac
    note grinc '' '' "$text$(makers)$(entered "$@")"
}

# The procedures of the text that put off what one of the compiler's procedures does, where these are three at most.
makers() {
    case $where in @print | @start | [!@]*) return ;; esac
    [ -f "$file" ] || return
    "$kept" list --after translate -- "$file" 2>/dev/null | awk -v RS= -v tag="(F$where" '
        $1 !~ /^(@|global)/ && (index($0, tag " ") || index($0, tag ")")) { names = names (count++ ? ", " : "") "`" $1 "`" }
        END { if (count && count < 4) print ", by " (count > 1 ? "one of " : "") names }' | shown_line
}

# Where a procedure of the compiler stopped: the last one of the text that was entered, if `trace` goes so far, which reads nothing
# and has the heap and the stack of a run without options.
entered() {
    case $where in [!@]*) return ;; esac
    [ -f "$file" ] || return
    [ "$(option --heap 1 "$@")" -le 1000000 ] && [ "$(option --stack 1024 "$@")" -le 1048576 ] || return
    "$kept" list --after read -- "$file" 2>/dev/null | grep -q '^main =' || return
    "$kept" trace --units 1000000 -- "$file" 2>/dev/null | awk '
        { sub(/^ */, "") }
        !/^@/ { last = $0 }
        END { if (last != "" && NR < 1000000) print "; the last procedure of the text that was entered is `" last "`" }' | shown_line
}

# A line as a terminal may be given it.
shown_line() {
    read -r text || return
    printf '%s' "$text" | shown
}

say_usage() {
    said_more=$(awk -f "$top/wrapper/usage.awk" -- "$@" </dev/null | shown)
    [ -z "$said_more" ] || note grinc '' '' "$said_more"
}

# Passes on what the program said before it ended, and explains it.
pass_lines() {
    rest='' said=$(cat /dev/fd/8) where='' kind='' notes='' command=${1-}
    if [ -n "$added" ]; then
        where=$(printf '%s\n' "$said" | sed -n 's/^grinc: no alternative in //p')
        where=$(printf '%s' "$where" | shown)
        said=$(printf '%s\n' "$said" | sed '/^grinc: instructions [0-9]* cells [0-9]*$/d; /^grinc: no alternative in /d')
    fi
    [ -z "$said" ] || [ -n "$json" ] || printf '%s\n' "$said" >&2
    refused=$(printf '%s\n' "$said" | sed -n 's/^grinc: refused \([0-9]*\) at \([0-9]*\)$/\1 \2/p')
    if [ $status -eq 0 ]; then
        case ${1-} in check | match) warn >&2 ;; esac
    elif [ $status -eq 1 ] && [ -n "$refused" ] && [ -n "$file" ]; then
        # shellcheck disable=SC2086
        explain $refused "$@" >&2
        [ "$1" != check ] || [ -z "$own_line" ] || tell_others >&2
    else
        tell_end "$@" >&2
        [ -z "$json" ] || object "\"file\":null,\"line\":null,\"column\":null,\"rule\":null,\"text\":$(in_json "$said")" >&2
    fi
}
