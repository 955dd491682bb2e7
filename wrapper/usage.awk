# Says which of the words of a command line is none, and what would stand there; the words are this program's arguments. It follows
# docs/commands.md, "Words".

function said(text) { printf "%s", text; exit }

# The operands, the options with their ranges, and those that have to stand, of each command.
function commands() {
    many = "run check list build costs trace profile exec gen link lift match types sides points"
    operand["run"] = operand["check"] = operand["list"] = operand["build"] = operand["costs"] = operand["trace"] = operand["profile"] = "FILE"
    operand["lift"] = operand["match"] = operand["types"] = operand["sides"] = operand["points"] = operand["link"] = "FILE"
    operand["exec"] = "IMAGE"
    options["run"] = "--heap --stack --steps --stats"
    options["build"] = options["costs"] = "--heap --stack"
    options["list"] = needed["list"] = "--after"
    options["trace"] = "--units"
    options["exec"] = "--steps --stats"
    options["gen"] = needed["gen"] = "--seed --size"
    range["--heap"] = "1 8000000"
    range["--stack"] = "1024 67108864"
    range["--steps"] = "1 1000000000000"
    range["--units"] = "1 1000000"
    range["--seed"] = "0 2147483647"
    range["--size"] = "1 200"
    passes = "read translate eval apply vectorise simplify fetch copy update unbox raise flat known cells dead code"
}

function is_in(word, list) { return index(" " list " ", " " word " ") > 0 }
function listed(list) { gsub(/ /, ", ", list); return list }
function grouped(number, text) {
    for (text = ""; length(number) > 3; number = substr(number, 1, length(number) - 3)) text = "," substr(number, length(number) - 2) text
    return number text
}

# In how many steps a letter is put in, taken out or changed until one word is the other; two that are swapped are one step.
function distance(a, b, i, j, old, row, least) {
    for (i = 1; i < length(a); i++)
        if (substr(a, 1, i - 1) substr(a, i + 1, 1) substr(a, i, 1) substr(a, i + 2) == b) return 1
    for (j = 0; j <= length(b); j++) row[j] = j
    for (i = 1; i <= length(a); i++) {
        old = row[0]
        row[0] = i
        for (j = 1; j <= length(b); j++) {
            least = old + (substr(a, i, 1) != substr(b, j, 1))
            old = row[j]
            if (row[j] + 1 < least) least = row[j] + 1
            if (row[j - 1] + 1 < least) least = row[j - 1] + 1
            row[j] = least
        }
    }
    return row[length(b)]
}
function nearest(word, list, part, n, i, found) {
    n = split(list, part, " ")
    for (i = 1; i <= n; i++) if (length(word) < 30 && distance(word, part[i]) <= (length(word) > 4 ? 2 : 1)) found = part[i]
    return found ? "; did you mean `" found "`?" : ""
}

# Whether the value is one of the option.
function value(option, word, side) {
    if (option == "--after") {
        if (!is_in(word, passes) || word == "") said("`--after` takes one of these, and not `" word "`: " listed(passes) nearest(word, passes))
        return
    }
    split(range[option], side, " ")
    if (word !~ /^[0-9]+$/ || length(word) > 20 || word + 0 < side[1] + 0 || word + 0 > side[2] + 0)
        said("`" option "` takes a number from " grouped(side[1]) " to " grouped(side[2]) ", and not `" word "`")
}

BEGIN {
    commands()
    if (ARGC < 2) said("the command is missing; the commands are " listed(many))
    command = ARGV[1]
    if (!is_in(command, many) || command == "") said("`" command "` is no command; the commands are " listed(many) nearest(command, many))
    for (i = 2; i < ARGC; i++) {
        word = ARGV[i]
        if (word == "") said("word " i " is empty")
        if (!ended && word == "--") { ended = 1; continue }
        if (ended || word !~ /^-./) { name[++count] = word; continue }
        option = word
        sub(/=.*/, "", option)
        if (!is_in(option, options[command])) {
            if (option !~ /^--/) said("`" word "` is no option of `" command "`; write a file of this name after `--`")
            said("`" option "` is no option of `" command "`" \
                (options[command] ? "; it has " listed(options[command]) : ", which has none") nearest(option, options[command]))
        }
        if (there[option]++) said("`" option "` is given twice")
        if (option == "--stats") {
            if (word != option) said("`--stats` takes no value")
            continue
        }
        if (word != option) { value(option, substr(word, length(option) + 2)); continue }
        if (++i == ARGC || ARGV[i] ~ /^-./) said("`" option "` needs a value after it")
        value(option, ARGV[i])
    }
    wanted = operand[command]
    if (count && !wanted) said("`" command "` takes no file, but `" name[1] "` is given")
    if (wanted && !count) said("`" command "` needs " (command == "link" ? "one or more files" : "one " wanted))
    if (command == "link" && count > 64) said(count " files are given, and at most 64 are allowed")
    if (command != "link" && count > 1) said("`" command "` takes one " wanted ", and `" name[2] "` is a second one")
    n = split(needed[command], part, " ")
    for (i = 1; i <= n; i++) if (!(part[i] in there)) said("`" command "` needs `" part[i] "`")
}
