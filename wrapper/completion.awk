# Writes what bash completes the words of grinc by, from docs/help.txt: its commands, their options, and what stands behind `--after`.
/^(\.\/)?grinc / {
    command = $2
    order[++count] = command
    options[command] = ""
    for (i = 3; i <= NF; i++) if ($i ~ /^\[?--[a-z]/) { word = $i; gsub(/[][]/, "", word); options[command] = options[command] " " word }
}
/^[^ ]/ { in_passes = $0 == "PASS" }
in_passes && /^    `[a-z]+`: / { word = $1; gsub(/[`:]/, "", word); passes = passes " " word }
END {
    for (i = 1; i <= count; i++) words = words " " order[i]
    print "# Completion of grinc for bash, written by `grinc completion`."
    print "_grinc() {"
    print "    local word=${COMP_WORDS[COMP_CWORD]} before=${COMP_WORDS[COMP_CWORD-1]} at=1 options="
    print "    COMPREPLY=()"
    print "    while [[ ${COMP_WORDS[at]} == --unproved || ${COMP_WORDS[at]} == --json || ${COMP_WORDS[at]} == --lines ]]; do at=$((at + 1)); done"
    print "    if ((COMP_CWORD <= at)); then"
    print "        mapfile -t COMPREPLY < <(compgen -W '" substr(words, 2) "' -- \"$word\")"
    print "        return"
    print "    fi"
    print "    case $before in"
    print "        --after) mapfile -t COMPREPLY < <(compgen -W '" substr(passes, 2) "' -- \"$word\"); return ;;"
    print "        --heap | --stack | --steps | --units | --seed | --size | --explain) return ;;"
    print "        help) mapfile -t COMPREPLY < <(compgen -W '" substr(words, 2) "' -- \"$word\"); return ;;"
    print "    esac"
    print "    case ${COMP_WORDS[at]} in"
    for (i = 1; i <= count; i++) if (options[order[i]] != "" && order[i] !~ /^-/) print "        " order[i] ") options='" substr(options[order[i]], 2) "' ;;"
    print "    esac"
    print "    if [[ $word == -* ]]; then"
    print "        mapfile -t COMPREPLY < <(compgen -W \"$options\" -- \"$word\")"
    print "    else"
    print "        mapfile -t COMPREPLY < <(compgen -f -- \"$word\")"
    print "    fi"
    print "}"
    print "complete -o filenames -F _grinc grinc"
}
