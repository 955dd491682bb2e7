# The three procedures of a program that get the most alternatives once each `eval` is spelled out, by what `points` writes and then
# the listing after `translate`: an `eval` of a variable gets one for each tag that its cells may have.

# The tags of the nodes in a set.
function tags(set, found, count) {
    while (match(set, /\([^ ()]+/)) {
        found[substr(set, RSTART + 1, RLENGTH - 1)] = 1
        set = substr(set, RSTART + RLENGTH)
    }
}

# How many tags the cells may have that a variable stands for.
function kinds(name, found, part, n, i, count) {
    if (name in holds) tags(holds[name], found)
    n = split(stands[name], part, " ")
    for (i = 1; i <= n; i++) if (part[i] ~ /^&/) tags(holds[substr(part[i], 2)], found)
    for (i in found) count++
    return count + 0
}

NR == FNR && /^global / { name = $2; sub(/^global [^ ]+ = ?/, ""); holds[name] = $0; next }
NR == FNR && /^  v/ {
    name = procedure "." $1
    sub(/:$/, "", name)
    if ($2 == "=") { sub(/^  [^ ]+ = ?/, ""); holds[name] = $0 }
    else { sub(/^  [^ ]+ ?/, ""); stands[name] = $0 }
    next
}
NR == FNR { procedure = $1; sub(/:$/, "", procedure); next }
/^[^ ].* =$/ && !/^global / { procedure = $1; order[procedure] = ++procedures; next }
/(^| )eval v[0-9]+$/ {
    name = procedure "." $NF
    if (!(name in known)) known[name] = kinds(name)
    alternatives[procedure] += known[name]
}
END {
    for (i = 1; i <= 3; i++) {
        most = ""
        for (name in alternatives) if (most == "" || alternatives[name] > alternatives[most] || alternatives[name] == alternatives[most] && order[name] < order[most]) most = name
        if (most == "") break
        list = list (i > 1 ? ", " : "") "`" most "` (" alternatives[most] ")"
        delete alternatives[most]
    }
    if (list) print list
}
