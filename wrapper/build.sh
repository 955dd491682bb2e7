# shellcheck shell=sh disable=SC2034,SC2154,SC2016,SC1091
# Proves and builds the program, or builds it as it stands, for ./grinc, which reads this file where nothing is kept or what is
# kept is older than its sources.

# How many crates the program stands on, itself among them.
crates() {
    awk '{ sub(":", "", $1); own[$1] = 1; for (i = 2; i <= NF; i++) uses[$1] = uses[$1] " " $i }
        function visit(c, list, n, i) {
            if (c in seen || !(c in own)) return
            seen[c] = 1
            count++
            n = split(uses[c], list, " ")
            for (i = 1; i <= n; i++) visit(list[i])
        }
        END { visit("grinc"); print count + 0 }' <"$top/crates.txt"
}

# How many crates are proved at once: one a processor, where there are 3 GiB of memory for each.
lanes() {
    awk -v most="$(nproc 2>/dev/null || echo 1)" '
        $1 == "MemAvailable:" { room = int($2 / 3145728) }
        END { if (room < 1) room = 1; print most + 0 < room ? most : room }' </proc/meminfo
}

minutes() {
    printf '%s min' $((($(date +%s) - start) / 60))
}

# Does an rt command in the folder of the program, with what it says in the log.
rt_there() {
    # shellcheck disable=SC2016
    attend sh -c 'cd "$1/crates/grinc" && shift && exec rt "$@"' sh "$top" "$@" >"$top/.grinc/log" 2>&1
}

# Says how many crates are done, whenever there are more of them, for as long as this script runs.
tell_progress() {
    trap - HUP INT QUIT TERM
    told=0
    while sleep 2 && kill -0 $$ 2>/dev/null; do
        now=$(grep -c '^== [a-z0-9_]*$' "$top/.grinc/log")
        [ "$now" -le "$told" ] || say "$now of $1 crates done after $(minutes)"
        told=$now
    done
}

# Proves the program and the crates that it stands on, each once those below it are proved, so many at once.
prove_all() {
    : >"$top/.grinc/log"
    tell_progress "$(crates)" 3<&- 9>&- &
    teller=$!
    rt_there all check --jobs "$1"
    proved=$?
    kill $teller 2>/dev/null
    return $proved
}

prove_and_build() {
    say "proving and building the program; this can take an hour the first time"
    say "with --unproved as the first word it is built within minutes, without proof"
    # A check that was killed, most likely for memory, is done once more, with no other beside it.
    if ! prove_all "$(lanes)" && ! { grep -q 'failed (-9)' "$top/.grinc/log" && prove_all 1; } ||
        ! rt_there run -- run data/hi.core; then
        say "the program was not built; see $top/.grinc/log"
        return 1
    fi
    cp "$top/crates/grinc/out/grinc" "$kept.new" && mv "$kept.new" "$kept" || return 1
    say "proved and built in $(minutes)"
}

build_unproved() {
    say "unproved: building the program without proving it, once; this takes some minutes"
    attend "$top/wrapper/native" "$kept" >"$top/.grinc/log" 2>&1 ||
        { say "unproved: the program was not built; see $top/.grinc/log"; return 1; }
    say "unproved: built in $(minutes), and kept"
}

# Builds under a lock, so that of two first runs at once the second waits for the first.
build_once() {
    [ -d "$top/crates" ] || { say "there is no program in $top/.grinc; install it again"; return 1; }
    mkdir -p "$top/.grinc" 2>/dev/null && { : >>"$top/.grinc/lock"; } 2>/dev/null ||
        { say "$top/.grinc can't be written, so the program can't be built"; return 1; }
    exec 9>"$top/.grinc/lock"
    flock 9 || return 1
    ! is_kept || return 0
    command -v rt >/dev/null || { say "rt isn't on the path, so the program can't be built"; return 1; }
    start=$(date +%s)
    if [ -n "$unproved" ]; then build_unproved; else prove_and_build; fi || return 1
    rt version 2>/dev/null | head -n 1 >"$kept.version"
}
