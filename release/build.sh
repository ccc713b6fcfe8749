# How the programs are proved and built, and how far that is. A script that reads this file has read
# programs.sh before it, and has a function `say` that writes a line to standard error.

# what is said before a build from nothing
FIRST_BUILD_TIME='this takes 35 to 70 minutes on four processors'

log=$top/crates/grain_run/out/build.log
# its time is that of the build's beginning
beginning=$top/crates/grain_run/out/build.begun

# Proves and builds all programs, and says how far it is. It ends with 1 where one could not be built.
build_programs() {
    if ! command -v rt >/dev/null 2>&1; then
        say "it cannot be built here: there is no command rt, the toolchain's"
        return 1
    fi
    if ! mkdir -p "${log%/*}" 2>/dev/null || ! touch "$log" "$beginning" 2>/dev/null; then
        say "it cannot be built here: no file can be written to ${log%/*}"
        return 1
    fi
    : >"$log"
    seconds_before=$(date +%s)
    building=
    copy=
    trap stop_building INT TERM HUP
    status=0
    if keeps_work; then
        build_over_kept_work || status=1
    else
        build_from_nothing || status=1
    fi
    trap - INT TERM HUP
    if [ -n "$copy" ]; then rm -rf "$copy"; fi
    if [ "$status" -eq 0 ]; then
        say "proved and built after $(time_taken)"
    else
        say "it could not be built; the log is $log"
    fi
    return "$status"
}

stop_building() {
    if [ -n "$building" ]; then kill "$building" 2>/dev/null; fi
    wait
    # what rt has started ends soon after it
    sleep 1
    if [ -n "$copy" ]; then rm -rf "$copy"; fi
    say "the build was stopped"
    exit 130
}

# whether a crate has kept work of earlier checks, which saves proving it anew
keeps_work() {
    for crate in $(crates_of $(programs)); do
        if [ -n "$(ls -A "$top/crates/$crate/out/incremental" 2>/dev/null)" ]; then return 0; fi
    done
    return 1
}

# The first build: rt ci proves crates side by side, where rt run proves one after the other. It
# works on a copy, outside the repository, that has nothing but what the programs stand on.
build_from_nothing() {
    copy=$(mktemp -d) && copy_sources || return 1
    say "proving and building from nothing, on a copy in $copy: $FIRST_BUILD_TIME"
    (cd "$copy" && exec rt ci) </dev/null >"$log" 2>&1 &
    building=$!
    say_how_far
    if wait "$building"; then result=0; else result=1; fi
    for program in $(programs); do
        if [ "$result" -eq 0 ]; then
            take "$copy/crates/$program/out/$program" "$program" || result=1
        fi
    done
    return "$result"
}

# the crates without what earlier checks left, and without the edits that must fail
copy_sources() {
    lines_of $(programs) >"$copy/crates.txt" && cp "$top/HANDLES" "$copy/" || return 1
    for crate in $(crates_of $(programs)); do
        mkdir -p "$copy/crates/$crate" || return 1
        for part in "$top/crates/$crate"/*; do
            case ${part##*/} in
            out | must-fail) ;;
            *) cp -R "$part" "$copy/crates/$crate/" || return 1 ;;
            esac
        done
    done
}

# every later build: what has not changed is not proved again
build_over_kept_work() {
    say "proving and building over the work that is kept in crates/*/out"
    for program in $(programs); do
        rm -f "$(built_of "$program")"
        (cd "$top/crates/$program" && exec rt run) </dev/null >>"$log" 2>&1 &
        building=$!
        say_how_far
        # this status is that of the program, which rt has run without words
        wait "$building"
        # the last crate in the log is the program
        sed -n 's/^logic=\([a-z-]*\).*/\1/p' "$log" | tail -n 1 | grep -qx proved || return 1
        take "$(built_of "$program")" "$program" || return 1
    done
}

# Puts a program where it is looked for: take FILE PROGRAM. It gets the time of the build's
# beginning, so that it is out of date if a source was changed meanwhile.
take() {
    built=$(built_of "$2")
    [ -f "$1" ] && mkdir -p "${built%/*}" && cp "$1" "$built.new" && chmod 755 "$built.new" &&
        touch -r "$beginning" "$built.new" && mv -f "$built.new" "$built"
}

# says how much is proved until the build has ended: when it changes, and at least every five minutes
say_how_far() {
    all=$(crates_of $(programs))
    said=
    said_at=$(date +%s)
    while kill -0 "$building" 2>/dev/null; do
        proved=$(proved_crates)
        if [ "$proved" != "$said" ] || [ $(($(date +%s) - said_at)) -ge 300 ]; then
            say "$(count $proved) of $(count $all) crates and $(functions_in $proved) of" \
                "$(functions_in $all) functions are proved after $(time_taken)"
            said=$proved
            said_at=$(date +%s)
        fi
        sleep 1
    done
}

# the crates that are proved, by the log: rt ci names each as it ends, and rt run each as it begins
proved_crates() {
    sed -n -e 's/^rt: \([a-z0-9_]*\) proved$/\1/p' -e 's/^rt: \([a-z0-9_]*\) is kept: .*/\1/p' "$log"
    begun=$(sed -n 's/^rt: chose .* for \([a-z0-9_]*\)$/\1/p' "$log" | tail -n 1)
    if [ -n "$begun" ]; then crates_of $(programs) | sed "/^$begun\$/,\$d"; fi
}

count() {
    echo $#
}

# how many functions the texts of crates have: functions_in CRATE..
functions_in() {
    for crate; do
        find "$top/crates/$crate/src" -name '*.rt' -exec cat {} +
    done | grep -cE '^ *(pub(\([a-z]+\))? )?(const )?fn '
}

time_taken() {
    seconds=$(($(date +%s) - seconds_before))
    if [ "$seconds" -lt 120 ]; then echo "$seconds seconds"; else echo "$((seconds / 60)) minutes"; fi
}

# Says whether the program that was built has the bytes of its release: compare PROGRAM. It ends with
# 1 where it should have and has not.
compare() {
    built=$(built_of "$1")
    case $(comparison "$1") in
    same) say "$built has the same bytes as its release" ;;
    no-release) say "$built has no release to be compared with" ;;
    other-sources) say "$built is not compared with its release, which has other sources" ;;
    other-kit) say "$built is not compared with its release, which another kit has built" ;;
    different)
        say "$built DIFFERS from $(release_of "$1"), and both were built of the same sources"
        return 1
        ;;
    esac
}
