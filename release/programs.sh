# What the scripts know of the proved programs: which there are, what they are built of, and where
# their builds lie. A script that reads this file has set `top` to the folder of the repository.

# the programs that have a release; one whose crate is not there is left out
programs() {
    for program in grain_run grain_where; do
        if [ -d "$top/crates/$program/src" ]; then echo "$program"; fi
    done
}

# the lines of crates.txt of the crates that programs stand on, the lowest first and the programs
# among them, without comments and with one space between words: lines_of PROGRAM..
lines_of() {
    awk -v programs="$*" '
        function visit(crate,    words, count, at) {
            if (!(crate in line) || crate in seen) return
            seen[crate] = 1
            count = split(line[crate], words, " ")
            for (at = 2; at <= count; at++) visit(words[at])
            print line[crate]
        }
        { sub(/#.*/, ""); sub(/[ \t]*:/, ":"); $1 = $1 }
        NF { crate = $1; sub(/:.*/, "", crate); line[crate] = $0 }
        END {
            count = split(programs, named, " ")
            for (at = 1; at <= count; at++) visit(named[at])
        }' "$top/crates.txt"
}

# the names of these crates, in the same order: crates_of PROGRAM..
crates_of() {
    lines_of "$@" | sed 's/[ :].*//'
}

# the hash of what a program is built of, as release/SOURCES says it: hash_of PROGRAM
hash_of() {
    {
        lines_of "$1"
        cd "$top" && find $(crates_of "$1" | sed 's|.*|crates/&/src|') -type f -exec sha256sum {} + |
            LC_ALL=C sort -k 2
    } | sha256sum | cut -d ' ' -f 1
}

# the processor and the system, as the name of a release ends
machine() {
    echo "$(uname -m)-$(uname -s | tr '[:upper:]' '[:lower:]')"
}

# where the program lies that was built here, and where its release does: built_of PROGRAM
built_of() {
    echo "$top/crates/$1/out/$1"
}

release_of() {
    echo "$top/release/$1-$(machine)"
}

# what release/SOURCES says: the kit, and the hash of what a program was built of
released_kit() {
    sed -n 's/^kit //p' "$top/release/SOURCES" 2>/dev/null
}

released_hash() {
    sed -n "s/^sources $1 //p" "$top/release/SOURCES" 2>/dev/null
}

# the kit on this machine, or nothing
own_kit() {
    if command -v rt >/dev/null 2>&1; then rt version; fi
}

# the files that are newer than the program that was built here, of all that it was proved of:
# newer_sources PROGRAM
newer_sources() {
    (
        cd "$top" && find crates.txt HANDLES \
            $(crates_of "$1" | sed 's|.*|crates/&/src crates/&/specs crates/&/proofs|') \
            -type f -newer "crates/$1/out/$1" 2>/dev/null
    )
}

# whether a program was built here of the sources as they are: is_current PROGRAM
is_current() {
    [ -x "$(built_of "$1")" ] && [ -z "$(newer_sources "$1")" ]
}

# whether a program starts on this machine; without words it soon ends: starts FILE
starts() {
    "$1" </dev/null >/dev/null 2>&1
    [ $? -lt 126 ]
}

# why the release of a program is not run, or nothing if it can be: why_no_release PROGRAM
why_no_release() {
    release=$(release_of "$1")
    if ! ls "$top/release/$1"-* >/dev/null 2>&1; then
        echo "there is no release of $1"
    elif [ ! -f "$release" ]; then
        echo "there is no release of $1 for this machine ($(machine))"
    elif [ "$(hash_of "$1")" != "$(released_hash "$1")" ]; then
        echo "the sources of $1 are not those of its release"
    elif ! starts "$release"; then
        echo "the release of $1 does not start on this machine"
    fi
}

# How the program that was built here compares with its release, in a word: no-release, other-sources,
# same, other-kit or different. comparison PROGRAM
comparison() {
    kit=$(own_kit)
    if [ ! -f "$(release_of "$1")" ]; then
        echo no-release
    elif [ "$(hash_of "$1")" != "$(released_hash "$1")" ]; then
        echo other-sources
    elif cmp -s "$(built_of "$1")" "$(release_of "$1")"; then
        echo same
    elif [ -n "$kit" ] && [ "$kit" != "$(released_kit)" ]; then
        echo other-kit
    else
        echo different
    fi
}

# the program that can be run at once, which was built here or is the release, or nothing if there
# is none: ready PROGRAM
ready() {
    if is_current "$1"; then
        built_of "$1"
    elif [ -z "$(why_no_release "$1")" ]; then
        release_of "$1"
    fi
}
