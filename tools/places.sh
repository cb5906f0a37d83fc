#!/bin/sh
# Where the built programs of a checkout stand, and which are fresh.
#
#     places.sh CHECKOUT proved|quick|folder [CRATE]
#
# `proved` and `quick` write the program's path where it is there and fresh, and else end with 1; `folder` writes the
# folder of the quick programs. CRATE is `daig` where it is not said; of a crate without a program, `quick` is that of its
# tests. The same file is read by `daig`, which calls the functions.
#
# A program is fresh where no source of the crates that it is made of is newer, nor crates.txt, and the kit is that of
# which the line beside the program tells. The proved program is made of contracts, definitions and proofs too, and the
# quick one of src/ alone: that is all that its compiler reads.

crate=daig

# The crates that the program is made of.
crates_of_program() {
    awk -F: -v crate="$crate" '
        !/^#/ { below[$1] = $2 }
        function add(name, many, names, i) {
            if (seen[name]++ || !(name in below)) return
            print name
            many = split(below[name], names, " ")
            for (i = 1; i <= many; i++) add(names[i])
        }
        END { add(crate) }' "$checkout/crates.txt"
}

# Whether nothing in these parts of the crates is newer than the program: is_newest PROGRAM PART ..
is_newest() {
    [ -x "$1" ] || return 1
    newest=$1
    shift
    parts=$*
    set -- "$checkout/crates.txt"
    for below in $(crates_of_program); do
        for part in $parts; do
            [ -d "$checkout/crates/$below/$part" ] && set -- "$@" "$checkout/crates/$below/$part"
        done
    done
    newer=$(find "$@" \( -name '*.rt' -o -name '*.antt' -o -name crates.txt \) \
        -newer "$newest" -print -quit 2>&1) && [ -z "$newer" ]
}

# Whether the kit on the PATH is the one that the program was made by, where both can be told: is_same_kit PROGRAM
is_same_kit() {
    [ -r "$1.kit" ] || return 0
    rt=$(command -v rt) || return 0
    rt=$(readlink -f "$rt") || return 0
    id=${rt%/bin/rt}/KIT-ID
    [ -r "$id" ] || return 0
    read -r made <"$1.kit"
    read -r now <"$id"
    [ "$made" = "$now" ]
}

# Sets `folder` to the folder where the quick program is built: out/quick, or one in the user's cache where the checkout
# takes no files.
find_folder() {
    folder=$checkout/out/quick
    for above in "$folder" "$checkout/out" "$checkout"; do
        if [ -d "$above" ]; then
            [ -w "$above" ] && return
            break
        fi
    done
    sum=$(printf '%s' "$checkout" | cksum)
    folder=${XDG_CACHE_HOME:-$HOME/.cache}/daig/${sum%% *}-${sum##* }
}

# Sets `program` to the program of the kind, and tells whether it is fresh.
is_fresh() {
    case $1 in
    proved)
        program=$checkout/crates/$crate/out/$crate
        is_newest "$program" src specs proofs && is_same_kit "$program"
        ;;
    quick)
        program=$checkout/out/quick/$crate
        is_newest "$program" src && is_same_kit "$program" && return
        find_folder
        [ "$folder/$crate" != "$program" ] || return 1
        program=$folder/$crate
        is_newest "$program" src && is_same_kit "$program"
        ;;
    esac
}

if [ "${0##*/}" = places.sh ]; then
    checkout=$1 crate=${3:-daig}
    case $2 in
    folder) find_folder && printf '%s\n' "$folder" ;;
    proved | quick) is_fresh "$2" && printf '%s\n' "$program" ;;
    *) exit 2 ;;
    esac
fi
