#!/bin/sh
# What `daig` answers itself, so that the program may stay as it is specified: `--help`, `--version`, and on standard
# error what the program's usage line, or its silence about a missing file, leaves open. The launcher of a checkout and
# the installed command read this file, and call `answer` before they start the program. They set `top` to the folder
# where `editors` is.

certified="interval octagon listseg"
domains="$certified shapes interval+listseg octagon+listseg interval+shapes octagon+shapes"

tell_help() {
    cat <<'END'
usage: daig serve  [--domain D] [--widening W] [--delay N] [--budget N] [--memo N] FILE
       daig batch  [--domain D] [--widening W] [--delay N] [--budget N] FILE
       daig faults [--domain D] [--widening W] [--delay N] [--budget N] FILE
       daig cert   [--domain D] [--widening W] [--delay N] [--budget N] FILE
       daig verify [--domain D] FILE CERT
       daig gen    --seed N --size N [--domain D]
       daig --help | --version

commands:
  serve   answers the requests on standard input, one JSON object a line, about the program in FILE
  batch   writes the program with its statement numbers, and the verdict of each check
  faults  writes what is known of each fault that can end a run
  cert    writes a certificate of the program: the state at the head of each loop
  verify  tells whether the certificate in CERT holds of the program
  gen     answers a generated script over a generated program, and writes counts

options:
  --domain D    interval (default), octagon, listseg, shapes, interval+listseg, octagon+listseg, interval+shapes,
                octagon+shapes; cert and verify take one of the first three
  --widening W  thresholds (default) widens to numbers of the program first, plain does not
  --delay N     rounds of a loop before the first widening, 0 (default) to 100
  --budget N    rounds of a loop at most, 1 to 10000 (default 100)
  --memo N      remembered results of operations, 1 to 65536 (default 1024); no output depends on it
  --seed N      0 to 2^63 - 1
  --size N      1 to 1000

status:
  0  done                        5   writing failed
  2  wrong words                 6   out of memory
  3  FILE is no program          7   FILE or CERT is missing or cannot be read
  4  reading the input failed    8   2^40 bytes of input were read
                                 9   FILE or CERT is too long
                                 70  a run-time check failed (only where compiled without proofs)

daig-check checks files and folders, for people and builds; daig-lsp is for editors.
END
}

# Writes a line on standard error: complain WORD ..
complain() {
    printf 'daig: %s\n' "$*" >&2
}

# Whether a word is UTF-8: is_utf8 WORD
is_utf8() {
    ! printf '%s\n' "$1" | LC_ALL=C.UTF-8 grep -qavx '.*'
}

# Says what is wrong with a file that is to be read, if anything is: look_at FILE
look_at() {
    if ! is_utf8 "$1"; then
        complain "$(printf '%s' "$1" | LC_ALL=C sed -n 'l 0' | sed 's/\$$//'): its name is not UTF-8"
        exit 2
    elif [ -d "$1" ]; then
        complain "$1: it is a folder; daig-check checks all files below one"
    elif [ ! -e "$1" ]; then
        complain "$1: there is no such file"
    elif [ ! -r "$1" ]; then
        complain "$1: it cannot be read"
    fi
}

# Says what is wrong with the value of an option, if anything is: look_at_value OPTION VALUE
look_at_value() {
    case $1 in
    --domain)
        there=$domains of=
        case $command in cert | verify) there=$certified of=" of certificates" ;; esac
        for known in $there; do
            [ "$2" = "$known" ] && return
        done
        complain "\`$2\` is no domain$of; there are $there"
        ;;
    --widening)
        [ "$2" = thresholds ] || [ "$2" = plain ] || complain "\`$2\` is no widening; there are thresholds and plain"
        ;;
    esac
}

# Says what is wrong with the words, if anything is that can be told here. The program refuses them itself.
look_at_words() {
    case $1 in
    serve | batch | faults | cert | verify | gen) command=$1 && shift ;;
    *) [ $# -gt 0 ] && complain "there is no command \`$1\`; daig --help tells all" && return ;;
    esac
    while [ $# -gt 0 ]; do
        case $1 in
        --domain | --widening | --delay | --budget | --memo | --seed | --size)
            [ $# -gt 1 ] || return
            look_at_value "$1" "$2"
            shift
            ;;
        -*) complain "there is no option \`$1\`; daig --help tells all" ;;
        *) [ "$command" = gen ] || look_at "$1" ;;
        esac
        shift
    done
}

# Writes the version, which stands in one place for the commands and the editor.
tell_version() {
    sed -n 's/^VERSION = "\(.*\)"$/\1/p' "$top/editors/daig_editor/__init__.py"
}

# Answers words that ask about the command itself, and ends then: answer WORD ..
# The program shall see a write that fails, and not be ended by a signal of it.
# `tell_build` is a function of the caller, which writes the commit and what kind of program it is.
answer() {
    if [ "$1" = --version ] || [ "$1" = -V ]; then
        printf 'daig %s (%s)\n' "$(tell_version)" "$(tell_build)"
        exit
    fi
    for word; do
        if [ "$word" = --help ] || [ "$word" = -h ]; then
            tell_help
            exit
        fi
    done
    look_at_words "$@"
    trap '' PIPE XFSZ
}
