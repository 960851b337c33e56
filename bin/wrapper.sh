# What the wrappers in this folder share; each sets `usage` and sources this file. A program has no exit status of its own: its first argument
# names a descriptor, and the last line there is the status that the wrapper ends with.
set -uo pipefail
root=$(cd "$(dirname "${BASH_SOURCE[0]}")/.." && pwd)
. "$root/bin/built.sh"
name=$(basename "$0")

# wants LEAST MOST WORD..: the help where it is asked for; status 2 and the usage where there are fewer or more words.
wants() {
    local least=$1 most=$2
    shift 2
    if [ $# -gt 0 ] && { [ "$1" = --help ] || [ "$1" = -h ]; }; then
        printf '%s\n' "$usage"
        exit 0
    fi
    if [ $# -lt "$least" ] || [ $# -gt "$most" ]; then
        refuse_usage
    fi
}

refuse_usage() {
    printf '%s\n' "$usage" | sed -n 1p >&2
    exit 2
}

# wants_year WORD..: `--year Y` or `--year=Y` and nothing else; the year is left in `year`.
wants_year() {
    wants 1 2 "$@"
    year=${1#--year=}
    if [ "$1" = --year ] && [ $# -eq 2 ]; then
        year=$2
    elif [ "$1" = "$year" ] || [ $# -ne 1 ]; then
        refuse_usage
    fi
}

# stack KIB: the soft limit of the stack, raised where it is lower. There is no heap: the largest books are held on the stack.
stack() {
    local limit
    limit=$(ulimit -S -s)
    [ "$limit" = unlimited ] || [ "$limit" -ge "$1" ] || ulimit -S -s "$1" 2>/dev/null ||
        echo "$name: the limit of the stack is $limit KiB and cannot be raised to $1: large books will not fit" >&2
}

# standard_input: where there is none, a line says so.
standard_input() {
    { : 5<&0; } 2>/dev/null && return
    echo "$name: standard input is closed" >&2
    exit 1
}

# run CRATE WORD..: the program, built on first use. A standard output that is closed stays one that cannot be written, and a closed pipe is an
# error of writing, which the program says.
run() {
    local program=$root/crates/$1/out/$1 said status
    built "$1"
    shift
    { : 5<&0; } 2>/dev/null || exec 0</dev/null
    { : 5>&1; } 2>/dev/null || exec 1</dev/null
    trap '' PIPE
    exec 4>&1
    said=$("$program" 3 "$@" 3>&1 >&4 4>&-)
    status=$?
    if [ "$status" -ne 0 ]; then
        echo "$name: the program ended with status $status" >&2
        exit 1
    fi
    exit "${said:-1}"
}
