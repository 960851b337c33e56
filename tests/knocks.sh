#!/usr/bin/env bash
# Hard knocks on the program, directly and through bin/pcd-tally: inputs that cannot be read, outputs that cannot be written, an empty
# input, one that comes a byte at a time, one of 5 GiB. What each must print follows from paper 01 and from docs/DECISIONS.md: a tally
# covers all of the input or is not printed; where there is none, one line on standard error says why and the wrapper ends with status 1.
# The program itself has no exit status, so of its own only a crash or a hang counts. Ends with status 1 where something differs.
set -uo pipefail
cd "$(dirname "${BASH_SOURCE[0]}")/.."
program=crates/pcd_tally/out/pcd_tally
wrapper=bin/pcd-tally
memory=65536    # KiB of address space that the program and the wrapper may have on the longest input
root=$PWD
. bin/built.sh
built pcd_tally
work=$(mktemp -d)
trap 'rm -rf "$work"' EXIT
failed=0

# tally BYTES FILL STRAY VOTED SPLIT WEAK1 WEAK2 WEAK3 OPEN HUNTED GOOD DAMAGED UNSYNCED PLACED MAJORS BROKEN LOOSE BUILDING: the listing of these counts.
tally() {
    echo 'PCD TALLY 2'
    local name
    for name in bytes fill stray voted split weak1 weak2 weak3 open hunted good damaged unsynced placed majors broken loose building; do
        echo "$name $1"
        shift
    done
}

says() { printf '    %s\n' "$1"; failed=1; }

# knock NAME STATUS OUT ERR COMMAND: runs the command. STATUS is the number wanted, or `any` for any but a signal's or a timeout's; OUT
# is a file with the standard output wanted; ERR is what the one line on standard error must contain, or `none` where there must be none.
knock() {
    local name=$1 status=$2 out=$3 err=$4 got lines
    (eval "$5") >"$work/out" 2>"$work/err"
    got=$?
    lines=$(wc -l <"$work/err")
    echo "  $name"
    if [ "$got" -eq 124 ]; then
        says 'does not end'
    elif [ "$status" = any ]; then
        [ "$got" -lt 124 ] || says "ends with status $got"
    else
        [ "$got" -eq "$status" ] || says "ends with status $got, not $status"
    fi
    cmp -s "$out" "$work/out" || says "writes to standard output: $(head -c 300 "$work/out" | tr '\n' ';')"
    if [ "$err" = none ]; then
        [ ! -s "$work/err" ] || says "writes to standard error: $(head -c 300 "$work/err")"
    elif [ "$got" -ne 124 ]; then
        [ "$lines" -eq 1 ] && grep -q -- "$err" "$work/err" || says "writes to standard error: $(head -c 300 "$work/err")"
    fi
}

# both NAME STATUS OUT ERR ARGUMENTS: the program, then the wrapper, each with these redirections.
both() {
    knock "$1: the program" any "$3" "$4" "timeout 20 $program $5"
    knock "$1: the wrapper" "$2" "$3" "$4" "timeout 20 $wrapper $5"
}

# Fails at the second read: the pipe does not block, and there is nothing in it yet.
fails_later() {
    { printf '2\0262'; sleep 2; } | perl -MFcntl -e 'sleep 1; fcntl(STDIN, F_SETFL, O_NONBLOCK) or die; exec @ARGV' timeout 20 "$@"
}

# Feeds the bytes of a file to a FIFO one at a time.
single_bytes() {
    local i size
    size=$(stat -c %s "$1")
    for ((i = 0; i < size; i++)); do
        dd if="$1" bs=1 skip="$i" count=1 status=none
        sleep 0.01
    done >"$2"
}

from_fifo() {
    rm -f "$work/fifo"
    mkfifo "$work/fifo"
    single_bytes "$work/example" "$work/fifo" &
    timeout 20 "$1" <"$work/fifo"
}

: >"$work/nothing"
tally 0 0 0 0 0 0 0 0 0 0 0 0 0 0 0 0 0 0 >"$work/zeros"
# 01's bench example, 32 16 FA FA FA 16 00 01 02.
printf '\062\026\372\372\372\026\000\001\002' >"$work/example"
tally 9 1 0 1 1 0 0 0 0 2 0 0 0 0 0 0 0 0 >"$work/example_tally"
# 01's example cut within a group.
head -c 3 "$work/example" >"$work/front"
tail -c +4 "$work/example" >"$work/back"
# Zero bytes are neither SYNC nor FILL, so strays.
bytes=$((5 * 1024 * 1024 * 1024))
truncate -s "$bytes" "$work/sparse"
tally "$bytes" 0 "$bytes" 0 0 0 0 0 0 0 0 0 0 0 0 0 0 0 >"$work/strays"

echo 'no tally: the input cannot be read'
both 'a directory' 1 "$work/nothing" 'standard input' "<$work"
both 'a closed standard input' 1 "$work/nothing" 'standard input' '<&-'
knock 'a read that fails after some bytes: the program' any "$work/nothing" 'standard input' "fails_later $program"
knock 'a read that fails after some bytes: the wrapper' 1 "$work/nothing" 'standard input' "fails_later $wrapper"
knock 'a file that is not there' 1 "$work/nothing" 'No such file' "timeout 20 $wrapper $work/absent"
knock 'a file that is not there, after one that is' 1 "$work/nothing" 'No such file' "timeout 20 $wrapper $work/example $work/absent"
knock 'a directory by name' 1 "$work/nothing" 'directory' "timeout 20 $wrapper $work"

echo 'no tally: the output cannot be written'
both 'a closed standard output' 1 "$work/nothing" 'writ' "<$work/example >&-"
both 'a full standard output' 1 "$work/nothing" 'writ' "<$work/example >/dev/full"
both 'input and output closed' 1 "$work/nothing" 'standard input' '<&- >&-'

echo 'a tally'
both 'an empty file' 0 "$work/zeros" none "<$work/nothing"
both 'the null device' 0 "$work/zeros" none '</dev/null'
both "01's example" 0 "$work/example_tally" none "<$work/example"
knock 'a FIFO fed in single bytes: the program' any "$work/example_tally" none "from_fifo $program"
knock 'a FIFO fed in single bytes: the wrapper' 0 "$work/example_tally" none "from_fifo $wrapper"
knock 'two files, cut within a group' 0 "$work/example_tally" none "timeout 20 $wrapper $work/front $work/back"
knock 'a file by name, with standard input closed' 0 "$work/example_tally" none "timeout 20 $wrapper $work/example <&-"
measure=
[ ! -x /usr/bin/time ] || measure="/usr/bin/time -o $work/resident -f %M"
knock "5 GiB of zero bytes in $memory KiB of address space: the wrapper" 0 "$work/strays" none \
    "ulimit -v $memory; $measure timeout 900 $wrapper <$work/sparse"
[ ! -s "$work/resident" ] || echo "    maximum resident size: $(tail -n 1 "$work/resident") KiB"

[ "$failed" -eq 0 ] && echo 'knocks: all as stated' || echo 'knocks: something differs'
exit "$failed"
