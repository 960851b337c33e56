#!/usr/bin/env bash
# Hard knocks on the programs over cycles, through their wrappers: inputs that cannot be read or end within a frame, outputs that cannot be written, years
# that are none, more cycles than a book holds, and a stack that cannot hold them. What each must print follows from paper 02 and docs/DECISIONS.md.
# Ends with status 1 where something differs.
set -uo pipefail
cd "$(dirname "${BASH_SOURCE[0]}")/.."
. tests/knock.sh
built pcd_book pcd_orbit pcd_book_check

python3 - "$work" <<'P' || exit 1
import os, sys
folder, sys.argv[1:] = sys.argv[1], []
sys.path.insert(0, "tests")
from cycle_samples import book, frames_of
from program_samples import body
days = [body((day, hour, 0, 0, 0)) for hour in (0, 1) for day in range(1, 129)]
days = [days[i // 2 + i % 2 * 128] for i in range(256)]
for name, data in (
    ("none", b""), ("one", days[0]), ("cut", days[0] + b"\0"), ("late", days[0] + days[2][:-1]), ("twice", days[0] * 2), ("middle", b"".join(frames_of(days[0])[1:] + [days[1]])),
    ("many", b"".join(days)), ("most", b"".join(days[:255])), ("small", b"".join(days[:33])),
):
    open(os.path.join(folder, name), "wb").write(data)
for name, bodies in ("none", []), ("one", days[:1]), ("second", days[1:2]), ("most", days[:255]), ("small", days[:32]):
    open(os.path.join(folder, name + ".book"), "wb").write(book(2003, bodies))
P
book=bin/pcd-book orbit=bin/pcd-orbit

# written NAME STATUS ERR BOOK COMMAND: a knock whose standard output must be this file's bytes.
written() {
    knock "$1" "$2" '' "$3" "$5 >$work/written"
    cmp -s "$work/written" "$work/$4" || { echo "  $1: writes another book"; failed=1; }
}

echo 'inputs that cannot be read'
for program in "$book" "$orbit"; do
    knock "$program: a closed standard input" 1 '' 'standard input is closed' "$program --year 2003 <&-"
    knock "$program: a year that is none" 1 '' '2100: not a year' "$program --year 2100 <$work/one"
    knock "$program: a word for a year" 1 '' 'y2k: not a year' "$program --year y2k <$work/one"
    knock "$program: no year" 2 '' 'usage' "$program <$work/one"
    knock "$program: another option" 2 '' 'usage' "$program --day 1 <$work/one"
done
knock 'the year behind an equals sign' 0 '' none "bash -c '$book --year=2003 <$work/one >$work/equals; cmp $work/equals $work/one.book'"
knock 'book: a directory' 1 '' 'standard input: Is a directory' "$book --year 2003 <$work"
knock 'orbit: a directory' 1 "$(head -n 1 crates/pcd_orbit/stdout)" 'standard input: Is a directory' "$orbit --year 2003 <$work"

echo 'outputs that cannot be written'
for out in '>/dev/full' '>&-'; do
    knock "book $out" 1 '' 'standard output' "$book --year 2003 <$work/most $out"
    knock "orbit $out" 1 '' 'standard output' "$orbit --year 2003 <$work/one $out"
done
knock 'book: a closed pipe' 0 '' 'standard output: Broken pipe' "bash -c '{ sleep 1; $book --year 2003 <$work/one; } | true'"
knock 'orbit: a closed pipe' 0 '' 'standard output: Broken pipe' "bash -c '{ sleep 1; $orbit --year 2003 <$work/one; } | true'"

echo 'books'
written 'no frames' 0 none none.book "$book --year 2003 <$work/none"
written 'one cycle' 0 none one.book "$book --year 2003 <$work/one"
mkfifo "$work/fifo"
written 'a FIFO' 0 none one.book "bash -c 'cat $work/one >$work/fifo & $book --year 2003 <$work/fifo'"
written 'a rest' 1 'it ends within a frame' one.book "$book --year 2003 <$work/cut"
written 'a rest behind frames that are held' 1 'frames 4 and 2 after it: in no cycle' one.book "$book --year 2003 <$work/late"
written 'a cycle twice' 1 'frames 4 and 3 after it: a cycle whose instant does not rise' one.book "$book --year 2003 <$work/twice"
written 'from the middle on' 0 'frame 2: in no cycle' second.book "$book --year 2003 <$work/middle"
written '255 cycles' 0 none most.book "$book --year 2003 <$work/most"
written 'a 256th cycle' 1 'a cycle more than the 255 that there is room for' most.book "$book --year 2003 <$work/many"
written 'a stack that cannot be raised' 1 'a cycle more than the 32 that there is room for' small.book \
    "bash -c 'ulimit -H -s 8192; $book --year 2003 <$work/small'"
knock 'the book is accepted' 0 "$work/most.book: yes" none "bin/pcd-book-check $work/most.book"

echo 'records'
knock 'no frames' 0 "$(head -n 1 crates/pcd_orbit/stdout)" none "$orbit --year 2003 <$work/none"
knock 'a rest' 1 "$($orbit --year 2003 <$work/one)" 'it ends within a frame' "$orbit --year 2003 <$work/cut"
knock 'the help' 0 "$($book --help)" none "$book --help"

knocked 'cycle knocks'
