#!/usr/bin/env bash
# Hard knocks on the programs over books, through their wrappers: files that are not there, directories, a FIFO, a closed standard input, outputs
# that cannot be written, the largest books, and a stack that cannot hold them. What each must print follows from paper 02 and docs/DECISIONS.md.
# Ends with status 1 where something differs.
set -uo pipefail
cd "$(dirname "${BASH_SOURCE[0]}")/.."
. tests/knock.sh
built pcd_book_check pcd_find pcd_book_compare

python3 - "$work" <<'P' || exit 1
import os, sys
folder, sys.argv[1:] = sys.argv[1], []
sys.path.insert(0, "tests")
from program_samples import GOOD, book, changed
days = [(day, 0, 0, 0, 0) for day in range(1, 256)]
for name, data in ("one", GOOD), ("large", book(2003, days)), ("longer", book(2003, days) + b"\0" * 99999), ("small", book(2003, days[:32])):
    open(os.path.join(folder, name), "wb").write(data)
open(os.path.join(folder, "changed"), "wb").write(changed(book(2003, days), 4 + 12 * 255 + 65536 * 255 - 1, 1))
P
check=bin/pcd-book-check find=bin/pcd-find compare=bin/pcd-book-compare
long='no: refusal 16: the length is not that of so many cycles, or there are more than 255'

echo 'inputs that cannot be read'
knock 'a file that is not there' 1 '' 'absent: No such file' "$check $work/absent"
knock 'a directory' 1 '' 'Is a directory' "$check $work"
knock 'a closed standard input' 1 '' 'standard input' "$check <&-"
knock 'a book to look up in that is not there' 1 '' 'No such file' "$find $work/absent 1"
knock 'a book to look up in that is a directory' 1 '' 'Is a directory' "$find $work 1"
knock 'an instant that is no number' 1 '' 'not an instant' "$find $work/one 1e9"
knock 'a book to compare that is not there' 2 '' 'No such file' "$compare $work/one $work/absent"
knock 'a book to compare that is a directory' 2 '' 'Is a directory' "$compare $work $work/one"
knock 'too few words' 2 '' 'usage' "$compare $work/one"

echo 'outputs that cannot be written'
for out in '>/dev/full' '>&-'; do
    knock "check $out" 1 '' 'standard output' "$check $work/one $out"
    knock "find $out" 1 '' 'standard output' "$find $work/one 1 $out"
    knock "compare $out" 2 '' 'standard output' "$compare $work/large $work/small $out"
done
knock 'a closed pipe' 0 '' 'standard output: Broken pipe' "bash -c '{ sleep 1; $check $work/one; } | true'"

echo 'answers'
mkfifo "$work/fifo"
knock 'a FIFO' 0 "$work/fifo: yes" none "bash -c 'cat $work/small >$work/fifo & $check $work/fifo'"
knock 'standard input' 0 '/dev/stdin: yes' none "$check <$work/large"
knock 'a pipe' 0 '/dev/stdin: yes' none "bash -c 'cat $work/large | $check'"
knock '255 cycles' 0 "$work/large: yes" none "$check $work/large"
knock 'bytes behind 255 cycles' 1 "$work/longer: $long" none "$check $work/longer"
knock 'the last of 255 cycles' 0 'place 254 instant 352512000000 looks 8' none "$find $work/large 352512000001"
knock 'equal books of 255 cycles' 0 '' none "$compare $work/large $work/large"
knock 'the last byte of 255 cycles' 1 'instant 352512000000: in both, the first different byte is 65535' none "$compare $work/large $work/changed"
knock 'a stack that cannot be raised, a small book' 0 "$work/small: yes" 'cannot be raised' "bash -c 'ulimit -H -s 8192; $check $work/small'"
knock 'a stack that cannot be raised, a large book' 1 '' 'cannot be raised' "bash -c 'ulimit -H -s 8192; $check $work/large'"
knock 'the help' 0 "$($check --help)" none "$check --help"

knocked 'book knocks'
