#!/usr/bin/env bash
# From a scratched reel to a book, by the programs of bin/ alone: the frames, their items, the records, the book; the book is checked, compared with
# the truth that the reel was made from, and each cycle looked up in it. tests/scratched_reel.py makes the reel and says what must be found.
# Ends with status 1 where something differs.
set -uo pipefail
cd "$(dirname "${BASH_SOURCE[0]}")/.."
work=$(mktemp -d)
trap 'rm -rf "$work"' EXIT
failed=0

# said NAME WANTED GOT
said() {
    if [ "$2" = "$3" ]; then
        echo "  $1: ok"
    else
        printf '  %s: wanted\n%s\nbut got\n%s\n' "$1" "$2" "$3" | head -40
        failed=1
    fi
}

# same NAME FILE FILE
same() {
    said "$1" '' "$(cmp "$2" "$3" 2>&1)"
}

python3 tests/scratched_reel.py "$work" || exit 1

said 'the tally alone pays nothing' 'majors 0' "$(bin/pcd-tally "$work/reel" | grep '^majors ')"
bin/pcd-frames "$work/reel" >"$work/found" 2>"$work/tally"
said 'frames: status' 0 $?
same 'frames' "$work/frames" "$work/found"
said 'frames: the tally' 'majors 22' "$(grep '^majors ' "$work/tally")"

bin/pcd-items --year 2003 <"$work/found" >"$work/items.csv" 2>"$work/words"
said 'items: status' 0 $?
bin/pcd-orbit --year 2003 <"$work/found" >"$work/orbit.csv" 2>"$work/words"
python3 tests/read_csv.py "$work/frames" "$work/kept" "$work/items.csv" "$work/orbit.csv"
said 'items and records, read as CSV' 0 $?

bin/pcd-book --year 2003 <"$work/found" >"$work/book" 2>"$work/words"
same 'book' "$work/kept" "$work/book"
left=$(sed -n 's/.*frames [0-9]* and \([0-9]*\) after it: in no cycle/\1+1/p; s/.*frame [0-9]*: in no cycle/1/p' "$work/words" | paste -sd+)
said 'book: frames in no cycle' 6 $((left))
said 'check' "$work/book: yes" "$(bin/pcd-book-check "$work/book")"
said 'compare' "$(printf 'instant %s: only in the second\n' 170320004385 276480262144)" "$(bin/pcd-book-compare "$work/book" "$work/truth")"
while read -r instant found; do
    said "find $instant" "$found" "$(bin/pcd-find "$work/book" "$instant" | sed 's/ looks .*//')"
done <"$work/asked"

bin/pcd-map "$work/reel" >"$work/map.svg"
said 'map: status' 0 $?
same 'map: the picture in docs' docs/map.svg "$work/map.svg"
said 'map: well formed' '' "$(python3 -c 'import sys, xml.dom.minidom as x; x.parse(sys.argv[1])' "$work/map.svg" 2>&1)"

[ "$failed" -eq 0 ] && echo 'from a reel to a book: all as stated' || echo 'from a reel to a book: something differs'
exit "$failed"
