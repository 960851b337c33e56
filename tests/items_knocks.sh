#!/usr/bin/env bash
# Hard knocks on pcd-items, through its wrapper: years and inputs that cannot be used, a FIFO, outputs that cannot be written, and what readers of
# comma-separated values make of its lines. What it must print follows from docs/DECISIONS.md. Ends with status 1 where something differs.
set -uo pipefail
cd "$(dirname "${BASH_SOURCE[0]}")/.."
. tests/knock.sh
built pcd_items
items=bin/pcd-items

# The standard output is wanted by the number of its lines.
wrote() {
    [ "$(wc -l <"$work/out")" -eq "$1" ]
}

# The stored sample: nine frames, with 40, 30, 62 and 31 items twice and one line for the frame of no kind, and three bytes more.
sample=crates/pcd_items/stdin
head -c 147456 "$sample" >"$work/frames"
all=$((1 + 2 * (40 + 30 + 62 + 31) + 1))

echo 'years'
knock 'no year' 2 0 'usage' "$items <$work/frames"
knock 'a word too many' 2 0 'usage' "$items --year 2000 x <$work/frames"
knock 'another word' 2 0 'usage' "$items 2000 <$work/frames"
knock 'a year that is no number' 1 0 'MM: not a year' "$items --year MM <$work/frames"
knock 'an empty year' 1 0 'not a year' "$items --year '' <$work/frames"
knock 'a year too early' 1 0 'refusal 13: the year is outside' "$items --year 1998 <$work/frames"
knock 'a year too late' 1 0 'refusal 13: the year is outside' "$items --year=2100 <$work/frames"
knock 'a year of twenty digits' 1 0 'not a year' "$items --year 20000000000000000000 <$work/frames"

echo 'inputs'
knock 'whole frames' 0 "$all" none "$items --year 2000 <$work/frames"
knock 'the year behind a sign' 0 "$all" none "$items --year=2000 <$work/frames"
knock 'no frames' 0 1 none "$items --year 2000 </dev/null"
knock 'bytes behind the last frame' 1 "$all" '3 bytes behind the last whole frame' "$items --year 2000 <$sample"
knock 'a pipe in small pieces' 0 "$all" none "bash -c 'dd if=$work/frames bs=1000 status=none | $items --year 2000'"
mkfifo "$work/fifo"
knock 'a FIFO' 0 "$all" none "bash -c 'cat $work/frames >$work/fifo & $items --year 2000 <$work/fifo'"
knock 'a directory' 1 1 'Is a directory' "$items --year 2000 <$work"
knock 'a closed standard input' 1 0 'standard input' "$items --year 2000 <&-"

echo 'outputs that cannot be written'
for out in '>/dev/full' '>&-'; do
    knock "$out" 1 0 'standard output' "$items --year 2000 <$work/frames $out"
done
knock 'a closed pipe' 0 0 'standard output: Broken pipe' "bash -c '{ sleep 1; $items --year 2000 <$work/frames; } | true'"
knock 'a disk that fills up' 1 0 'standard output' "bash -c 'ulimit -f 8; trap \"\" XFSZ; $items --year 2000 <$work/frames >$work/full'"
knock 'the help' 0 4 none "$items --help"

echo 'readers of comma-separated values'
$items --year 2000 <"$work/frames" >"$work/csv"
python3 - "$work/csv" <<'P' && echo '  every line has twelve fields, and every number is one: ok' || failed=1
import csv, sys
with open(sys.argv[1], newline="", encoding="ascii") as f:
    rows = list(csv.DictReader(f, strict=True))
for row in rows:
    assert len(row) == 12 and None not in row and None not in row.values(), row
    if row["form"] in ("count", "12-bit count", "number", "time") and row["value"]:
        float(row["value"])
    assert bool(row["value"]) != bool(row["refusal"]), row
P

knocked 'items knocks'
