#!/usr/bin/env bash
# Hard knocks on pcd-map, through its wrapper: maps beside those of tests/map_samples.py, both ways of reading and pieces of a reel; a reel whose cells are
# joined; inputs that cannot be read and outputs that cannot be written. Ends with status 1 where something differs.
set -uo pipefail
cd "$(dirname "${BASH_SOURCE[0]}")/.."
. tests/knock.sh
built pcd_map
map=bin/pcd-map
reel=crates/pcd_map/data/reel

# The standard output is wanted as a file.
wrote() {
    cmp -s "$1" "$work/out"
}

: >"$work/none"
python3 tests/map_samples.py --map "$reel" >"$work/own"
python3 tests/map_samples.py --strict-map "$reel" >"$work/strict"
python3 tests/map_samples.py --map "$work/none" >"$work/empty"
head -c 70001 "$reel" >"$work/a"
tail -c +70002 "$reel" >"$work/b"
head -c 11520 "$reel" >"$work/ten"
python3 tests/map_samples.py --map "$work/ten" >"$work/ten.svg"

echo 'maps'
knock 'the sample' 0 "$work/own" none "$map $reel"
knock 'the sample, strictly' 0 "$work/strict" none "$map --strict $reel"
knock 'two files' 0 "$work/own" none "$map $work/a $work/b"
knock 'a file and standard input' 0 "$work/own" none "$map $work/a - <$work/b"
knock 'standard input' 0 "$work/own" none "$map <$reel"
knock 'no bytes' 0 "$work/empty" none "$map $work/none"
knock 'ten whole cells' 0 "$work/ten.svg" none "$map $work/ten"
mkfifo "$work/fifo"
knock 'a FIFO' 0 "$work/own" none "bash -c 'cat $reel >$work/fifo & $map $work/fifo'"

echo 'inputs that cannot be read'
knock 'a file that is not there' 1 "$work/empty" 'absent: No such file' "$map $work/absent"
knock 'a file that is not there, among others' 1 "$work/own" 'absent: No such file' "$map $work/a $work/absent $work/b"
knock 'a directory' 1 "$work/empty" 'Is a directory' "$map $work"
knock 'a closed standard input' 1 "$work/none" 'standard input' "$map <&-"
knock 'a word that is none' 2 "$work/none" usage "$map --loose"

echo 'outputs that cannot be written'
knock 'a full disk' 1 "$work/none" 'standard output: No space' "$map $reel >/dev/full"
knock 'a closed standard output' 1 "$work/none" 'standard output' "$map $reel >&-"
knock 'a closed pipe' 0 "$work/none" 'standard output: Broken pipe' "bash -c '{ sleep 1; $map $reel; } | true'"

echo 'a reel whose cells are joined'
# 190 times the sample are 36.9 MB, and fit; FILL behind them makes it too long for cells of 1,152 bytes.
for _ in $(seq 190); do cat "$reel"; done >"$work/long"
head -c 2000000 /dev/zero | tr '\0' '2' | cat "$work/long" - >"$work/longer"
$map "$work/long" >"$work/long.svg" && $map "$work/longer" >"$work/longer.svg" && python3 - "$work" <<'P' || failed=1
import sys
import xml.etree.ElementTree as tree

def cells(name):
    """The cells of a map, and the bytes of each."""
    root = tree.parse(sys.argv[1] + name).getroot()
    words = next(e.text for e in root.iter() if (e.text or "").startswith("bytes of the reel"))
    rects = [e for e in root.iter() if e.get("height") == ".9"]
    out = []
    for e in rects:
        assert 128 * int(e.get("y")) + int(e.get("x")) == len(out)
        out += [int(e.get("class")[1:])] * int(e.get("width"))
    return out, int(words.split("bytes of a cell: ")[1].split(".")[0])

(one, length), (two, twice) = cells("/long.svg"), cells("/longer.svg")
assert (length, twice) == (1152, 2304), (length, twice)
joined = [max(one[k:k + 2]) for k in range(0, len(one), 2)]
same = two[:len(joined) - 1] == joined[:-1] and not any(two[len(joined):])
print("  joined in pairs:", "ok" if same else "differ")
sys.exit(not same)
P

knocked 'map knocks'
