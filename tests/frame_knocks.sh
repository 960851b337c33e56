#!/usr/bin/env bash
# Hard knocks on pcd-frames through its wrapper: what is told at the end, files that are not there, a directory, a FIFO that brings single bytes, a closed
# standard input, outputs that cannot be written, files of operators that are wrong, and 5 GiB in little memory. What each must print follows from
# tests/labelling.py, tests/own_sync.py and docs/DECISIONS.md. Ends with status 1 where something differs.
set -uo pipefail
cd "$(dirname "${BASH_SOURCE[0]}")/.."
program=crates/pcd_frames/out/pcd_frames
frames=bin/pcd-frames
memory=65536    # KiB of address space that the program may have on the longest input
. tests/knock.sh
built pcd_frames

# The standard output is wanted as a file.
wrote() {
    cmp -s "$1" "$work/out"
}

python3 - "$work" <<'P' || exit 1
import os, random, sys
folder, sys.argv[1:] = sys.argv[1], []
sys.path.insert(0, "tests")
import labelling, own_sync
from frame_samples import REEL, frames, lines, listing, major, paid, shifts_of, told, unpacked
from labelling import BY_BYTES, Stream

def put(name, data):
    open(os.path.join(folder, name), "wb").write(data)

put("reel", REEL.data)
put("frames", b"".join(frames(REEL, False)))
put("told", told(REEL, False).encode())
put("told-strict", told(REEL, True).encode())
assert not frames(REEL, True)
shifts = shifts_of(REEL)
put("operators", lines(shifts))
put("told-operators", told(REEL, False, shifts).encode())
put("none", b"")
put("told-none", told(Stream(b"", BY_BYTES), False).encode())
# Our writer's reel: a lead-in, and major frames at two spacings. Both readings give the same.
rng = random.Random(5)
led = Stream(unpacked(labelling.SYNC_WORDS, 5) + major(rng, 5) + major(rng, 0), BY_BYTES)
assert frames(led, True) == frames(led, False) and len(frames(led, True)) == 2
put("led", led.data)
put("led-frames", b"".join(frames(led, True)))
put("told-led", told(led, True).encode())
part = Stream(REEL.data[:3000], BY_BYTES)
put("part", part.data)
put("told-part", told(part, False).encode())
# Zero bytes are stray.
stray = dict.fromkeys(labelling.COUNTS, 0)
stray["bytes"] = stray["stray"] = 5 << 30
put("told-sparse", (listing(stray) + "lead-ins 0\n").encode())
P
truncate -s $((5 << 30)) "$work/sparse"

# Prints the bytes of a file one at a time.
cat >"$work/single.pl" <<'P'
$| = 1;
open(F, "<", $ARGV[0]);
binmode F;
while (read(F, $b, 1)) { print $b; select(undef, undef, undef, 0.0002) }
P

echo 'what is read'
knock 'a reel by its own sync' 0 "$work/frames" "$work/told" "$frames $work/reel"
knock 'the same from standard input' 0 "$work/frames" "$work/told" "$frames <$work/reel"
knock 'the same in pieces of 7 bytes' 0 "$work/frames" "$work/told" "bash -c 'dd if=$work/reel bs=7 status=none | $frames -'"
knock 'the same by 01 alone' 0 "$work/none" "$work/told-strict" "$frames --strict $work/reel"
knock 'with operators' 0 "$work/frames" "$work/told-operators" "$frames --operators $work/operators $work/reel"
knock 'our writer'"'"'s reel' 0 "$work/led-frames" "$work/told-led" "$frames $work/led"
knock 'our writer'"'"'s reel by 01 alone' 0 "$work/led-frames" "$work/told-led" "$frames --strict -- $work/led"
knock 'no bytes' 0 "$work/none" "$work/told-none" "$frames /dev/null"
mkfifo "$work/fifo"
knock 'a FIFO, byte by byte' 0 "$work/none" "$work/told-part" "bash -c 'perl $work/single.pl $work/part >$work/fifo & $frames $work/fifo'"
knock "5 GiB in $memory KiB" 0 "$work/none" "$work/told-sparse" "bash -c 'ulimit -v $memory; exec $program 2 own \"\" $work/sparse' 2>&1 >/dev/null | sed '\$d' >&2"

echo 'inputs that cannot be read'
knock 'a file that is not there' 1 "$work/none" 'absent: No such file' "$frames $work/absent"
knock 'a file that is not there, before one that is' 1 "$work/frames" 'absent: No such file' "$frames $work/absent $work/reel"
knock 'a directory' 1 "$work/none" 'Is a directory' "$frames $work"
knock 'a closed standard input' 1 "$work/none" 'standard input is closed' "$frames <&-"
knock 'another option' 2 "$work/none" 'usage' "$frames --loose"

echo 'operators'
operators() { printf "$2" >"$work/wrong"; knock "$1" 1 "$work/none" "$3" "$frames --operators $work/wrong $work/reel"; }
operators 'a wrong line' '0 1\n5,2\n' 'line 2: not BYTE OPERATOR'
operators 'an empty line' '0 1\n\n9 1\n' 'line 2: not BYTE OPERATOR'
operators 'no such operator' '0 8\n' 'line 1: there is no such operator'
operators 'bytes that do not rise' '5 1\n5 2\n' 'line 2: the bytes do not rise'
operators 'a byte beyond 2^40' '1099511627777 1' 'line 1: the byte is beyond 2^40'
knock 'a file of operators that is not there' 1 "$work/none" 'absent: No such file' "$frames --operators $work/absent $work/reel"
knock 'a file of operators that is too long' 1 "$work/none" 'longer than its room' "$frames --operators $work/reel $work/reel"
knock 'a directory of operators' 1 "$work/none" 'cannot be read' "$frames --operators $work $work/reel"

echo 'outputs that cannot be written'
knock 'a full disk' 1 "$work/none" 'standard output: No space' "$frames $work/reel >/dev/full"
knock 'a closed standard output' 1 "$work/none" 'standard output' "$frames $work/reel >&-"
knock 'a closed pipe' 0 "$work/none" 'standard output: Broken pipe' "bash -c '{ sleep 1; $frames $work/reel; } | true'"

knocked 'frame knocks'
