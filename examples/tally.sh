#!/usr/bin/env bash
# tally.sh [FILE..]: builds examples/tally.c with include/pcd.h and libbridge.a, and compares what it prints with what bin/pcd-tally prints, on
# these files and some of its own. Ends with status 1 where something differs.
set -euo pipefail
cd "$(dirname "${BASH_SOURCE[0]}")/.."
source bench/build.sh
archive bridge
mkdir -p target/examples
cc -std=c99 -Wall -Wextra -Werror -pedantic -O2 -I include -o target/examples/tally examples/tally.c target/staticlib/libbridge.a

work=$(mktemp -d)
trap 'rm -rf "$work"' EXIT
: >"$work/empty"
# Paper 01's example; a stream of several pieces, which ends in the middle of one; bytes that are no stream.
printf '\x32\x16\xFA\xFA\xFA\x16\x00\x01\x02' >"$work/example"
for _ in 1 2 3 4 5 6 7; do cat samples/reel.pcd; done >"$work/reels"
cp target/staticlib/libbridge.a "$work/other"

failed=0
for file in samples/reel.pcd "$work"/* "$@"; do
    bin/pcd-tally "$file" >"$work/wanted"
    if ! target/examples/tally "$file" | cmp - "$work/wanted"; then
        echo "the tally of $file differs"
        failed=1
    fi
done
[ "$failed" -eq 0 ] && echo 'the example in C prints the tallies that bin/pcd-tally prints'
exit "$failed"
