#!/usr/bin/env bash
# speed.sh [MIB [FILE_MIB]]: builds the timing over libbridge.a and prints its tables, on streams of so many MiB (default 32) in memory and
# of so many (default 256) in a file below target/, which it removes.
set -euo pipefail
cd "$(dirname "${BASH_SOURCE[0]}")/.."
source bench/build.sh
build speed
# The program as the crates now are: proved already, it is compiled and linked in some seconds.
rm -f crates/pcd_tally/out/pcd_tally
root=$PWD
. bin/built.sh
built pcd_tally
exec target/bench/speed "$@"
