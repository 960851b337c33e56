#!/usr/bin/env bash
# rooms.sh: builds the timing of the rooms that stand apart from the reader over the archives for C and prints its tables.
set -euo pipefail
cd "$(dirname "${BASH_SOURCE[0]}")/.."
source bench/build.sh
build rooms
exec target/bench/rooms
