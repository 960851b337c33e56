#!/usr/bin/env bash
# archive.sh NAME..: proves each of these libraries for C, bridge, word72_api, book_api, frame_api or pay_api, and makes target/staticlib/libNAME.a.
set -euo pipefail
cd "$(dirname "${BASH_SOURCE[0]}")/.."
source bench/build.sh
for name in "$@"; do
    archive "$name"
done
