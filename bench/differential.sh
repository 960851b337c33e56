#!/usr/bin/env bash
# differential.sh [STREAMS] [SEED]: builds the differential test over the archives for C and runs it. Stream i has the seed SEED + i, so a stream
# that fails is run alone by `bench/differential.sh 1 ITS_SEED`. 2,000 streams, the default, are for the gate; 100,000 are the long form.
set -euo pipefail
cd "$(dirname "${BASH_SOURCE[0]}")/.."
source bench/build.sh
build differential
exec target/bench/differential "${1:-2000}" "${2:-1}"
