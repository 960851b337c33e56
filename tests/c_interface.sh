#!/usr/bin/env bash
# c_interface.sh: holds include/pcd.h to what the crates export, compiles it with a C and a C++ compiler and every warning, and builds examples/pay.c
# and tests/pay_edges.c with both over libpay_api.a and the sanitizers; each must run without a report and print what stands beside the first, or
# nothing. Ends with status 1 where something differs.
set -euo pipefail
cd "$(dirname "${BASH_SOURCE[0]}")/.."
source bench/build.sh
archive pay_api
python3 tests/header.py
out=target/c_interface
mkdir -p "$out"

strict='-Wall -Wextra -Werror -pedantic'
checked="$strict -g -fsanitize=address,undefined -fno-sanitize-recover=all -I include"
# The header alone, and with a user of its own that includes it twice.
printf '#include "pcd.h"\n#include "pcd.h"\nint main(void) { return PCD_PAY_SPLIT == 256 ? 0 : 1; }\n' >"$out/alone.c"
gcc -std=c99 $strict -I include -o "$out/alone" "$out/alone.c" && "$out/alone"
g++ $strict -I include -o "$out/alone" -x c++ "$out/alone.c" && "$out/alone"

failed=0
for program in examples/pay tests/pay_edges; do
    wanted="$program.txt"
    [ -f "$wanted" ] || wanted=/dev/null
    gcc -std=c99 $checked -o "$out/c" "$program.c" target/staticlib/libpay_api.a
    g++ $checked -o "$out/c++" -x c++ "$program.c" -x none target/staticlib/libpay_api.a
    for built in "$out/c" "$out/c++"; do
        if ! "$built" 2>&1 | cmp - "$wanted"; then
            echo "$program.c: what $built prints differs from $wanted"
            failed=1
        fi
    done
done
[ "$failed" -eq 0 ] && echo 'the header and the programs in C and C++ agree with the library'
exit "$failed"
