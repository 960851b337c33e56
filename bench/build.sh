# For the scripts beside it and in examples/, at the repository's root.

# over_proved CRATE: proves this static library alone and makes its archive over the libraries below it as `rt ci` left them. The gate asks for it by
# PCD_PROVED, since `rt lib` builds only over libraries that it built itself, and would prove all of them once more. Not where `rt ci` gave libraries of
# an earlier `rt lib` back, which have a stamp.
over_proved() {
    [ -n "${PCD_PROVED:-}" ] && ! compgen -G 'crates/*/out/rlib/stamp' >/dev/null || return
    local kit library uses=()
    kit=$(dirname "$(rt doc)")
    for library in $(sed -n "s/^$1 staticlib: //p" crates.txt); do
        uses+=(--extern "$library=../$library/out/rlib/$library.rlib")
    done
    for library in crates/*/out/rlib; do
        uses+=(-L "dependency=../../$library")
    done
    cd "crates/$1"
    "$kit/bin/rattle" build --crate-name "$1" src/lib.rt --extern "std=$kit/rlibs/std.rlib" -L "dependency=$kit/rlibs" "${uses[@]}" \
        --antt-project "$kit/rattle/logic/antt-project.json" --logic-built "$kit/logic_built" --jobs 2 \
        --crate-type staticlib --toolchain "$kit/toolchain" --backend llvm -o "out/lib$1.a"
}

# archive NAME: proves the crate NAME_c and makes target/staticlib/libNAME.a of it, unless one stands there that is newer than every file of the crates.
archive() {
    local archive=target/staticlib/lib$1.a crate=crates/$1_c
    [ -f "$archive" ] && [ -z "$(find crates crates.txt -name out -prune -o -type f -newer "$archive" -print -quit)" ] && return
    mkdir -p target/bench target/staticlib
    (over_proved "$1_c") >target/bench/staticlib.log 2>&1 ||
        (cd "$crate" && rt lib) >target/bench/staticlib.log 2>&1 || { cat target/bench/staticlib.log >&2; return 1; }
    cp "$crate/out/lib$1_c.a" "$archive"
}

# build NAME: links bench/NAME.rs with every archive to target/bench/NAME. Any rustc from 1.63 on will do; a warning does not stop it, since one
# rustc warns of other things than the next.
build() {
    local name links=()
    for name in bridge word72_api book_api frame_api pay_api; do
        archive "$name"
        links+=(-C "link-arg=target/staticlib/lib$name.a")
    done
    mkdir -p target/bench
    rustc --edition 2021 -O -o "target/bench/$1" "bench/$1.rs" "${links[@]}"
}
