# For the wrappers beside it and the scripts of tests/ and bench/, which set `root`, the repository's root.

# built PROGRAM..: proves each program and builds crates/PROGRAM/out/PROGRAM, unless it is there; ends the script with 1 where it cannot be built.
# `rt run` builds a program and then runs it: here with no arguments, on nothing, and however that ends, the program is there.
built() {
    local program crate
    for program in "$@"; do
        crate=$root/crates/$program
        [ -x "$crate/out/$program" ] && continue
        echo "$program: proved and built on first use" >&2
        mkdir -p "$crate/out"
        (cd "$crate" && rt run </dev/null >/dev/null 2>out/built.log) || true
        if [ ! -x "$crate/out/$program" ]; then
            cat "$crate/out/built.log" >&2
            exit 1
        fi
    done
}
