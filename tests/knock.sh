# What the knocks share: the programs built, a folder of their own, and a knock. A script sources this file in the repository's root and ends by
# `knocked NAME`.
root=$PWD
. bin/built.sh
work=$(mktemp -d)
trap 'rm -rf "$work"' EXIT
failed=0

# wrote OUT: whether the standard output is as wanted. A script may have another rule: so many lines, or the bytes of a file.
wrote() {
    [ "$(cat "$work/out")" = "$1" ]
}

# said ERR: whether the standard error is as wanted: the bytes of a file; nothing, for `none`; or a line that contains these words.
said() {
    if [ -f "$1" ]; then
        cmp -s "$1" "$work/err"
    elif [ "$1" = none ]; then
        [ ! -s "$work/err" ]
    else
        grep -q -- "$1" "$work/err"
    fi
}

# knock NAME STATUS OUT ERR COMMAND: runs the command and looks at how it ends and at what it wrote.
knock() {
    local name=$1 status=$2 out=$3 err=$4 got fault=ok
    (eval "timeout 120 $5") >"$work/out" 2>"$work/err"
    got=$?
    [ "$got" -eq "$status" ] || fault="ends with status $got, not $status"
    wrote "$out" || fault="writes to standard output: $(head -c 300 "$work/out" | tr -d '\0')"
    said "$err" || fault="writes to standard error: $(head -c 300 "$work/err")"
    echo "  $name: $fault"
    [ "$fault" = ok ] || failed=1
}

# knocked NAME: says how they went, and ends with status 1 where something differs.
knocked() {
    [ "$failed" -eq 0 ] && echo "$1: all as stated" || echo "$1: something differs"
    exit "$failed"
}
