#!/usr/bin/env bash
# program.sh LISTTRACE LISTPACK ORACLE: the listing program on every stored trace, and on inputs about the limit of 65,536 bytes,
# each from both starts. What it must print is what the second program prints from the same start. Then the listing program
# with arguments that are not its own, and both programs on standard input that cannot be read and standard output that cannot
# be written: one line on standard error, and nothing listed. The status is 0 each time.
set -euo pipefail
listtrace=$1
listpack=$2
oracle=$3
cd "$(dirname "$0")/.."

input=$(mktemp)
found=$(mktemp)
wanted=$(mktemp)
said=$(mktemp)
trap 'rm -f "$input" "$found" "$wanted" "$said"' EXIT
compared=0
wrong=0

# compare_from NAME ARGUMENT...: what is in $input through both.
compare_from() {
    "$listtrace" "${@:2}" <"$input" >"$found" || echo "status $?" >>"$found"
    "$oracle" list "${@:2}" <"$input" >"$wanted"
    compared=$((compared + 1))
    if ! cmp -s "$found" "$wanted"; then
        wrong=$((wrong + 1))
        echo "list: $*: prints something else than the second program" >&2
        diff "$wanted" "$found" | head -n 5 >&2 || true
    fi
}

# compare NAME: standard input through both, from both starts.
compare() {
    cat >"$input"
    compare_from "$1"
    compare_from "$1" --upright
}

while IFS= read -r trace; do
    compare "$trace" <"$trace"
done < <(find traces -name '*.trace' | sort)
for size in 0 65535 65536 65537 70000; do
    compare "$size bytes of 0" < <(head -c "$size" /dev/zero)
done
# 16,384 empty records of kind 1: 65,536 bytes, all taken; and one byte more.
whole() { printf '\0\0\1\0%.0s' $(seq 16384); }
compare '65,536 bytes of empty records' < <(whole)
compare '65,537 bytes' < <(whole; printf '\0')

# tells LINE [WHAT]: what the last program wrote to $said is this line, and to $found nothing.
tells() {
    compared=$((compared + 1))
    if [ -s "$found" ] || [ "$(cat "$said")" != "$1" ]; then
        wrong=$((wrong + 1))
        echo "not told, or listed all the same: $1${2+ ($2)}" >&2
        head -n 3 "$said" "$found" >&2
    fi
}

# no_such ARGUMENT...: these are not its own, and nothing is listed, from neither start.
no_such() {
    "$listtrace" "$@" <crates/listtrace/stdin >"$found" 2>"$said" || echo "status $?" >>"$said"
    tells 'listtrace: the only argument is --upright' "$(printf '[%s]' "$@")"
}
for argument in '' ' ' - -- --u --uprigh --uprighT --upright2 '--upright ' ' --upright' --upright= -upright --UPRIGHT upright \
    --upsidedown --upside-down --help x traces/rules/sample.trace; do
    no_such "$argument"
done
for argument in '' x --upright; do
    no_such --upright "$argument"
    no_such "$argument" --upright
done
no_such --upright --upright --upright

# A whole trace, or pack, from a connection that then breaks off: the read after it fails, and the one after that is the end.
breaks_off() {
    python3 -c '
import socket, subprocess, sys
here, there = socket.socketpair()
here.send(b"unread")
there.sendall(open(sys.argv[1], "rb").read())
there.close()
subprocess.run(sys.argv[2:], stdin=here, check=True)' "$@"
}

# troubled PROGRAM ARGUMENT...: input that cannot be read, and output that cannot be written.
troubled() {
    name=$(basename "$1")
    "$@" <&- >"$found" 2>"$said" || echo "status $?" >>"$said"
    tells "$name: standard input cannot be read"
    "$@" </ >"$found" 2>"$said" || echo "status $?" >>"$said"
    tells "$name: standard input cannot be read"
    breaks_off "crates/$name/stdin" "$@" >"$found" 2>"$said" || echo "status $?" >>"$said"
    tells "$name: standard input cannot be read"
    : >"$found"
    "$@" <"crates/$name/stdin" >/dev/full 2>"$said" || echo "status $?" >>"$said"
    tells "$name: standard output cannot be written"
    "$@" <"crates/$name/stdin" >&- 2>"$said" || echo "status $?" >>"$said"
    tells "$name: standard output cannot be written"
}
troubled "$listtrace"
troubled "$listtrace" --upright
troubled "$listpack"

echo "listtrace: $compared inputs, $wrong differences"
[ "$wrong" -eq 0 ]
