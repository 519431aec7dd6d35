#!/usr/bin/env bash
# Tests of the Makefile: how `make show` ends, what `make help` names, what is
# printed as things are made, and what is said where there is no rt.
#
#   MAKE=MAKE MODEL=MODEL makefile.sh      in the folder of the Makefile, with
#                                          the tool made
set -euo pipefail

# shellcheck source=host/test/checks.sh
. "$(dirname "$0")/checks.sh"
make=("$MAKE" --no-print-directory MODEL="$MODEL")

# ---- show ----

trace="$here/it's a trace"
bytes 03 00 01 00 A5 AF B9 > "$trace"
ran "${make[@]}" show TRACE="$trace"
check 'show: a refused trace is no error of make' status_is 0
check 'show: the place in words' out_has 'refused 4 at 6 (0x6): B9 to BF name no page'
check 'show: nothing on standard error' nothing_on err

bytes 02 00 01 00 A5 AF > "$trace"
ran "${make[@]}" show TRACE="$trace"
check 'show: a taken trace' status_is 0
check 'show: 32 lines of panel rows, 1 of icons, 3 edges' [ "$(wc -l < "$here/out")" -eq 36 ]

ran "${make[@]}" show TRACE="$here/none"
check 'show: no trace is an error of make' status_is 2
check 'show: no trace, said' err_has "cannot open $here/none: No such file"

printf '# typed\ncommand AF\ncommand D3 40\n' > "$here/typed.txt"
ran "${make[@]}" show TRACE="$here/typed.txt"
check 'show: a typed trace that is refused is no error of make' status_is 0
check 'show: a typed trace is told by its line' out_has "$here/typed.txt:3: command D3 40"
check 'show: no trace is left of it' [ ! -e "$here/typed.trace" ]
traces/make.py "$here/typed.txt" > "$here/out"
ran "${make[@]}" show TRACE="$here/typed.trace"
check 'show: a trace that was typed is told by its line' out_has "$here/typed.txt:3: command D3 40"
rm "$here/typed.trace"
echo 'command A' > "$here/typed.txt"
ran "${make[@]}" show TRACE="$here/typed.txt"
check 'show: a fault of a source is an error of make' status_is 2
check 'show: a fault of a source, said' err_has "$here/typed.txt:1: 'A' is not 2 hexadecimal digits"

# ---- from which start ----

# Document 01's trace: rows 0 and 1 from an old cabinet's start, 63 and 62 from a
# new one's.
old="│█▀$(printf '%130s' '')│"
new="│$(printf '%130s' '')▄█│"
bytes 01 00 01 00 AF 02 00 02 00 03 01 > "$trace"
printf 'command AF\nwrite 03 01\n' > "$here/typed.txt"
for shown in "$trace" "$here/typed.txt"; do
  ran "${make[@]}" show TRACE="$shown"
  check "start: a new cabinet's (${shown##*/})" line_is 33 "$new"
  ran "${make[@]}" show TRACE="$shown" UPRIGHT=yes
  check "start: an old one's by name (${shown##*/})" line_is 2 "$old"
done
for wrong in no 1 Yes; do
  ran "${make[@]}" show TRACE="$trace" UPRIGHT="$wrong"
  check "start: UPRIGHT=$wrong, status 2" status_is 2
  check "start: UPRIGHT=$wrong, said" err_has "UPRIGHT is yes or left out, not $wrong"
  check "start: UPRIGHT=$wrong, nothing shown" nothing_on out
done
# What is shown where no trace is named is from an old cabinet.
demonstration=traces/screens/weighing.trace
ran env -u TRACE -u UPRIGHT "${make[@]}" show
check 'start: of what is shown without a name, status 0' status_is 0
cp "$here/out" "$here/shown"
ran "${make[@]}" show TRACE="$demonstration" UPRIGHT=yes
check 'start: of what is shown without a name, an old one' cmp -s "$here/out" "$here/shown"
ran "${make[@]}" show TRACE="$demonstration"
check 'start: of the same by its name, a new one' [ "$(cmp -s "$here/out" "$here/shown"; echo $?)" -eq 1 ]
ran "${make[@]}" help
check 'start: help names it' grep -q 'UPRIGHT=yes' "$here/out"

# ---- of a wide terminal ----

bytes 01 00 01 00 AF 01 00 05 00 02 02 00 02 00 03 01 > "$trace"
printf 'command AF\nselect right\nwrite 03 01\n' > "$here/typed.txt"
for shown in "$trace" "$here/typed.txt"; do
  ran "${make[@]}" show TRACE="$shown" WIDE=yes UPRIGHT=yes
  check "wide: both halves (${shown##*/})" line_is 2 "│$(printf '%132s' '')█▀$(printf '%130s' '')│"
  ran "${make[@]}" show TRACE="$shown" WIDE=yes
  check "wide: from a new cabinet (${shown##*/})" line_is 33 "│$(printf '%262s' '')▄█│"
  ran "${make[@]}" show TRACE="$shown"
  check "wide: without its name (${shown##*/})" out_has '  kind 5 selects a chip of a wide terminal: --wide plays such a trace'
done
for wrong in no 1 Yes; do
  ran "${make[@]}" show TRACE="$trace" WIDE="$wrong"
  check "wide: WIDE=$wrong, status 2" status_is 2
  check "wide: WIDE=$wrong, said" err_has "WIDE is yes or left out, not $wrong"
done
ran "${make[@]}" help
check 'wide: help names it' grep -q 'WIDE=yes' "$here/out"

# ---- help ----

targets=$("${make[@]}" -pn help | sed -n 's/^\.PHONY: //p' | tr ' ' '\n' | sort -u)
ran "${make[@]}" help
check 'help: there are targets' [ -n "$targets" ]
for target in $targets; do
  case $target in
    tool | oracle | cross | FORCE | help) ;;  # `make` itself; steps of others; itself
    *) check "help: names $target" grep -q "^make $target " "$here/out" ;;
  esac
done

# ---- what is printed as things are made ----

# A copy with a library of its own, in which `rt` prints what the real one does,
# and keeps what was said before it ran.
copy=$here/copy
mkdir -p "$copy/host/tool" "$copy/bench" "$copy"/crates/host{,bus,wide,widerun}/out "$here/bin"
cp Makefile "$copy"
cp host/prove.sh host/ssd1815b.h host/cross.sh "$copy/host"
cp bench/*.[ch] "$copy/bench"
printf 'int main(void)\n{\n  return 0;\n}\n' > "$copy/host/tool/main.c"
printf 'codes:\nbus: codes\nhost staticlib: bus codes\nhostbus staticlib: bus codes\nhostwide staticlib: bus codes\nhostwiderun staticlib: bus codes\n' > "$copy/crates.txt"
cat > "$here/bin/rt" <<'END'
#!/bin/sh
crate=${PWD##*/crates/}
case $*/$crate in lib/host | lib/hostbus | lib/hostwide | lib/hostwiderun) ;; *) exit 2 ;; esac
# said NAME: as it ends with a crate.
said() {
  echo "crate $1: modules loaded=0 checked=12"
  echo 'logic=proved functions=5'
}
if [ "$crate" = host ]; then
  cp ../../../out ../../said
  echo 'rt: codes: begins with what a check kept in /some/where/crates/codes'
  echo 'fn codes::command_of: proved'
  said codes
  said bus
fi
[ ! -e ../../broken ] || { echo 'fn host::draw::ssd1815b_draw: not proved' >&2; exit 1; }
ar rcs out/lib$crate.a
said "$crate"
END
chmod +x "$here/bin/rt"
# As by itself, whatever this make was called with.
apart=(env -u MAKEFLAGS -u VARIANT -u EXTRA -u V)
building=("${apart[@]}" PATH="$here/bin:$PATH" "$MAKE" --no-print-directory -C "$copy" MODEL=proved)
ran "${building[@]}"
check 'building: status 0' status_is 0
check 'building: that it takes minutes is said before' grep -q "^proving the library's 6 crates: some minutes" "$copy/said"
sed -i -E '1d; s/ \([0-9]* s\)$/ (N s)/' "$here/out"
check 'building: a line for each crate, and the tool' \
  out_is $'proved codes (N s)\nproved bus (N s)\nproved host (N s)\nproved hostbus (N s)\nproved hostwide (N s)\nproved hostwiderun (N s)\ntarget/c/proved/ssd1815b'
check 'building: nothing on standard error' nothing_on err
ran "${building[@]}"
check 'building again: the tool alone' out_is target/c/proved/ssd1815b

rm -r "$copy/target"
ran "${building[@]}" V=1
check 'building with V=1: status 0' status_is 0
check 'building with V=1: command lines' grep -q '^[^ ]*gcc .*host/tool/main.c' "$here/out"
check 'building with V=1: what the prover says' out_has 'fn codes::command_of: proved'

rm -r "$copy/target"
: > "$copy/broken"
ran "${building[@]}"
check 'building what is not proved: status 2' status_is 2
check 'building what is not proved: all that the prover says' out_has 'fn host::draw::ssd1815b_draw: not proved'
check 'building what is not proved: no tool' [ ! -e "$copy/target/c/proved/ssd1815b" ]

# ---- where there is no rt ----

# Just what the Makefile needs.
mkdir "$here/without"
for command in bash sh cat mkdir sed uname {,x86_64-linux-gnu-}{gcc,g++,as,ld} qemu-x86_64; do
  path=$(command -v "$command") && ln -s "$path" "$here/without/$command"
done
without=("${apart[@]}" PATH="$here/without" "$(command -v "$MAKE")" --no-print-directory -C "$copy")
ran "${without[@]}" MODEL=proved show
check 'no rt: status 2' status_is 2
check 'no rt: said' err_has 'there is no rt on the PATH'
check 'no rt: where it is to be had' err_has 'rt is the command of the Rattle kit'
check 'no rt: and what goes without' err_has 'make MODEL=plain show'
ran "${without[@]}" MODEL=plain tool
check 'no rt: what goes without it goes' status_is 0

checks_end makefile
