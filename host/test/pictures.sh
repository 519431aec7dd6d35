#!/usr/bin/env bash
# Tests of the tool's pictures: PBM and PNG, their dots and where they go.
#
#   pictures.sh 'TOOL...' 'TOOL...'      the commands that run the tool as it was
#                                        built, and as it is without PNG
set -euo pipefail

read -ra tool <<< "$1"
read -ra without <<< "$2"
# shellcheck source=host/test/checks.sh
. "$(dirname "$0")/checks.sh"
png=$(dirname "$0")/png.py

run() { ran "${tool[@]}" picture "$@"; }

# part FIRST COUNT: bytes of what was kept, in hex.
part() { tail -c +"$1" "$here/out" | head -c "$2" | od -An -tx1 -v | tr -d ' \n'; }

bytes 01 00 01 00 AF 02 00 02 00 03 01 > "$here/sample.trace"
bytes 02 00 01 00 A5 AF > "$here/lit.trace"

# ---- PBM ----

# A margin of 2 dots, 64 panel rows, a gap of 2, the icon line, the margin.
run --upright --scale 1 "$here/sample.trace"
check 'PBM: status 0' status_is 0
check 'PBM: its form and size' [ "$(head -n 2 "$here/out")" = $'P4\n136 71' ]
check 'PBM: 17 bytes to each of 71 lines' [ "$(wc -c < "$here/out")" -eq $((10 + 17 * 71)) ]
check 'PBM: two lines of margin' [ "$(part 11 34)" = "$(printf '%068d' 0)" ]
check 'PBM: rows 0 and 1 after two dots of margin' [ "$(part 45 34)" = "30$(printf '%032d' 0)20$(printf '%032d' 0)" ]
# Upside down: places 131, and 130 and 131, of rows 62 and 63 are the dots 133,
# and 132 and 133, of lines 64 and 65.
run --scale 1 "$here/sample.trace"
check 'PBM: upside down, nothing before row 62' [ "$(part 11 $((64 * 17)))" = "$(printf '%0*d' $((64 * 34)) 0)" ]
check 'PBM: upside down, rows 62 and 63' \
  [ "$(part $((11 + 64 * 17)) 34)" = "$(printf '%032d' 0)04$(printf '%032d' 0)0c" ]
run --upright --scale 3 "$here/sample.trace"
check 'PBM: each dot 3 by 3' [ "$(head -n 2 "$here/out")" = $'P4\n408 213' ]
check 'PBM: 51 bytes to each of 213 lines' [ "$(wc -c < "$here/out")" -eq $((11 + 51 * 213)) ]
check 'PBM: two lit places are six bits after six' [ "$(part $((12 + 6 * 51)) 2)" = 03f0 ]
run "$here/sample.trace"
check 'PBM: 4 by 4 if nothing is said' [ "$(head -n 2 "$here/out")" = $'P4\n544 284' ]
run --scale=1 "$here/lit.trace"
line=3$(printf 'f%.0s' {1..32})c
check 'PBM: the last panel row, two blank lines, the icons, the margin' \
  [ "$(part $((11 + 65 * 17)) 102)" = "$line$(printf '%068d' 0)$line$(printf '%068d' 0)" ]
run --upright --scale 1 < <(bytes 02 00 01 00 AF B8 01 00 02 00 01)
check 'PBM: one icon, and nothing else' \
  [ "$(part 11 $((71 * 17)))" = "$(printf '%0*d' $((68 * 34)) 0)20$(printf '%0*d' $((2 * (71 * 17 - 68 * 17) - 2)) 0)" ]
run --scale 1 < <(bytes 02 00 01 00 AF B8 01 00 02 00 01)
check 'PBM: upside down, the icon is at the other end of the same line' \
  [ "$(part $((11 + 68 * 17)) 17)" = "$(printf '%032d' 0)04" ]
run < <(bytes 01 00 01 00 B9)
check 'refused: status 1' status_is 1
check 'refused: on standard error' err_has 'refused 4 at 4'
check 'refused: the picture as it stands' [ "$(head -n 1 "$here/out")" = P4 ]

# ---- files ----

run -o "$here/a.pbm" --scale 1 "$here/sample.trace"
check 'file: status 0' status_is 0
check 'file: nothing on standard output' nothing_on out
run --scale 1 "$here/sample.trace"
check 'file: the same PBM' cmp -s "$here/a.pbm" "$here/out"
run --output="$here/b.PBM" --scale 1 "$here/sample.trace"
check 'file: --output=FILE' cmp -s "$here/a.pbm" "$here/b.PBM"
run -o "$here/none/a.pbm" "$here/sample.trace"
check 'file: no such folder, status 2' status_is 2
check 'file: no such folder, said' err_has "cannot write $here/none/a.pbm: No such file or directory"
run -o "$here/kept.pbm" "$here/none.trace"
check 'file: no trace, no picture' [ ! -e "$here/kept.pbm" ]
run -o "$here/sample.trace" "$here/sample.trace"
check 'file: a trace is not written over, status 2' status_is 2
check 'file: a trace is not written over, said' err_has "a picture's file is named FILE.png or FILE.pbm, not $here/sample.trace"
check 'file: a trace is not written over' [ "$(wc -c < "$here/sample.trace")" -eq 11 ]
run --png -o "$here/a.pbm" "$here/sample.trace"
check 'file: --png and .pbm do not fit' err_has "--png, but the file is $here/a.pbm"
if [ -e /dev/full ]; then
  ln -s /dev/full "$here/full.pbm"
  run -o "$here/full.pbm" "$here/sample.trace"
  check 'file: no room, status 2' status_is 2
  check 'file: no room, said' err_has "cannot write $here/full.pbm: No space left on device"
fi

# ---- PNG ----

# The dots of a PNG must be those of the PBM, by a reader of its own.
same_dots() {
  run --scale "$1" < "$here/dots.trace"
  mv "$here/out" "$here/dots.pbm"
  run --png --scale "$1" < "$here/dots.trace"
  "$png" "$here/out" > "$here/read.pbm" && cmp "$here/read.pbm" "$here/dots.pbm"
}
if "${tool[@]}" --version | grep -q 'and PNG'; then
  if command -v python3 > /dev/null; then
    # A screen with every second place of a page lit, and some icons.
    { bytes 02 00 01 00 AF B3 84 00 02 00; for _ in {1..66}; do bytes 55 A7; done
      bytes 02 00 01 00 B8 0C 03 00 02 00 01 00 01; } > "$here/dots.trace"
    check 'PNG: the dots of the PBM, 1 by 1' same_dots 1
    check 'PNG: the dots of the PBM, 5 by 5' same_dots 5
  else
    echo 'pictures: PNG not read, as there is no python3'
  fi
  run --png "$here/sample.trace"
  mv "$here/out" "$here/png"
  run -o "$here/a.png" "$here/sample.trace"
  check 'PNG: status 0' status_is 0
  check 'PNG: by the name of the file' cmp -s "$here/a.png" "$here/png"
  check 'PNG: its first bytes' [ "$(head -c 8 "$here/png" | od -An -tx1 | tr -d ' \n')" = 89504e470d0a1a0a ]
  check 'PNG: nothing on standard error' nothing_on err
else
  echo 'pictures: PNG not tested, as libstb-dev is missing'
fi

# ---- without PNG ----

tool=("${without[@]}")
run "$here/sample.trace"
mv "$here/out" "$here/sample.pbm"
run --png "$here/sample.trace"
check 'without PNG: status 0' status_is 0
check 'without PNG: said' err_has "built without PNG (Debian's libstb-dev was missing): a PBM is written"
check 'without PNG: a PBM' cmp -s "$here/out" "$here/sample.pbm"
run -o "$here/c.png" "$here/sample.trace"
check 'without PNG: the file is said' err_has "a PBM is written to $here/c.png.pbm"
check 'without PNG: the file is a PBM' cmp -s "$here/c.png.pbm" "$here/sample.pbm"
check 'without PNG: no PNG that is none' [ ! -e "$here/c.png" ]
ran "${tool[@]}" --version
check 'without PNG: the version says so' out_has 'pictures: PBM, no PNG'

checks_end pictures
