#!/usr/bin/env bash
# Tests of the tool's diff: what it prints of two screens and of two memories,
# the listings that it reads and those that it refuses by their line, its
# pictures, and its status.
#
#   diff.sh 'TOOL...' 'TOOL...'      the commands that run the tool as it was
#                                    built, and as it is without PNG
set -euo pipefail

read -ra tool <<< "$1"
read -ra without <<< "$2"
# shellcheck source=host/test/checks.sh
. "$(dirname "$0")/checks.sh"
png=$(realpath "$(dirname "$0")/png.py")
readme=$(realpath "$(dirname "$0")/../README.md")
traces=$(realpath "$(dirname "$0")/../../traces")

run() { ran "${tool[@]}" diff "$@"; }

# answers STATUS OUT ARGUMENTS...: a status, all of standard output, and nothing
# on standard error.
answers() {
  local expected=$1 out=$2
  shift 2
  run "$@" < "${input:-/dev/null}"
  check "status $expected (${*##*/})" status_is "$expected"
  check "what is printed (${*##*/})" out_is "$out"
  check "nothing on standard error (${*##*/})" nothing_on err
}

# Bit 0 of a byte is the upper row of its page: 03 01 is row 0 lit at 0 and 1
# and row 1 at 0; 01 03 is row 0 lit at the same and row 1 at 1.  Where rows and
# places are told, that is of the upright start, by name; starts.sh has the other.
bytes 01 00 01 00 AF 02 00 02 00 03 01 > "$here/first.trace"
bytes 01 00 01 00 AF 02 00 02 00 01 03 > "$here/second.trace"
bytes 01 00 01 00 AF > "$here/dark.trace"
bytes 02 00 01 00 A5 AF > "$here/lit.trace"
bytes 02 00 01 00 AF B8 01 00 02 00 01 > "$here/icon.trace"

# All is done in that folder.
tool[-1]=$(realpath "${tool[-1]}")
without[-1]=$(realpath "${without[-1]}")
cd "$here"

# ---- two traces ----

# Lit-to-dark beside dark-to-lit is two runs.
answers 1 'row 1, 0: lit, then dark
row 1, 1: dark, then lit
2 runs differ, 2 places in 1 row' --upright first.trace second.trace
answers 1 'row 1, 0: dark, then lit
row 1, 1: lit, then dark
2 runs differ, 2 places in 1 row' --upright second.trace first.trace
answers 1 'row 0, 0 to 1: lit, then dark
row 1, 0: lit, then dark
2 runs differ, 3 places in 2 rows' --upright first.trace dark.trace
answers 1 'row 64 (the icon line), 0: dark, then lit
1 run differs, 1 place in 1 row' --upright dark.trace icon.trace
answers 0 'the same, no place differs' first.trace first.trace
answers 0 'the same, no place differs; all are dark' dark.trace dark.trace
every=$(for row in {0..63}; do echo "row $row, 0 to 131: dark, then lit"; done)
answers 1 "$every
row 64 (the icon line), 0 to 131: dark, then lit
65 runs differ, 8580 places in 65 rows" dark.trace lit.trace
# Runs end at the end of a row: 131 of row 0 and 0 of row 1 are two.  Column 131
# is set by 18 03; data that is written there goes on at column 0.
bytes 03 00 01 00 AF 18 03 02 00 02 00 01 02 > edges.trace
answers 1 'row 0, 131: dark, then lit
row 1, 0: dark, then lit
2 runs differ, 2 places in 2 rows' --upright dark.trace edges.trace
# Same places in the same way, with a gap: 01 00 01.
bytes 01 00 01 00 AF 03 00 02 00 01 00 01 > gap.trace
answers 1 'row 0, 0: dark, then lit
row 0, 2: dark, then lit
2 runs differ, 2 places in 1 row' --upright dark.trace gap.trace
# Other ways to the same screen: what counts is the frame.
bytes 03 00 01 00 AF A5 A4 01 00 02 00 03 01 00 02 00 01 > otherwise.trace
answers 0 'the same, no place differs' first.trace otherwise.trace

# ---- one line ----

answers 1 'first.trace and second.trace: 2 runs differ, 2 places in 1 row' -q first.trace second.trace
answers 1 'first.trace and second.trace: 2 runs differ, 2 places in 1 row' --brief first.trace second.trace
answers 0 'first.trace and otherwise.trace: the same, no place differs' -q first.trace otherwise.trace
answers 1 'first.trace and second.trace: 2 bytes of memory differ, in 1 page' -q --memory first.trace second.trace

# ---- stored frames ----

printf 'frame 132 65\n0 0-1\n1 0-0\nend\n' > first.list
printf 'frame 132 65\n0 0-1\n1 1-1\nend\n' > second.list
printf 'frame 132 65\nend\n' > dark.list
printf 'frame 132 65\n64 0-0\nend\n' > icon.list
two='row 1, 0: lit, then dark
row 1, 1: dark, then lit
2 runs differ, 2 places in 1 row'
answers 1 "$two" --upright first.list second.trace
answers 1 "$two" --upright first.trace second.list
answers 1 "$two" first.list second.list
answers 0 'the same, no place differs' --upright first.list first.trace
answers 0 'the same, no place differs; all are dark' dark.list dark.trace
answers 0 'the same, no place differs' --upright icon.trace icon.list
answers 1 'row 0, 0 to 3: dark, then lit
row 0, 128 to 131: dark, then lit
row 63, 5: dark, then lit
3 runs differ, 9 places in 2 rows' dark.trace <(printf 'frame 132 65\n0 0-3 128-131\n63 5-5\nend\n')
input=first.trace answers 1 "$two" --upright - second.list
input=second.trace answers 1 "$two" --upright first.list -
input=second.list answers 1 "$two" --upright first.trace -
input=first.list answers 0 'the same, no place differs' - first.list
# A trace of any length, part by part: 20 records of 65,535 bytes of 0 and then
# the two bytes; 20 * 65,535 places from column 0 on, 132 to a page, end at
# column 72 (hex 48).
{ bytes 01 00 01 00 AF
  for _ in {1..20}; do bytes FF FF 02 00; head -c 65535 /dev/zero; done; } > zeros.trace
{ cat zeros.trace; bytes 02 00 02 00 03 01; } > long.trace
answers 1 'row 0, 72 to 73: dark, then lit
row 1, 72: dark, then lit
2 runs differ, 3 places in 2 rows' --upright dark.list long.trace
# A listing longer than what is looked at first, of 2 * 65 * 66 places.
{ echo 'frame 132 65'
  for row in {0..64}; do
    printf '%d' "$row"
    for place in {0..130..2}; do printf ' %d-%d' "$place" "$place"; done
    printf '\n'
  done
  echo end; } > long.list
answers 0 'the same, no place differs' long.list long.list
run long.list lit.trace
check 'a long listing: its first run' line_is 1 'row 0, 1: dark, then lit'
check 'a long listing: its last run' line_is 4290 'row 64 (the icon line), 131: dark, then lit'
check 'a long listing: all of them' line_is 4291 '4290 runs differ, 4290 places in 65 rows'

# ---- an empty file ----

: > empty
run empty dark.list < /dev/null
check 'empty: a trace of no record, as for the other commands' status_is 0
check 'empty: said' err_is 'ssd1815b: empty is empty: a trace of no record'

# ---- after N records ----

bytes 01 00 01 00 AF 02 00 02 00 03 01 00 00 04 00 > reset.trace
answers 1 'row 0, 0 to 1: lit, then dark
row 1, 0: lit, then dark
2 runs differ, 3 places in 2 rows' --upright first.trace reset.trace
answers 0 'the same, no place differs' --after 2 first.trace reset.trace
answers 0 'the same, no place differs' --upright --after=2 first.list reset.trace
answers 0 'the same, no place differs; all are dark' --after 1 first.trace reset.trace
run --after 3 first.trace reset.trace
check 'after: more than there are, compared' status_is 1
check 'after: more than there are, by name' err_is 'ssd1815b: --after 3: first.trace has 2 records, and all of it is played'
run --after 2 first.list second.list
check 'after: two listings, status 2' status_is 2
check 'after: two listings, said' err_is 'ssd1815b: --after is for traces, and both are listings'
run --upright first.list second.list
check 'upright: two listings, status 2' status_is 2
check 'upright: two listings, said' err_is 'ssd1815b: --upright is for traces, and both are listings'
check 'upright: two listings, nothing compared' nothing_on out

# ---- refused runs ----

# All lit, and then B9.
bytes 03 00 01 00 A5 AF B9 > refused.trace
{ echo 'refused 4 at 6'; echo 'frame 132 65'; for row in {0..64}; do echo "$row 0-131"; done; echo end; } > refused.list
why='refused 4 at 6: B9 to BF name no page'
counts='  compared as it stands there; so the status is 2, and with --refused that of the comparison'
# refused_by ERR STATUS OUT ARGUMENTS...: status 2 with the words of ERR; with
# --refused the status and the last words of ERR are others.
refused_by() {
  local err=$1 expected=$2 out=$3
  shift 3
  run "$@"
  check "refused: status 2 ($*)" status_is 2
  check "refused: which, the number and the offset ($*)" err_is "$err"
  check "refused: compared as it stands ($*)" out_is "$out"
  run --refused "$@"
  check "refused, and asked for: status $expected ($*)" status_is "$expected"
  check "refused, and asked for: said all the same ($*)" err_is "${err//"$counts"/  compared as it stands there}"
  check "refused, and asked for: compared ($*)" out_is "$out"
}
refused_by "ssd1815b: refused.trace: $why
$counts" 0 'the same, no place differs' refused.trace lit.trace
refused_by "ssd1815b: refused.trace: $why
$counts" 0 'the same, no place differs' lit.trace refused.trace
refused_by "ssd1815b: refused.list: $why
$counts" 0 'the same, no place differs' refused.list lit.trace
refused_by "ssd1815b: refused.trace: $why
$counts
ssd1815b: refused.list: $why
$counts" 0 'the same, no place differs' refused.trace refused.list
refused_by "ssd1815b: refused.trace: $why
$counts" 1 "$every
row 64 (the icon line), 0 to 131: dark, then lit
65 runs differ, 8580 places in 65 rows" dark.trace refused.trace
refused_by "ssd1815b: refused.trace: $why
$counts" 0 'the same, no byte of memory differs' --memory refused.trace lit.trace
refused_by "ssd1815b: refused.trace: $why
$counts" 0 'refused.trace and lit.trace: the same, no place differs' -q refused.trace lit.trace
# What a file looks like that is neither.
printf '\x89PNG\r\n\x1A\n\0\0\0\rIHDR' > some.png
run some.png dark.list
check 'refused: a picture, status 2' status_is 2
check 'refused: a picture, said' err_has 'this looks like a PNG picture'
# With --after the refusal is not reached.
bytes 02 00 01 00 A5 AF 01 00 01 00 B9 > later.trace
answers 0 'the same, no place differs' --after 1 later.trace lit.trace

# ---- memories ----

answers 1 'page 0, column 0: 03, then 01
page 0, column 1: 01, then 03
2 bytes of memory differ, in 1 page' --memory first.trace second.trace
answers 0 'the same, no byte of memory differs' --memory first.trace first.trace
# Page 3, column 17 (hex 11), and page 8, column 131 (hex 83).
bytes 03 00 01 00 B3 01 11 01 00 02 00 3C 03 00 01 00 B8 03 18 01 00 02 00 FF > memory-1.trace
bytes 03 00 01 00 B3 01 11 01 00 02 00 18 03 00 01 00 B8 03 18 01 00 02 00 FE > memory-2.trace
answers 1 'page 3, column 17: 3C, then 18
page 8 (the icon line), column 131: 01, then 00
2 bytes of memory differ, in 2 pages' --memory memory-1.trace memory-2.trace
answers 0 'the same, no place differs; all are dark' memory-1.trace memory-2.trace
# The same memory under reverse is another screen.
bytes 02 00 01 00 AF A7 02 00 02 00 03 01 > reversed.trace
answers 0 'the same, no byte of memory differs' --memory first.trace reversed.trace
# Each row is one run, and two where it has lit places.
run -q first.trace reversed.trace
check 'memory: the same memory, another screen' out_is 'first.trace and reversed.trace: 67 runs differ, 8580 places in 65 rows'
answers 1 'page 0, column 1: 01, then 00
1 byte of memory differs, in 1 page' --memory first.trace <(bytes 01 00 02 00 03)
answers 0 'the same, no byte of memory differs' --memory --after 1 first.trace second.trace
for pair in 'first.list first.trace' 'first.trace first.list' 'first.list second.list'; do
  # shellcheck disable=SC2086  # two names
  run --memory $pair
  check "memory: a listing, status 2 ($pair)" status_is 2
  check "memory: a listing, said ($pair)" \
    err_is 'ssd1815b: first.list: a listing has no memory; --memory wants the trace that it was printed for'
  check "memory: a listing, nothing compared ($pair)" nothing_on out
done

# ---- drawn in letters ----

edge=$(printf '─%.0s' {1..132})
dots=$(printf '.%.0s' {1..130})
run --upright --show first.trace second.trace
check 'show: status 1' status_is 1
check 'show: 3 edges, 65 rows, the legend, two runs and their sum' [ "$(wc -l < out)" -eq 72 ]
check 'show: the upper edge' line_is 1 "┌$edge┐"
check 'show: row 0' line_is 2 "│##$dots│"
check 'show: row 1' line_is 3 "│-+$dots│"
check 'show: row 2' line_is 4 "│..$dots│"
check 'show: row 63' line_is 65 "│..$dots│"
check 'show: the edge before the icon line' line_is 66 "├$edge┤"
check 'show: the icon line' line_is 67 "│..$dots│"
check 'show: the lower edge' line_is 68 "└$edge┘"
check 'show: which letter is what' line_is 69 \
  '. dark in both, # lit in both, - lit in the first alone, + lit in the second alone'
check 'show: the runs' [ "$(tail -n 3 out)" = "$two" ]
run --upright --show icon.trace first.trace
check 'show: an icon of the first' line_is 67 "│-.$dots│"
check 'show: rows of the second' line_is 2 "│++$dots│"
run --upright --show first.list first.trace
check 'show: of two that are the same' line_is 3 "│#.$dots│"
check 'show: of two that are the same, status 0' status_is 0

# ---- pictures ----

# part FILE FIRST COUNT: so many bytes of a file in hex.
part() { tail -c +"$2" "$1" | head -c "$3" | od -An -tx1 -v | tr -d ' \n'; }
# white COUNT: so many white dots in hex.
white() { printf 'ffffff%.0s' $(seq "$1"); }

# A margin of 2 dots, 64 panel rows, a gap of 2, the icon line, the margin; the
# header is 14 bytes and a line 408.
run --upright --picture a.ppm --scale 1 first.trace second.trace
check 'PPM: status 1' status_is 1
check 'PPM: the lines too' out_is "$two"
check 'PPM: nothing on standard error' nothing_on err
check 'PPM: its form and size' [ "$(head -n 3 a.ppm)" = $'P6\n136 71\n255' ]
check 'PPM: 408 bytes to each of 71 lines' [ "$(wc -c < a.ppm)" -eq $((14 + 408 * 71)) ]
check 'PPM: two lines of margin' [ "$(part a.ppm 15 816)" = "$(white 272)" ]
check 'PPM: row 0: the margin, two places lit in both' \
  [ "$(part a.ppm $((15 + 2 * 408)) 408)" = "$(white 2)cccccccccccc$(white 132)" ]
check 'PPM: row 1: blue in the first alone, orange in the second' \
  [ "$(part a.ppm $((15 + 3 * 408)) 408)" = "$(white 2)0072b2e69f00$(white 132)" ]
check 'PPM: no other dot' [ "$(part a.ppm $((15 + 4 * 408)) $((67 * 408)))" = "$(white $((67 * 136)))" ]
run --upright --picture b.ppm --scale 1 dark.trace icon.trace
check 'PPM: the icon line, and nothing else' \
  [ "$(part b.ppm 15 $((71 * 408)))" = "$(white $((68 * 136 + 2)))e69f00$(white $((2 * 136 + 133)))" ]
run --upright --picture c.ppm --scale 3 first.trace second.trace
check 'PPM: each dot 3 by 3' [ "$(head -n 3 c.ppm)" = $'P6\n408 213\n255' ]
check 'PPM: 1,224 bytes to each of 213 lines' [ "$(wc -c < c.ppm)" -eq $((15 + 1224 * 213)) ]
check 'PPM: row 1, its last line: three dots each' \
  [ "$(part c.ppm $((16 + 11 * 1224)) 39)" = "$(white 6)0072b20072b20072b2e69f00e69f00e69f00ffffff" ]
run --picture=d.PPM first.trace second.trace
check 'PPM: 4 by 4 if nothing is said' [ "$(head -n 3 d.PPM)" = $'P6\n544 284\n255' ]
run -q --picture e.ppm --scale 1 first.list second.list
check 'PPM: with one line, and of listings' cmp -s a.ppm e.ppm
check 'PPM: the line' out_is 'first.list and second.list: 2 runs differ, 2 places in 1 row'
run --upright --picture f.ppm --scale 1 first.trace first.trace
check 'PPM: of two that are the same, status 0' status_is 0
check 'PPM: of two that are the same' [ "$(part f.ppm $((15 + 3 * 408)) 12)" = "$(white 2)ccccccffffff" ]

run --upright --picture none/a.ppm first.trace second.trace
check 'picture: no such folder, status 2' status_is 2
check 'picture: no such folder, said' err_is 'ssd1815b: cannot write none/a.ppm: No such file or directory'
check 'picture: no such folder, the lines all the same' out_is "$two"
run --picture g.ppm none.trace first.trace
check 'picture: no trace, no picture' [ ! -e g.ppm ]
cp first.trace kept.trace
for name in kept.trace kept.list a.pbm kept; do
  run --picture "$name" first.trace second.trace
  check "picture: $name is not written, status 2" status_is 2
  check "picture: $name is not written, said" \
    err_has "a picture's file is named FILE.png or FILE.ppm, not $name"
done
check 'picture: a trace is not written over' cmp -s first.trace kept.trace
if [ -e /dev/full ]; then
  ln -s /dev/full full.ppm
  run --picture full.ppm first.trace first.trace
  check 'picture: no room, status 2' status_is 2
  check 'picture: no room, said' err_is 'ssd1815b: cannot write full.ppm: No space left on device'
fi

# The dots of a PNG must be those of the PPM, by a reader of its own.
same_dots() {
  run --picture dots.ppm --scale "$1" first.trace icon.trace
  run --picture dots.png --scale "$1" first.trace icon.trace
  "$png" dots.png > read.ppm && cmp read.ppm dots.ppm
}
if "${tool[@]}" --version | grep -q 'and PNG'; then
  if command -v python3 > /dev/null; then
    check 'PNG: the dots of the PPM, 1 by 1' same_dots 1
    check 'PNG: the dots of the PPM, 5 by 5' same_dots 5
  else
    echo 'diff: PNG not read, as there is no python3'
  fi
  run --picture a.png first.trace second.trace
  check 'PNG: status 1' status_is 1
  check 'PNG: its first bytes' [ "$(part a.png 1 8)" = 89504e470d0a1a0a ]
  check 'PNG: nothing on standard error' nothing_on err
else
  echo 'diff: PNG not tested, as libstb-dev is missing'
fi
ran "${without[@]}" diff --upright --picture h.png --scale 1 first.trace second.trace
check 'without PNG: status 1' status_is 1
check 'without PNG: said' \
  err_is "ssd1815b: built without PNG (Debian's libstb-dev was missing): a PPM is written to h.png.ppm"
check 'without PNG: a PPM' cmp -s h.png.ppm a.ppm
check 'without PNG: no PNG that is none' [ ! -e h.png ]

# ---- listings that list does not print ----

# fault LINE WORDS TEXT: what is said of a text, whichever of the two it is.
fault() {
  printf '%b' "$3" > bad.list
  run bad.list first.trace
  check "listing: status 2 ($3)" status_is 2
  check "listing: nothing is compared ($3)" nothing_on out
  check "listing: $2 ($3)" [ "$(head -n 1 err)" = "ssd1815b: bad.list: line $1: $2" ]
  cp err said
  run first.list bad.list
  check "listing: the same as SECOND ($3)" cmp -s err said
  run - dark.list < bad.list
  check "listing: the same on standard input ($3)" [ "$(head -n 1 err)" = "ssd1815b: -: line $1: $2" ]
}
head='expected "frame 132 65" or "refused NUMBER at OFFSET"; found'
fault 1 "$head \"command AF\"" 'command AF\n'
check 'listing: what a text looks like' err_has 'this looks like text; if it is the source of a trace, traces/make.py'
fault 1 "$head \"frame 132 64\"" 'frame 132 64\nend\n'
check 'listing: nothing is said of what begins as one' [ "$(wc -l < err)" -eq 1 ]
fault 1 "$head \"frame  132 65\"" 'frame  132 65\nend\n'
fault 1 "$head \"Frame 132 65\"" 'Frame 132 65\nend\n'
fault 1 "$head \" frame 132 65\"" ' frame 132 65\nend\n'
fault 1 "$head the end of the line" '\nframe 132 65\nend\n'
fault 1 "$head \"end\"" 'end\n'
fault 1 "$head \"\\xEF\\xBB\\xBFframe 132 65\"" '\xEF\xBB\xBFframe 132 65\nend\n'
fault 1 "$head \"a line that is longer th\" and more" 'a line that is longer than is shown\n'
fault 1 'expected the end of the line; found " "' 'frame 132 65 \nend\n'
fault 1 'expected the end of the line; found "0"' 'frame 132 650\nend\n'
fault 1 'expected the end of the line; found the end of the file' 'frame 132 65'
fault 1 'expected the end of the line; found CR LF, and LF alone ends a line here' 'frame 132 65\r\nend\r\n'
fault 1 'expected a frame, which list prints of no trace above 65,536 bytes (diff takes the trace itself); found "input too long"' \
  'input too long\n'

for number in 11 12 13 14; do
  fault 1 "expected a number that a run answers, 3 to 10 or 15; found \"$number at 6\"" "refused $number at 6\nframe 132 65\nend\n"
done
fault 1 'expected a number from 3 to 15; found "16 at 6"' 'refused 16 at 6\nframe 132 65\nend\n'
fault 1 'expected a number from 3 to 15; found "2 at 6"' 'refused 2 at 6\nframe 132 65\nend\n'
fault 1 'expected a number from 3 to 15; found "0 at 6"' 'refused 0 at 6\nframe 132 65\nend\n'
fault 1 'expected a number from 3 to 15 with no 0 before it; found "04 at 6"' 'refused 04 at 6\nframe 132 65\nend\n'
fault 1 'expected a number from 3 to 15; found the end of the line' 'refused \nframe 132 65\nend\n'
fault 1 'expected at and an offset; found "  at 6"' 'refused 4  at 6\nframe 132 65\nend\n'
fault 1 'expected an offset from 0 to 65535; found "65536"' 'refused 4 at 65536\nframe 132 65\nend\n'
fault 1 'expected an offset from 0 to 65535; found "999999999999999999999999" and more' \
  'refused 4 at 9999999999999999999999999\nframe 132 65\nend\n'
fault 1 'expected an offset from 0 to 65535; found "-6"' 'refused 4 at -6\nframe 132 65\nend\n'
fault 1 'expected an offset from 0 to 65535 with no 0 before it; found "00"' 'refused 4 at 00\nframe 132 65\nend\n'
fault 1 'expected the end of the line; found " "' 'refused 4 at 6 \nframe 132 65\nend\n'
fault 1 'expected the end of the line; found CR LF, and LF alone ends a line here' 'refused 4 at 6\r\nframe 132 65\r\nend\r\n'
fault 2 'expected "frame 132 65"; found "end"' 'refused 4 at 6\nend\n'
fault 2 'expected "frame 132 65"; found "refused 4 at 6"' 'refused 4 at 6\nrefused 4 at 6\nframe 132 65\nend\n'
fault 2 'expected "frame 132 65"; found the end of the file' 'refused 4 at 6\n'

fault 2 'expected a row from 0 to 64, or end; found "65 0-1"' 'frame 132 65\n65 0-1\nend\n'
fault 3 'expected a row from 6 to 64, or end; found "5 0-1"' 'frame 132 65\n5 0-1\n5 0-1\nend\n'
fault 3 'expected a row from 6 to 64, or end; found "4 0-1"' 'frame 132 65\n5 0-1\n4 0-1\nend\n'
fault 4 'expected end; found "64 3-4"' 'frame 132 65\n5 0-1\n64 0-1\n64 3-4\nend\n'
fault 3 'expected end; found the end of the file' 'frame 132 65\n64 0-1\n'
fault 2 'expected a row from 0 to 64 with no 0 before it, or end; found "05 0-1"' 'frame 132 65\n05 0-1\nend\n'
fault 2 'expected a row from 0 to 64, or end; found " 5 0-1"' 'frame 132 65\n 5 0-1\nend\n'
fault 2 'expected a row from 0 to 64, or end; found the end of the line' 'frame 132 65\n\nend\n'
fault 2 'expected a row from 0 to 64, or end; found "END"' 'frame 132 65\nEND\n'
fault 3 'expected a row from 1 to 64, or end; found "input too long"' 'frame 132 65\n0 0-1\ninput too long\n'
fault 3 'expected a row from 1 to 64, or end; found "frame 132 65"' 'frame 132 65\n0 0-1\nframe 132 65\nend\n'
fault 3 'expected a row from 1 to 64, or end; found the end of the file' 'frame 132 65\n0 0-1\n'
fault 2 'expected a row from 0 to 64, or end; found the end of the file' 'frame 132 65\n'
fault 2 'expected a row from 0 to 64, or end; found "\x00\x07"' 'frame 132 65\n\x00\x07\nend\n'

fault 2 'expected a space and a run; found the end of the line' 'frame 132 65\n5\nend\n'
fault 2 'expected a space and a run; found "\x090-1"' 'frame 132 65\n5\t0-1\nend\n'
fault 2 'expected a space and a run; found ": 0-1"' 'frame 132 65\n5: 0-1\nend\n'
fault 2 "expected a run's first place from 0 to 131; found \" 0-1\"" 'frame 132 65\n5  0-1\nend\n'
fault 2 "expected a run's first place from 0 to 131; found \"132-132\"" 'frame 132 65\n5 132-132\nend\n'
fault 2 "expected a run's first place from 0 to 131 with no 0 before it; found \"00-1\"" 'frame 132 65\n5 00-1\nend\n'
fault 2 "expected a run's first place from 0 to 131; found the end of the line" 'frame 132 65\n5 \nend\n'
fault 2 "expected - and the run's last place; found the end of the line" 'frame 132 65\n5 7\nend\n'
fault 2 "expected - and the run's last place; found \" - 8\"" 'frame 132 65\n5 7 - 8\nend\n'
fault 2 "expected the run's last place from 7 to 131; found \"6\"" 'frame 132 65\n5 7-6\nend\n'
fault 2 "expected the run's last place from 7 to 131; found \"132\"" 'frame 132 65\n5 7-132\nend\n'
fault 2 "expected the run's last place from 7 to 131 with no 0 before it; found \"08\"" 'frame 132 65\n5 7-08\nend\n'
fault 2 "expected the run's last place from 7 to 131; found the end of the file" 'frame 132 65\n5 7-'
# Runs that touch, overlap or do not rise: list prints the longest.
apart="expected a run's first place from 3 to 131, apart from the run before; found"
fault 2 "$apart \"2-3\"" 'frame 132 65\n5 0-1 2-3\nend\n'
fault 2 "$apart \"1-3\"" 'frame 132 65\n5 0-1 1-3\nend\n'
fault 2 "$apart \"0-1\"" 'frame 132 65\n5 0-1 0-1\nend\n'
fault 2 "$apart \" 4-5\"" 'frame 132 65\n5 0-1  4-5\nend\n'
fault 2 "$apart the end of the line" 'frame 132 65\n5 0-1 \nend\n'
fault 2 'expected a space and a run, or the end of the line; found ",4-5"' 'frame 132 65\n5 0-1,4-5\nend\n'
fault 2 'expected a space and a run, or the end of the line; found the end of the file' 'frame 132 65\n5 0-1'
fault 2 'expected a space and a run, or the end of the line; found CR LF, and LF alone ends a line here' \
  'frame 132 65\n5 0-1\r\nend\r\n'
fault 2 'expected the end of the line; found " 131-131"' 'frame 132 65\n5 0-130 131-131\nend\n'

fault 3 'expected the end of the line; found the end of the file' 'frame 132 65\n5 0-1\nend'
fault 2 'expected the end of the line; found CR LF, and LF alone ends a line here' 'frame 132 65\nend\r\n'
fault 2 'expected the end of the line; found "s"' 'frame 132 65\nends\n'
fault 3 'expected nothing after end; found the end of the line' 'frame 132 65\nend\n\n'
fault 4 'expected nothing after end; found "end"' 'frame 132 65\n5 0-1\nend\nend\n'
fault 4 'expected nothing after end; found "\x00"' 'frame 132 65\n5 0-1\nend\n\x00'

# ---- what the README shows ----

# Of the screen rows 24 to 30, without the edge, as far as place 58.  The traces
# are those of an old cabinet.
errors=$traces/errors/version-3-recipe
run --upright --show "$errors-3E5.trace" "$errors-385.trace"
check 'README: status 1' status_is 1
{ sed -n '26,32s/^│//p' out | cut -c 1-59; sed -n '69,$p' out; } > shown
sed -n '/^####[.]/,/^```/p' "$readme" | sed '$d' > stands
check 'README: the screen and the runs' cmp -s shown stands
run --memory "$errors-3E5.trace" "$errors-385.trace"
sed -n '/^page 3, column 53/,/^```/p' "$readme" | sed '$d' > stands
check 'README: the memory' cmp -s out stands

# ---- command line and errors ----

"${tool[@]}" diff --help > help
for option in --memory --show '--picture FILE' '--scale N' '-q, --brief' --refused --upright '--after N'; do
  check "help: names $option" grep -q -- "^  $option  " help
done
wrong() {
  local words=$1
  shift
  run "$@" < /dev/null
  check "wrong: status 2 ($*)" status_is 2
  check "wrong: $words" [ "$(head -n 1 err)" = "ssd1815b: $words" ]
  check "wrong: nothing on standard output ($*)" nothing_on out
}
wrong 'diff compares two, each a trace or a listing: FIRST SECOND'
wrong 'diff compares two, each a trace or a listing: FIRST SECOND' first.trace
wrong 'diff compares two, and this is a third: dark.trace' first.trace second.trace dark.trace
wrong 'standard input cannot be both FIRST and SECOND' - -
wrong '--memory has no screen for --show' --memory --show first.trace second.trace
wrong '--memory has no screen for --picture' --memory --picture i.ppm first.trace second.trace
wrong '--brief is one line, and --show a screen' --show -q first.trace second.trace
wrong '--scale is for --picture' --scale 2 first.trace second.trace
wrong 'a scale is a number from 1 to 64, not 0' --picture i.ppm --scale 0 first.trace second.trace
wrong '--picture needs a file' first.trace second.trace --picture
wrong 'no value is taken by --brief' --brief=yes first.trace second.trace
wrong '--png is for picture alone' --png first.trace second.trace
wrong '-o is for picture alone' -o i.png first.trace second.trace
wrong 'no such option: --quiet' --quiet first.trace second.trace
wrong 'cannot open none: No such file or directory' none first.trace
wrong 'cannot open none: No such file or directory' first.trace none
wrong 'cannot read .: Is a directory' . first.trace
wrong 'cannot read .: Is a directory' first.list .
check 'wrong: no picture was written' [ ! -e i.ppm ]
for option in --memory --show --brief -q --refused --picture=i.ppm; do
  ran "${tool[@]}" show "$option" first.trace
  check "wrong: $option for show, status 2" status_is 2
  check "wrong: $option for show, said" err_is "ssd1815b: ${option%%=*} is for diff alone"
done
cp first.trace ./-q
answers 0 'the same, no place differs' --upright -- -q first.list
answers 1 'first.trace and second.trace: 2 runs differ, 2 places in 1 row' first.trace second.trace -q
if [ -e /dev/full ]; then
  status=0
  "${tool[@]}" diff first.trace first.trace > /dev/full 2> err || status=$?
  check 'output that fails: status 2' status_is 2
  check 'output that fails: said' err_has 'cannot write standard output'
fi

checks_end diff
