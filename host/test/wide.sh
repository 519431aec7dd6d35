#!/usr/bin/env bash
# Tests of the tool on traces of a wide terminal (--wide): two chips, what is
# selected, the frame of 264 places a row, differences half by half, the words of
# 13 and 14; and of the same traces without --wide.
#
#   wide.sh 'TOOL...' 'TOOL...'      the commands that run the tool as it was
#                                    built, and as it is without PNG
set -euo pipefail

read -ra tool <<< "$1"
read -ra without <<< "$2"
# shellcheck source=host/test/checks.sh
. "$(dirname "$0")/checks.sh"
traces=$(realpath "$(dirname "$0")/../../traces/wide")
readme=$(realpath "$(dirname "$0")/../README.md")
tool[-1]=$(realpath "${tool[-1]}")
without[-1]=$(realpath "${without[-1]}")
cd "$here"

run() { ran "${tool[@]}" "$@"; }

# Records: command bytes, data written, data read; a select record; the pin.
record() { bytes "$(printf '%02X' $(($# - 1)))" 00 "$1" 00 "${@:2}"; }
commands() { record 01 "$@"; }
writes() { record 02 "$@"; }
reads() { record 03 "$@"; }
selects() { record 05 "$1"; }
pin() { record 04; }

# answers STATUS OUT ARGUMENTS...: a status, all of standard output, and nothing
# on standard error.
answers() {
  local expected=$1 out=$2
  shift 2
  run "$@"
  check "status $expected ($*)" status_is "$expected"
  check "what is printed ($*)" out_is "$out"
  check "nothing on standard error ($*)" nothing_on err
}
# blank COUNT: so many spaces.
blank() { printf '%*s' "$1" ''; }

# Document 01's picture on the left, on the right, on both; and the left's alone
# moved to the middle, with a place of the right beside it.
{ selects 01; commands AF; writes 03 01; } > left.trace
{ selects 02; commands AF; writes 03 01; } > right.trace
{ commands AF; writes 03 01; } > both.trace
{ commands AF; selects 01; commands 03 18; writes 01; selects 02; writes 01 02; } > middle.trace
{ commands AF; writes 03 01; selects 02; commands B9; } > refused.trace

# ---- list ----

answers 0 $'frame 264 65\n0 0-1\n1 0-0\nend' list --wide --upright left.trace
answers 0 $'frame 264 65\n0 132-133\n1 132-132\nend' list --wide --upright right.trace
answers 0 $'frame 264 65\n0 0-1 132-133\n1 0-0 132-132\nend' list --wide --upright both.trace
answers 0 $'frame 264 65\n0 131-132\n1 133-133\nend' list --wide --upright middle.trace
answers 0 $'frame 264 65\n0 0-1 132-133\n1 0-0 132-132\nend' list --upright --wide both.trace
# Each half is turned by itself.
answers 0 $'frame 264 65\n62 131-131\n63 130-131\nend' list --wide left.trace
answers 0 $'frame 264 65\n62 262-262\n63 0-0 263-263\nend' list --wide middle.trace
# And by what its own chip was sent: a reset record for the left leaves the right turned.
answers 0 $'frame 264 65\n0 0-1\n1 0-0\n62 263-263\n63 262-263\nend' \
  list --wide <(cat both.trace; selects 01; pin; commands AF)
answers 0 $'frame 264 65\nend' list --wide /dev/null
answers 0 $'frame 264 65\n0 0-0\nend' list --wide --upright --after 4 <(commands AF; selects 01; writes 01; selects 02; writes 01)
run list --wide --upright --after 9 left.trace
check 'list: fewer records than --after' err_is 'ssd1815b: --after 9: the trace has 3 records, and all of it is played'
run list --wide --upright refused.trace
check 'list: refused, status 1' status_is 1
check 'list: refused, the first line' line_is 1 'refused 4 at 20'
check 'list: refused, the frame' line_is 2 'frame 264 65'
check 'list: refused, as it stands' line_is 3 '0 0-1 132-133'
# 16,383 records without bytes are 65,532 bytes.
for _ in {1..16383}; do printf '\0\0\1\0'; done > full
answers 0 $'frame 264 65\nend' list --wide <(cat full; commands)
run list --wide <(cat full; commands; printf '\0')
check 'list: too long, status 2' status_is 2
check 'list: too long, said' out_is 'input too long'

# ---- every command takes it, and no value ----

for command in list show state memory check; do
  run "$command" --wide both.trace
  check "$command: --wide" status_is 0
  run "$command" --wide=yes both.trace
  check "$command: --wide takes no value" err_has 'no value is taken by --wide'
done
run --wide list both.trace
check 'before the command: status 2' status_is 2
check 'before the command: said' err_has 'the command stands before its options, and first is --wide'
for command in list show picture state memory diff check; do
  run "$command" --help
  check "$command: the help names it" grep -q -- '^  --wide ' out
done
# The last record is a select record, which changes nothing that is seen.
answers 0 $'frame 264 65\n0 0-1 132-133\n1 0-0 132-132\nend' list --wide --upright <(cat both.trace; selects 02)
# One is selected, and the reset pin keeps that: AF and 0F are the left's alone.
answers 0 $'frame 264 65\n0 0-1 132-133\n1 0-0 132-132\n2 0-0\n3 0-0\nend' \
  list --wide --upright <(cat both.trace; selects 01; pin; commands AF; writes 0F)

# ---- show ----

run show --wide --upright middle.trace
check 'show: status 0' status_is 0
check 'show: 32 lines of panel rows, 1 of icons, 3 edges' [ "$(wc -l < out)" -eq 36 ]
check 'show: the upper edge' line_is 1 "┌$(printf '─%.0s' {1..264})┐"
check 'show: rows 0 and 1 over the middle' line_is 2 "│$(blank 131)▀▀▄$(blank 130)│"
check 'show: nothing below' line_is 3 "│$(blank 264)│"
check 'show: the icon line' line_is 35 "│$(blank 264)│"
run show --wide middle.trace
check 'show: upside down, rows 62 and 63' line_is 33 "│▄$(blank 261)▀▄│"
run show --wide --upright <(commands AF B8; selects 01; commands 03 18; writes 01; selects 02; writes 01)
check 'show: icons beside the middle' line_is 35 "│$(blank 131)▀▀$(blank 131)│"

# Why a half is dark, by itself.
run show --wide --upright left.trace
check 'dark: the right has no event' line_is 37 'right half, all dark: no event was taken: no record that was played has any for this chip'
check 'dark: no more' [ "$(wc -l < out)" -eq 37 ]
run show --wide <(selects 01; commands AF; selects 02; commands A5)
check 'dark: the left' line_is 37 'left half, all dark: the display is on, but all of memory is 0'
check 'dark: the right' line_is 38 'right half, all dark: sleep: display off, entire on, indicator off; A4 and AF show memory'
run show --wide <(selects 02; commands AE)
check 'dark: not the other chip that had it' line_is 37 'left half, all dark: no event was taken: no record that was played has any for this chip'
check 'dark: off' line_is 38 'right half, all dark: the display is off; AF turns it on'
run show --wide <(selects 02; pin)
check 'dark: the reset pin is an event of the one' line_is 38 'right half, all dark: the display is off; AF turns it on'
run show --wide --after 2 <(selects 01; commands AF; selects 02; commands A5)
check 'dark: the right has its first event later' line_is 38 'right half, all dark: no event was taken: no record that was played has any for this chip'
run show --wide /dev/null
check 'dark: no record' line_is 38 'right half, all dark: no event was taken: there was no record to play'
run show --wide <(commands B9)
check 'dark: none before it stopped' line_is 37 'left half, all dark: no event was taken before the run stopped'

# ---- picture ----

# part FIRST COUNT: bytes of what was kept, in hex.
part() { tail -c +"$1" out | head -c "$2" | od -An -tx1 -v | tr -d ' \n'; }
zeros() { printf '%0*d' "$1" 0; }
run picture --wide --upright --scale 1 both.trace
check 'PBM: its size' [ "$(head -n 2 out)" = $'P4\n268 71' ]
check 'PBM: 34 bytes to each of 71 lines' [ "$(wc -c < out)" -eq $((10 + 34 * 71)) ]
check 'PBM: two lines of margin' [ "$(part 11 68)" = "$(zeros 136)" ]
# Places 0 and 1 are the dots 2 and 3, 132 and 133 the dots 134 and 135.
check 'PBM: row 0' [ "$(part 79 34)" = "30$(zeros 30)03$(zeros 34)" ]
check 'PBM: row 1' [ "$(part 113 34)" = "20$(zeros 30)02$(zeros 34)" ]
run picture --wide --scale 1 <(commands A5 AF)
lit=3$(printf 'f%.0s' {1..65})c0
check 'PBM: all lit, the last panel row, the gap, the icons; the last four bits are 0' \
  [ "$(part $((11 + 65 * 34)) 136)" = "$lit$(zeros 136)$lit" ]
run picture --wide --scale 3 both.trace
check 'PBM: each dot 3 by 3, 101 bytes to each of 213 lines' [ "$(wc -c < out)" -eq $((11 + 101 * 213)) ]
check 'PBM: each dot 3 by 3, its size' [ "$(head -n 2 out)" = $'P4\n804 213' ]
run picture --wide -o wide.pbm both.trace
check 'PBM: to a file' [ "$(head -n 2 wide.pbm)" = $'P4\n1072 284' ]
if "${tool[@]}" --version | grep -q 'and PNG'; then
  run picture --wide --scale 1 -o wide.png both.trace
  check 'PNG: its size' [ "$(tail -c +17 wide.png | head -c 8 | od -An -tx1 | tr -d ' \n')" = 0000010c00000047 ]
else
  echo 'wide: PNG not tested, as libstb-dev is missing'
fi
ran "${without[@]}" picture --wide --scale 1 -o other.png both.trace
check 'without PNG: a PBM of the same size' [ "$(head -n 2 other.png.pbm)" = $'P4\n268 71' ]

# ---- state ----

run state --wide --upright <(commands 81 05; selects 01; commands A1 B3; selects 02; commands A8 0F D3 02; writes FF)
check 'state: which is which' line_is 1 "$(blank 19)left$(blank 28)right"
check 'state: page' out_has "page               3$(blank 31)0"
check 'state: column' out_has "column             0$(blank 31)1"
check 'state: contrast of both' out_has "contrast           5$(blank 31)5"
check 'state: multiplex of the right' out_has "multiplex          63, 64 rows in use$(blank 14)15, 16 rows in use"
check 'state: column direction of the left' out_has "column direction   1, mirrored$(blank 21)0, normal"
check 'state: rows in use' out_has "rows in use        panel rows 0 to 63$(blank 14)panel rows 22 to 37"
check 'state: power save' out_has "power save         no$(blank 30)no"
check 'state: the image of the left' out_has 'image of the left  030000003F050400000000000100000000000000000001'
check 'state: the image of the right' out_has 'image of the right 000100020F050400000000000000000000000000000001'
check 'state: what is selected' out_has 'selected           right'
check 'state: the start' out_has 'start              upright, as an old cabinet hangs the module'
check 'state: the run' out_has 'run                taken, number 0 at 35, whole records 6'
# selected WORD: what is selected after mine.trace.
selected() {
  run state --wide mine.trace
  check "state: selected $1" out_has "selected           $1"
}
: > mine.trace; selected both
selects 01 > mine.trace; selected left
{ selects 01; pin; } > mine.trace; selected left
{ selects 01; selects 03; } > mine.trace; selected both
{ selects 02; commands B9; selects 01; } > mine.trace; selected right
{ selects 02; record 05 04; } > mine.trace; selected right
{ selects 02; selects 01; bytes 00; } > mine.trace; selected left
run state --wide --after 1 <(selects 02; selects 01)
check 'state: selected after one record' out_has 'selected           right'

# ---- memory ----

run memory --wide <(writes 11; selects 02; writes 22; selects 01; reads 00 00; selects 02; reads 00 00)
check 'memory: status 0' status_is 0
check 'memory: the left' line_is 1 'left chip, memory in hex; before each line its first column'
check 'memory: of the left' line_is 3 '    0  11 00 00 00 00 00 00 00 00 00 00 00 00 00 00 00'
check 'memory: the right after it' line_is 92 'right chip, memory in hex; before each line its first column'
check 'memory: of the right' line_is 94 '    0  11 22 00 00 00 00 00 00 00 00 00 00 00 00 00 00'
check 'memory: the reads' [ "$(tail -n 6 out)" = 'bytes read, the model'\''s beside the recorded
    offset     record   chip  page  column  model  recorded
        24          4   left     0       1  dummy  00
        25          4   left     0       1  00     00
        35          6  right     0       2  dummy  00
        36          6  right     0       2  00     00' ]
run memory --wide <(writes 11; selects 02; commands 00 10; reads 00 55)
check 'memory: a read that differs, of which chip' \
  out_has '        21          3  right     0       0  11     55 differs, and has not happened'

# ---- check ----

answers 1 'left.trace: taken, 3 records
mine.trace: refused 8 at 10: one to three bytes left where a header should stand, or payload past the end' \
  check --wide left.trace mine.trace
run check --wide left.trace refused.trace mine.trace
check 'check: refused for a chip, status 1' status_is 1
check 'check: refused for a chip, a line for each all the same' out_is 'left.trace: taken, 3 records
refused.trace: refused 4 at 20: B9 to BF name no page
mine.trace: refused 8 at 10: one to three bytes left where a header should stand, or payload past the end'
# Records of 5, 6 and 5 bytes, the third of which selects.
check 'check: what was selected, by name' err_is 'ssd1815b: refused.trace:
  selected: right, since 11 (0xB) in record 2'
record 06 > six.trace
answers 1 'six.trace: refused 9 at 0: kind not 1 to 5, or kind 4 with a payload' check --wide six.trace

# ---- what is said of a refusal ----

# says LINE: a line, whole, of what list says on standard error of mine.trace.
says() {
  run list --wide < mine.trace
  check "refused: status 1 ($1)" status_is 1
  check "refused: $1" grep -qxF -- "$1" err
}
record 05 04 > mine.trace
says "refused 13 at 0 (0x0): a select record's payload is not one byte of 1 to 3"
says '  the payload is 04; 01 selects left, 02 right, 03 both'
says '  record 0, its header; records and bytes count from 0'
{ commands AF; record 05 01 02; } > mine.trace
says "refused 13 at 5 (0x5): a select record's payload is not one byte of 1 to 3"
says '  the header says 2 bytes of payload; a select record has one, 01 for left, 02 for right, 03 for both'
says '  in hex, from byte 5 (0x5) on: [02] 00 05 00 01 02'
record 05 > mine.trace
says '  the header says 0 bytes of payload; a select record has one, 01 for left, 02 for right, 03 for both'
reads 00 > mine.trace
says 'refused 14 at 4 (0x4): a data read with both chips selected'
says '  selected: both, as every run begins'
says '  a read is from one chip: a select record before it names the left (01) or the right (02)'
says '  no record selected anything before: if this is the trace of one chip, it is played without --wide'
{ selects 01; reads 00; selects 03; reads 55; } > mine.trace
says 'refused 14 at 19 (0x13): a data read with both chips selected'
says '  selected: both, since 10 (0xA) in record 2'
check 'refused: of a trace that selects, no word of one chip' [ "$(grep -c 'without --wide' err)" -eq 0 ]
says '  record 3, data read, payload of 1 byte from 19, its byte 0 is 55 (hex); records and bytes count from 0'
# 8 goes before 13, and 14 before 6.
bytes 02 00 05 00 01 > mine.trace
says 'refused 8 at 0 (0x0): one to three bytes left where a header should stand, or payload past the end'
{ commands 81; reads 00; } > mine.trace
says 'refused 14 at 9 (0x9): a data read with both chips selected'
record 06 > mine.trace
says 'refused 9 at 0 (0x0): kind not 1 to 5, or kind 4 with a payload'

# Which of the two refuses.
{ selects 02; commands 81; selects 03; writes FF; } > mine.trace
says '  selected: both, since 10 (0xA) in record 2'
says '  refused by the right chip alone, and so neither changes'
says '  awaited is the n of 81 (contrast), a command byte, since 9 (0x9) in record 1'
# The right's column was above 131 later, and is not any more.
{ selects 01; commands 0F 18; selects 02; commands 0F 18 00 10; selects 03; writes FF; } > mine.trace
says '  refused by the left chip alone, and so neither changes'
says '  the column is 143, above 131 since 10 (0xA) in record 1: 18 (high four bits of the column) made it 143 from 15'
commands B9 > mine.trace
says '  refused by both chips'
# A byte of test mode: to both, and to the one that awaits no code.
commands F4 > mine.trace
says 'refused 15 at 4 (0x4): a command byte of test mode, with no code awaited'
says '  refused by both chips'
says '  F4 would put a real chip into test mode'
{ selects 01; commands 81; selects 03; commands F4; } > mine.trace
says '  refused by the right chip alone, and so neither changes'
says '  F4 would put a real chip into test mode'
{ selects 01; commands D3; selects 03; commands F4; } > mine.trace
says '  refused by both chips, by the left with 5, which is the number, and by the right with 15'
says '  to the right, F4 would put a real chip into test mode'
{ selects 02; commands D3; selects 03; commands F4; } > mine.trace
says '  refused by both chips, by the left with 15, which is the number, and by the right with 5'
# Each for a reason of its own, and the left's is told.
{ selects 01; commands 81; selects 02; commands D3; selects 03; writes 55; } > mine.trace
says 'refused 6 at 29 (0x1D): a data write or read while a code is awaited'
says '  refused by both chips; what follows is of the left'
says '  awaited is the n of 81 (contrast), a command byte, since 9 (0x9) in record 1'
{ selects 01; commands D3; selects 02; commands D4; selects 03; commands FF; } > mine.trace
says 'refused 5 at 29 (0x1D): n of D3 or D4 not allowed; the code stays awaited'
says '  refused by both chips; what follows is of the left'
says '  D3 (offset) takes 00 to 3F, got FF'
{ commands 0F 18; selects 01; commands 04; selects 03; writes 55; } > mine.trace
says 'refused 7 at 25 (0x19): a data write or read with column above 131'
says '  refused by both chips; what follows is of the left'
{ selects 01; commands D3; selects 03; commands B9; } > mine.trace
says 'refused 5 at 19 (0x13): n of D3 or D4 not allowed; the code stays awaited'
says '  refused by both chips, by the left with 5, which is the number, and by the right with 4'
says '  D3 (offset) takes 00 to 3F, got B9'
{ selects 02; commands B9; } > mine.trace
says '  selected: right, since 0 (0x0) in record 0'
check 'refused: one alone is selected, no more of it' [ "$(grep -c 'refused by' err)" -eq 0 ]
# The code that the left awaits is not the one that the right was given later.
{ commands 81; selects 02; commands 05; commands AD; selects 01; writes 00; } > mine.trace
says '  awaited is the n of 81 (contrast), a command byte, since 4 (0x4) in record 0'
{ writes 11 22; selects 01; commands 00 10; writes 33; commands 00 10; reads 00 22; } > mine.trace
says '  recorded is 22, the model reads 33 (hex), at page 0, column 0'

# ---- what check and diff say of the chips there ----

# told NUMBER OFFSET LINE...: of mine.trace they say these lines on standard error
# and nothing else of it; show, state and memory have the first of them too.
told() {
  local lines heading="mine.trace: refused $1 at $2: "
  lines=$(printf '%s\n' "${@:3}")
  run check --wide mine.trace
  check "check: status 1 (${*:3})" status_is 1
  check "check: one line (${*:3})" [ "$(grep -c "^$heading" out)-$(wc -l < out)" = 1-1 ]
  check "check: ${*:3}" err_is "ssd1815b: mine.trace:
$lines"
  # As the first, and as the second after one that is taken.
  for names in 'mine.trace left.trace' 'left.trace mine.trace'; do
    read -ra two <<< "$names"
    run diff --wide --refused "${two[@]}"
    check "diff: which ($names, ${*:3})" [ "$(grep -c "^ssd1815b: $heading" err)" -eq 1 ]
    check "diff: $names, ${*:3}" [ "$(tail -n +2 err)" = "$lines"$'\n  compared as it stands there' ]
  done
  for command in show state memory; do
    run "$command" --wide mine.trace
    check "$command: the same ($3)" out_has "$3"
  done
}
# The reset pin keeps the selection.
{ selects 01; pin; commands B9; } > mine.trace
told 4 13 '  selected: left, since 0 (0x0) in record 0'
commands B9 > mine.trace
told 4 4 '  selected: both, as every run begins' '  refused by both chips'
{ selects 02; commands 81; selects 03; writes FF; } > mine.trace
told 6 19 '  selected: both, since 10 (0xA) in record 2' '  refused by the right chip alone, and so neither changes'
{ selects 01; commands 0F 18; selects 03; writes FF; } > mine.trace
told 7 20 '  selected: both, since 11 (0xB) in record 2' '  refused by the left chip alone, and so neither changes'
{ selects 01; commands D3; selects 03; commands B9; } > mine.trace
told 5 19 '  selected: both, since 10 (0xA) in record 2' \
  '  refused by both chips, by the left with 5, which is the number, and by the right with 4'
# Nothing of the left follows here, and so nothing is said of that.
{ selects 01; commands 81; selects 02; commands D3; selects 03; writes 55; } > mine.trace
told 6 29 '  selected: both, since 20 (0x14) in record 4' '  refused by both chips'
# A read with both selected is asked of neither.
reads 00 > mine.trace
told 14 4 '  selected: both, as every run begins'
{ selects 01; reads 00; selects 03; reads 55; } > mine.trace
told 14 19 '  selected: both, since 10 (0xA) in record 2'
{ selects 02; reads 00 07; } > mine.trace
told 10 10 '  selected: right, since 0 (0x0) in record 0'
# In a later part of what is read: 5 bytes, 20 records of 65,539, 5 bytes.
{ selects 02; for _ in {1..20}; do bytes FF FF 02 00; head -c 65535 /dev/zero; done; selects 01; commands 30; } > mine.trace
told 3 1310794 '  selected: left, since 1310785 (0x140041) in record 21'
# Of a header no chip is asked.
for header in 'bytes 01 00 01' 'record 06' 'selects 04' 'record 04 00'; do
  { selects 02; $header; } > mine.trace
  run check --wide mine.trace
  check "check: status 1 ($header)" status_is 1
  check "check: no chip ($header)" nothing_on err
  run diff --wide mine.trace left.trace
  check "diff: no chip ($header)" [ "$(grep -cE 'selected:|refused by' err)" -eq 0 ]
done
# Both of the two, and those records alone that are played.
run diff --wide --refused --upright refused.trace <(commands AF; writes 03 01; commands 81; selects 01; writes 00)
check 'diff: both are refused, the same screens' status_is 0
check 'diff: both are refused, the lines of each' [ "$(sed -E 's/^ssd1815b: [^:]*:/-:/' err)" = \
'-: refused 4 at 20: B9 to BF name no page
  selected: right, since 11 (0xB) in record 2
  compared as it stands there
-: refused 6 at 25: a data write or read while a code is awaited
  selected: left, since 16 (0x10) in record 3
  compared as it stands there' ]
run diff --wide --after 3 refused.trace both.trace
check 'diff: not refused in these records, nothing of the chips' [ "$(grep -cE 'selected:|refused by' err)" -eq 0 ]
# One chip is not one of two.
run check <(commands B9)
check 'narrow: check, of no chip' nothing_on err
run diff --refused <(commands B9) both.trace
check 'narrow: diff, of no chip' [ "$(grep -cE 'selected:|refused by' err)" -eq 0 ]

# ---- without --wide ----

hint='kind 5 selects a chip of a wide terminal: --wide plays such a trace'
run list left.trace
check 'narrow: a select record is refused' status_is 1
check 'narrow: by 9' line_is 1 'refused 9 at 0'
check 'narrow: the meaning' grep -qxF 'refused 9 at 0 (0x0): kind not 1 to 4, or kind 4 with a payload' err
check 'narrow: list says how' grep -qxF "  $hint" err
check 'narrow: nothing of what is no trace' [ "$(grep -c 'looks like' err)" -eq 0 ]
run show middle.trace
check 'narrow: show says how' out_has "  $hint"
# err_line WHAT LINE: a line, whole, on standard error.
err_line() { check "narrow: $1" grep -qxF -- "$2" err; }
run check left.trace both.trace
check 'narrow: check, status 1' status_is 1
check 'narrow: check prints what it did' out_is 'left.trace: refused 9 at 0: kind not 1 to 4, or kind 4 with a payload
both.trace: taken, 2 records'
err_line 'check says how' "ssd1815b: left.trace: $hint"
run diff left.trace both.trace
err_line 'diff says how' "  $hint"
run list --wide left.trace
check 'wide: no hint' nothing_on err
run list <(record 06)
check 'narrow: no hint for kind 6' [ "$(grep -c -- --wide err)" -eq 0 ]
run list <(bytes 00 00 05 01)
check 'narrow: no hint for kind 261' [ "$(grep -c -- --wide err)" -eq 0 ]
answers 0 $'frame 132 65\n0 0-1\n1 0-0\nend' list --upright both.trace

# ---- diff ----

answers 1 'left half, row 0, 131: lit, then dark
left half: 1 run differs, 1 place in 1 row
right half, row 0, 1: dark, then lit
right half, row 1, 0: dark, then lit
right half, row 1, 1: lit, then dark
right half: 3 runs differ, 3 places in 2 rows' diff --wide --upright middle.trace right.trace
answers 1 'left half, row 0, 0 to 1: dark, then lit
left half, row 1, 0: dark, then lit
left half: 2 runs differ, 3 places in 2 rows
right half: the same, no place differs' diff --wide --upright right.trace both.trace
answers 1 'right.trace and both.trace: left half: 2 runs differ, 3 places in 2 rows; right half: the same, no place differs' \
  diff -q --wide --upright right.trace both.trace
answers 0 'left half: the same, no place differs
right half: the same, no place differs; all are dark' diff --wide left.trace left.trace
answers 1 'left chip: the same, no byte of memory differs
right chip, page 0, column 0: 03, then 00
right chip, page 0, column 1: 01, then 00
right chip: 2 bytes of memory differ, in 1 page' diff --wide --memory both.trace left.trace
answers 1 'both.trace and left.trace: left chip: the same, no byte of memory differs; right chip: 2 bytes of memory differ, in 1 page' \
  diff --wide --memory --brief both.trace left.trace
run diff --wide --show --upright middle.trace right.trace
check 'diff: a wide screen, rows 0 and 1' line_is 2 "│$(printf '.%.0s' {1..131})-#+$(printf '.%.0s' {1..130})│"
check 'diff: row 1' line_is 3 "│$(printf '.%.0s' {1..132})+-$(printf '.%.0s' {1..130})│"
run diff --wide --upright --scale 1 --picture differ.ppm middle.trace right.trace
check 'diff: the picture' [ "$(head -n 2 differ.ppm)" = $'P6\n268 71' ]
# Dots 133, 134 and 135 of line 2: blue, gray, orange.
check 'diff: its colours over the middle' \
  [ "$(tail -c +$((15 + 3 * (2 * 268 + 133))) differ.ppm | head -c 9 | od -An -tx1 | tr -d ' \n')" = 0072b2cccccce69f00 ]
run diff --wide both.trace refused.trace
check 'diff: refused is trouble' status_is 2
check 'diff: refused, said' err_has 'refused.trace: refused 4 at 20: B9 to BF name no page'

# Listings.
for name in left both refused; do
  "${tool[@]}" list --wide --upright "$name.trace" > "$name.list" 2> err || true
done
"${tool[@]}" list --upright both.trace > narrow.list
answers 0 'left half: the same, no place differs
right half: the same, no place differs' diff --wide --upright both.list both.trace
answers 1 'left half: the same, no place differs
right half, row 0, 0 to 1: dark, then lit
right half, row 1, 0: dark, then lit
right half: 2 runs differ, 3 places in 2 rows' diff --wide left.list both.list
run diff --wide --refused refused.list both.list
check 'listing: refused, compared' status_is 0
check 'listing: refused, said, and no chip, which it has not' err_is 'ssd1815b: refused.list: refused 4 at 20: B9 to BF name no page
  compared as it stands there'
run diff both.list both.trace
check 'listing: wide without --wide, status 2' status_is 2
check 'listing: wide without --wide, said' \
  err_is 'ssd1815b: both.list: the listing of a wide terminal, 264 wide: --wide compares such screens'
check 'listing: wide without --wide, nothing compared' nothing_on out
run diff refused.list narrow.list
check 'listing: refused and wide without --wide' err_has 'refused.list: the listing of a wide terminal'
run diff --wide both.trace narrow.list
check 'listing: narrow with --wide, status 2' status_is 2
check 'listing: narrow with --wide, said' \
  err_is 'ssd1815b: narrow.list: the listing of one chip, 132 wide, and --wide compares screens 264 wide'
run diff --wide --memory both.list both.trace
check 'listing: no memory' err_has 'both.list: a listing has no memory'
# bad LINE WORDS TEXT: what is said of a text that is no wide listing.
bad() {
  printf '%b' "$3" > bad.list
  run diff --wide bad.list both.list
  check "listing: status 2 ($3)" status_is 2
  check "listing: $2 ($3)" err_has "ssd1815b: bad.list: line $1: $2"
}
bad 1 'expected "frame 264 65" or "refused NUMBER at OFFSET"; found "frame 265 65"' 'frame 265 65\nend\n'
bad 2 "expected the run's last place from 263 to 263; found \"264\"" 'frame 264 65\n0 263-264\nend\n'
bad 2 'expected a row from 0 to 64, or end; found "65 0-0"' 'frame 264 65\n65 0-0\nend\n'
bad 2 "expected a run's first place from 133 to 263, apart from the run before; found \"132-132\"" 'frame 264 65\n0 131-131 132-132\nend\n'
bad 1 'expected a number that a run answers, 3 to 10 or 13 to 15; found "11 at 0"' 'refused 11 at 0\nframe 264 65\nend\n'
bad 1 'expected a number that a run answers, 3 to 10 or 13 to 15; found "12 at 0"' 'refused 12 at 0\nframe 264 65\nend\n'
bad 1 'expected a number from 3 to 15; found "16 at 0"' 'refused 16 at 0\nframe 264 65\nend\n'
bad 1 'expected a number that a run answers, 3 to 10 or 15; found "13 at 0"' 'refused 13 at 0\nframe 132 65\nend\n'
bad 2 'expected "frame 264 65"; found "end"' 'refused 13 at 0\nend\n'
for number in 3 10 13 14 15; do
  printf 'refused %s at 7\nframe 264 65\nend\n' "$number" > good.list
  run diff --wide --refused good.list good.list
  check "listing: refused $number" status_is 0
  check "listing: refused $number, said" err_has "good.list: refused $number at 7: "
done
# The longest listing: 66 places of each half of a row, every second one.  Of
# both.list row 0 is lit at the first two of a half, so that one place is the same
# and one more differs, and row 1 at the first: 66 + 65 + 63 times 66.
{ echo 'frame 264 65'; for row in {0..64}; do echo "$row $(seq -s ' ' 0 2 263 | sed -E 's/[0-9]+/&-&/g')"; done; echo end; } > longest.list
run diff --wide -q longest.list both.list
check 'listing: the longest' status_is 1
check 'listing: the longest, each of its runs' \
  out_is 'longest.list and both.list: left half: 4289 runs differ, 4289 places in 65 rows; right half: 4289 runs differ, 4289 places in 65 rows'
# Of every stored trace the listing and the screen are the same.
for trace in "$traces"/*.trace; do
  for start in upright ''; do
    list=${trace%.trace}${start:+.$start}.list
    if [ -e "$list" ]; then
      run diff --wide --refused ${start:+--$start} "$list" "$trace"
      check "stored: ${list##*/} and its trace" status_is 0
    fi
  done
done
run list --wide both.list
check 'looks: a wide listing is no trace' err_has 'this looks like a listing, as list --wide prints it, which diff --wide alone takes'
run list --wide <(bytes 00 00 09 09)
check 'looks: kinds 1 to 5' err_has 'a record begins with the length of its payload and its kind, 1 to 5,'
run list --wide <(bytes 00 01 00 05 01)
check 'looks: the higher byte first' err_has 'a trace whose numbers have their higher byte first'
# Of a wide trace that is played without --wide the first header is one, too.
run list <(bytes 00 01 00 05 01)
check 'looks: the higher byte first, without --wide' err_has 'a trace whose numbers have their higher byte first'
run list <(bytes 01 00 05 00)
check 'looks: cut in a select record, without --wide' line_is 1 'refused 8 at 0'
check 'looks: a select record is one of a trace' [ "$(grep -c 'looks like' err)" -eq 0 ]

# ---- what host/README.md shows ----

# shown FIRST_LINE: the lines of the README from this one to the end of its block.
shown() { awk -v first="$1" '$0 == first { on = 1 } on && /^```/ { exit } on' "$readme"; }
run show --wide --upright "$traces/weighing.trace"
# Columns 81 to 139 of rows 24 to 31, after the edge.
check 'README: the text over the middle' \
  [ "$(shown '█▀▀▀▄ █▀▀▀▀ ▄▀▀▀▄  ▀█▀  █▀▀▀▄ █▀▀▀▀       ▀▀▀█▀ █▀▀▀▀ █▀▀▀▀')" \
    = "$(sed -n 14,17p out | LC_ALL=C.UTF-8 sed -E 's/^.{82}(.{59}).*/\1/; s/ +$//')" ]
run list --wide "$traces/6-by-right-alone.trace"
check 'README: which chip refused' [ "$(shown "$(head -n 1 err)")" = "$(head -n 4 err)" ]
run diff --wide --upright "$traces/both-at-once.trace" "$traces/left-alone.trace"
check 'README: half by half' [ "$(shown "$(head -n 1 out)")" = "$(cat out)" ]

# ---- longer than what is played at once ----

# 20 records of 65,535 data bytes are 1,310,780 bytes, and 1,048,576 are a part.
# 20 times 65,535 modulo 132 is 72.
long() { for _ in {1..20}; do bytes FF FF 02 00; head -c 65535 /dev/zero; done; }
run state --wide <(selects 01; long; commands B3)
check 'parts: taken' out_has 'run                taken, number 0 at 1310790, whole records 22'
check 'parts: the left has all of it' out_has "column             72$(blank 30)0"
check 'parts: the left alone goes on' out_has "page               3$(blank 31)0"
check 'parts: still selected' out_has 'selected           left'
run state --wide <(selects 02; long; selects 01; commands 07; selects 03; commands B2; selects 02; commands B9)
check 'parts: select records in a later part' out_has "column             7$(blank 31)72"
check 'parts: both again' out_has "page               2$(blank 31)2"
check 'parts: where it is refused' out_has 'run                refused, number 4 at 1310814, whole records 26'
run state --wide <(selects 02; long; writes 00 00; bytes 05 00 01)
check 'parts: cut at the end' out_has 'run                refused, number 8 at 1310791, whole records 22'
run state --wide <(selects 02; long; bytes 05 00 01 00 AF)
check 'parts: a payload past the end' out_has 'run                refused, number 8 at 1310785, whole records 21'
run state --wide <(selects 01; long; commands 0F; reads 00; commands 18; writes 00)
check 'parts: refused for the left' out_has 'run                refused, number 7 at 1310804, whole records 24'
run state --wide <(long; reads 00)
check 'parts: both in every part' out_has "column             72$(blank 30)72"
check 'parts: both in every part, and so no read' out_has 'run                refused, number 14 at 1310784, whole records 20'
run state --wide --after 21 <(selects 02; long; commands B9)
check 'parts: after so many records' out_has 'run                taken, number 0 at 1310785, whole records 21'

checks_end wide
