#!/usr/bin/env bash
# Tests of the command-line tool: what it prints, where, and its status.
# (starts.sh, refusals.sh, pictures.sh and terminal.sh have the rest.)
#
#   tool.sh TOOL...      the command that runs the tool
set -euo pipefail

tool=("$@")
# shellcheck source=host/test/checks.sh
. "$(dirname "$0")/checks.sh"

# Runs the tool on what stands on standard input.
run() { ran "${tool[@]}" "$@"; }

# Document 01's trace and what it prints whole, now of the upright start; and of
# the other: RAM row r at panel row 63 - r, RAM column c at place 131 - c.
sample=(01 00 01 00 AF 02 00 02 00 03 01)
upright=$'frame 132 65\n0 0-1\n1 0-0\nend'
upside_down=$'frame 132 65\n62 131-131\n63 130-131\nend'

# ---- list ----

run list --upright < <(bytes "${sample[@]}")
check 'list: upright, status 0' status_is 0
check 'list: upright, document 01 prints it whole' out_is "$upright"
check 'list: upright, nothing on standard error' nothing_on err
run list < <(bytes "${sample[@]}")
check 'list: status 0' status_is 0
check 'list: as a new cabinet hangs the module' out_is "$upside_down"
check 'list: nothing on standard error' nothing_on err

bytes "${sample[@]}" > "$here/sample.trace"
run list "$here/sample.trace" < /dev/null
check 'list: from a file' out_is "$upside_down"
run list - < "$here/sample.trace"
check 'list: - is standard input' out_is "$upside_down"

run list < /dev/null
check 'list: no bytes are a trace' out_is $'frame 132 65\nend'
check 'list: no bytes are taken' status_is 0

head -c 65536 /dev/zero > "$here/longest"
run list "$here/longest"
check 'list: 65,536 bytes are read' out_is $'refused 9 at 0\nframe 132 65\nend'
head -c 65537 /dev/zero > "$here/too-long"
run list "$here/too-long"
check 'list: input too long' out_is 'input too long'
check 'list: input too long, status 2' status_is 2

# ---- traces of any length ----

# Data, 65,535 bytes to a record, and then B9.  80 * 65,535 places from column 0
# on, 132 to a page, end at column 24.
{ bytes FF FF 02 00; head -c 65535 /dev/zero; } > "$here/record"
{ for _ in {1..80}; do cat "$here/record"; done; bytes 03 00 01 00 AF A5 B9; } > "$here/long.trace"
run state "$here/long.trace"
check 'long: refused, status 1' status_is 1
check 'long: the run' out_has 'run                refused, number 4 at 5243126, whole records 80'
check 'long: the column' out_has 'column             24'
check 'long: the place' out_has 'refused 4 at 5243126 (0x5000F6): B9 to BF name no page'
run state < "$here/long.trace"
check 'long: the same on standard input' out_has 'run                refused, number 4 at 5243126, whole records 80'
run show "$here/long.trace"
check 'long: shown, all lit' line_is 2 "│$(printf '█%.0s' {1..132})│"
run memory "$here/long.trace"
check 'long: its memory' out_has 'refused 4 at 5243126 (0x5000F6): B9 to BF name no page'
run picture --scale 1 "$here/long.trace"
check 'long: its picture' [ "$(head -n 2 "$here/out")" = $'P4\n136 71' ]
run list "$here/long.trace"
check 'long: list alone is too long' out_is 'input too long'
for command in show picture state memory; do
  run $command "$here/too-long"
  check "$command: 65,537 bytes are played" status_is 1
done

# Junk is not read to its end, which it may not have.
{ head -c 50000000 /dev/zero 2> /dev/null && : > "$here/read-whole"; } | ran "${tool[@]}" show || true
check 'junk: no more is read than is needed' [ ! -e "$here/read-whole" ]
{ head -c 50000000 /dev/zero 2> /dev/null && : > "$here/listed-whole"; } | ran "${tool[@]}" list || true
check 'junk: list reads no more than is needed' [ ! -e "$here/listed-whole" ]
{ bytes "${sample[@]}"; head -c 50000000 /dev/zero 2> /dev/null && : > "$here/cut-whole"; } |
  ran "${tool[@]}" state --after 2 || true
check 'after: what comes later is not read' [ ! -e "$here/cut-whole" ]

# ---- after N records ----

three=(01 00 01 00 AF 02 00 02 00 03 01 00 00 04 00)
run list --after 2 < <(bytes "${three[@]}")
check 'after: 2 of 3 records' out_is "$upside_down"
check 'after: 2 of 3, nothing said' nothing_on err
run list --after=1 < <(bytes "${three[@]}")
check 'after: 1 of 3 records' out_is $'frame 132 65\nend'
run list --after 3 < <(bytes "${three[@]}")
check 'after: 3 of 3, nothing said' nothing_on err
run list --after 4 < <(bytes "${three[@]}")
check 'after: more than there are, status 0' status_is 0
check 'after: more than there are, said' err_is 'ssd1815b: --after 4: the trace has 3 records, and all of it is played'
run state --after 2 < <(bytes "${three[@]}")
check 'after: state' out_has 'run                taken, number 0 at 11, whole records 2'
check 'after: state, before the reset pin' out_has 'display on         1'
run state --after 9 < <(bytes "${sample[@]}")
check 'after: state, more than there are' err_has 'the trace has 2 records'
run show --after 2 < <(bytes "${three[@]}")
check 'after: show' line_is 33 "│$(printf '%130s' '')▄█│"
run picture --scale 1 --after 2 < <(bytes "${three[@]}")
mv "$here/out" "$here/after.pbm"
run picture --scale 1 "$here/sample.trace"
check 'after: picture' cmp -s "$here/out" "$here/after.pbm"
run memory --after 2 < <(bytes "${three[@]}")
check 'after: memory' line_is 3 '    0  03 01 00 00 00 00 00 00 00 00 00 00 00 00 00 00'
run state --after 0 < <(bytes "${three[@]}")
check 'after: 0 is the start' out_has 'run                taken, number 0 at 0, whole records 0'
# What is refused later does not count; what is refused before does.
run state --after 1 < <(bytes 01 00 01 00 AF 01 00 01 00 B9)
check 'after: stops before a refusal' status_is 0
run state --after 9 < <(bytes 01 00 01 00 AF 01 00 01 00 B9)
check 'after: a refusal before it' out_has 'run                refused, number 4 at 9, whole records 1'
check 'after: a refusal before it, and no more said' nothing_on err
run list --after 9 < <(bytes 01 00 01 00 AF 07 00)
check 'after: a cut record is refused' line_is 1 'refused 8 at 5'
# The limit of list is that of the records that it lists.
run list --after 2 < <(bytes "${sample[@]}"; cat "$here/long.trace")
check 'after: the first records of a long trace are listed' out_is "$upside_down"
run list --after 3 < <(bytes "${sample[@]}"; cat "$here/long.trace")
check 'after: three of its records are too long' out_is 'input too long'
run state --after 80 "$here/long.trace"
check 'after: in a long trace' out_has 'run                taken, number 0 at 5243120, whole records 80'

# ---- show ----

run show "$here/sample.trace"
check 'show: status 0' status_is 0
blocks=$(printf '▀%.0s' {1..132})
check 'show: 32 lines of panel rows, 1 of icons, 3 edges' [ "$(wc -l < "$here/out")" -eq 36 ]
check 'show: rows 62 and 63' line_is 33 "│$(printf '%130s' '')▄█│"
run show --upright "$here/sample.trace"
check 'show: upright, rows 0 and 1' line_is 2 "│█▀$(printf '%130s' '')│"
run show < <(bytes 03 00 01 00 A5 AF B9)
check 'show: a refused run, status 1' status_is 1
check 'show: the place in words' out_has 'refused 4 at 6 (0x6): B9 to BF name no page'
check 'show: the icon line apart' line_is 35 "│$blocks│"

# dark WORDS BYTES...: the one line below the picture.
dark() {
  local words=$1
  shift
  run show < <(bytes "$@")
  check "dark: $words" line_is 37 "all dark: $words"
}
dark 'no event was taken: there was no record to play'
dark 'no event was taken: no record holds any' 00 00 01 00 00 00 02 00
dark 'no event was taken before the run stopped' 00 00 01 00 01 00 01 00 B9
dark 'no event was taken before the run stopped' 01 00 01
dark 'the display is off; AF turns it on' 00 00 04 00
dark 'the display is off; AF turns it on' 02 00 01 00 E3 B9
dark 'the display is off; AF turns it on' 01 00 02 00 FF
dark 'sleep: display off, entire on, indicator off; A4 and AF show memory' 01 00 01 00 A5
dark 'standby: display off, entire on, indicator on; A4 and AF show memory' 03 00 01 00 AD 00 A5
dark 'the display is on, but all of memory is 0' 01 00 01 00 AF
dark 'the display is on, but every bit that it shows is 0; other bits of memory are not' \
  03 00 01 00 AF A8 00 01 00 02 00 FE
run show --after 0 "$here/sample.trace"
check 'dark: nothing played of a trace' line_is 37 'all dark: no event was taken: there was no record to play'
# Every byte FF, under reverse.
{ bytes 02 00 01 00 AF A7
  for page in B0 B1 B2 B3 B4 B5 B6 B7 B8; do
    bytes 01 00 01 00 $page 84 00 02 00; head -c 132 /dev/zero | tr '\0' '\377'
  done; } > "$here/reversed.trace"
run show "$here/reversed.trace"
check 'dark: reversed' line_is 37 'all dark: the display is on and reversed, and every bit that it shows is 1'
run show < <(bytes 02 00 01 00 AF A5)
check 'dark: nothing is said of a screen that is lit' [ "$(wc -l < "$here/out")" -eq 36 ]

# ---- state ----

run state < <(bytes 06 00 01 00 A8 0F A5 AD 02 D3)
check 'state: status 0' status_is 0
check 'state: multiplex' out_has 'multiplex          15, 16 rows in use'
check 'state: 16 rows in the middle' out_has 'rows in use        panel rows 24 to 39'
check 'state: awaited code' out_has 'awaited code       D3'
check 'state: standby' out_has 'power save         standby'
check 'state: image' out_has 'image              000000000F2004000000000001010100000102D3000001'
check 'state: run' out_has 'run                taken, number 0 at 10, whole records 1'
run state < <(bytes 01 00 01 00 A5)
check 'state: sleep' out_has 'power save         sleep'
check 'state: all rows in use' out_has 'rows in use        panel rows 0 to 63'
run state < <(bytes 04 00 01 00 A8 0F D3 20)
check 'state: the band over the edge' out_has 'rows in use        panel rows 56 to 63 and 0 to 7'
run state < <(bytes 04 00 01 00 A8 0F D3 19)
check 'state: one row of the band at the bottom' out_has 'rows in use        panel rows 63 and 0 to 14'
run state < <(bytes 04 00 01 00 A8 0F D3 27)
check 'state: one row of the band at the top' out_has 'rows in use        panel rows 49 to 63 and 0'
run state < <(bytes 02 00 01 00 A8 10)
check 'state: an odd number of rows' out_has 'rows in use        panel rows 23 to 39'
run state < <(bytes 02 00 01 00 D3 05)
check 'state: all rows, moved' out_has 'rows in use        panel rows 0 to 63'
run state < <(bytes 02 00 01 00 A8 00)
check 'state: one row' out_has 'rows in use        panel row 31'
run state < <(bytes 03 00 01 00 A5 AF B9)
check 'state: no power save with display on' out_has 'power save         no'
check 'state: refused, status 1' status_is 1
check 'state: refused run' out_has 'run                refused, number 4 at 6, whole records 0'
check 'state: refused, in words' out_has 'refused 4 at 6 (0x6): B9 to BF name no page'

# ---- memory ----

run memory < <(bytes 04 00 01 00 B2 14 03 AF 02 00 02 00 A5 5A 01 00 01 00 B8 01 00 02 00 FF)
check 'memory: status 0' status_is 0
check 'memory: a heading, 9 pages of 9 lines with one each, the reads' [ "$(wc -l < "$here/out")" -eq $((1 + 9 * 10 + 2)) ]
check 'memory: page 2' line_is 22 'page 2'
check 'memory: columns 64 on' line_is 27 '   64  00 00 00 A5 5A 00 00 00 00 00 00 00 00 00 00 00'
check 'memory: columns 128 to 131' line_is 31 '  128  00 00 00 00'
check 'memory: page 8 keeps bit 0, at column 69' line_is 87 '   64  00 00 00 00 00 01 00 00 00 00 00 00 00 00 00 00'
check 'memory: no reads' line_is 93 '      none'
reads=(03 00 02 00 11 22 33 02 00 01 00 01 10 03 00 03 00 EE 22 33)
run memory < <(bytes "${reads[@]}")
check 'memory: reads, status 0' status_is 0
check 'memory: reads, their heading' line_is 93 '    offset     record  page  column  model  recorded'
check 'memory: the dummy read' line_is 94 '        17          2     0       1  dummy  EE'
check 'memory: a read' line_is 95 '        18          2     0       1  22     22'
check 'memory: the next read' line_is 96 '        19          2     0       2  33     33'
# In read-modify-write the column stays; the icons are read by bit 0.
run memory < <(bytes 02 00 01 00 E0 B8 01 00 02 00 FF 02 00 01 00 EE E0 03 00 03 00 00 01 01)
check 'memory: a read of the icons in read-modify-write' line_is 96 '        23          3     8       0  01     01'
run memory < <(bytes "${reads[@]:0:18}" 22 44)
check 'memory: a read that differs, status 1' status_is 1
check 'memory: a read that differs' line_is 96 '        19          2     0       2  33     44 differs, and has not happened'
check 'memory: a read that differs, in words' out_has 'refused 10 at 19 (0x13): a compared read differs; that read has not happened'

# ---- check ----

bytes 01 00 01 00 B9 > "$here/refused.trace"
: > "$here/empty.trace"
bytes 00 00 04 00 > "$here/one.trace"
run check "$here/sample.trace" "$here/one.trace" "$here/empty.trace"
check 'check: all taken, status 0' status_is 0
check 'check: a line each' out_is "$here/sample.trace: taken, 2 records
$here/one.trace: taken, 1 record
$here/empty.trace: taken, 0 records"
run check "$here/refused.trace" "$here/sample.trace" "$here/long.trace"
check 'check: one refused, status 1' status_is 1
check 'check: the number, the place and the words' line_is 1 "$here/refused.trace: refused 4 at 4: B9 to BF name no page"
check 'check: then the next' line_is 2 "$here/sample.trace: taken, 2 records"
check 'check: then a long one' line_is 3 "$here/long.trace: refused 4 at 5243126: B9 to BF name no page"
run check "$here/refused.trace" "$here/none" "$here" "$here/sample.trace"
check 'check: one cannot be read, status 2' status_is 2
check 'check: one cannot be opened' line_is 2 "$here/none: cannot be read"
check 'check: one cannot be opened, why' err_has "cannot open $here/none: No such file"
check 'check: one cannot be read' line_is 3 "$here: cannot be read"
check 'check: one cannot be read, why' err_has "cannot read $here: Is a directory"
check 'check: the others are played' line_is 4 "$here/sample.trace: taken, 2 records"
run check < "$here/sample.trace"
check 'check: standard input' out_is '-: taken, 2 records'

# ---- command line and errors ----

# helps ARGUMENTS...: the help, and nothing else.
helps() {
  run "$@" < /dev/null
  check "help: status 0 ($*)" status_is 0
  check "help: on standard output ($*)" grep -q '^usage: ssd1815b' "$here/out"
  check "help: nothing on standard error ($*)" nothing_on err
}
helps --help
helps -h
helps help
helps --help x
helps picture --scale --help
helps --upright --help
helps help help
helps help --help
check 'help: a usage line says of help COMMAND' grep -q '^  *ssd1815b .*| help COMMAND |' <("${tool[@]}" --help)
for command in list show picture state memory diff check; do
  check "help: names $command" grep -q "^  $command " <("${tool[@]}" --help)
  helps $command --help
  check "help: of $command" grep -q "^usage: ssd1815b $command " "$here/out"
  cp "$here/out" "$here/help"
  helps help $command
  check "help: the same of help $command" cmp -s "$here/out" "$here/help"
  helps $command -h "$here/sample.trace"
  check "help: the same of $command -h" cmp -s "$here/out" "$here/help"
done
for option in --upright --wide --after --scale --png --output --memory --show --picture --brief --refused --; do
  check "help: names $option" grep -q -- "^  .*$option" <("${tool[@]}" --help)
done
run --version < /dev/null
check 'version: status 0' status_is 0
version=$(sed -n 's/^#define SSD1815B_VERSION  *"\(.*\)"$/\1/p' "$(dirname "$0")/../ssd1815b.h")
check 'version: there is one' [ -n "$version" ]
check 'version: that of the header' line_is 1 "ssd1815b $version"
run list help < /dev/null
check 'help: elsewhere it is a trace' err_has 'cannot open help'
wrong() {
  local words=$1
  shift
  run "$@" < /dev/null
  check "wrong: status 2 ($*)" status_is 2
  check "wrong: $words" err_has "$words"
  check "wrong: nothing on standard output ($*)" nothing_on out
}
wrong 'no command'
wrong 'no such command: print' print
# With help asked for it is none either, and the words are the same.
cp "$here/err" "$here/no_command"
for words in 'print --help' 'print -h' 'print --wide --help' 'help print' 'help print --help'; do
  # shellcheck disable=SC2086  # some words
  wrong 'no such command: print' $words
  check "wrong: the same words ($words)" cmp -s "$here/err" "$here/no_command"
done
wrong 'no such option: --scales' picture --scales 2
wrong 'no such option: --scales=2' picture --scales=2
wrong 'no such option: -x' list -x
wrong 'no such option: --version' list --version
wrong '--scale is for picture and diff alone' list --scale 2
wrong '--scale is for picture and diff alone' list --scale=2
wrong '--png is for picture alone' show --png
wrong '-o is for picture alone' show -o x.png
wrong '--after is not for check' check --after 2
wrong '--after needs a number' list --after
wrong '--after takes a number of records, not -1' list --after -1
wrong '--after takes a number of records, not ' list --after=
wrong '--after takes a number of records, not 18446744073709551615' list --after 18446744073709551615
wrong '--after takes a number of records, not 99999999999999999999999' list --after 99999999999999999999999
wrong '-o needs a file' picture -o
wrong 'no value is taken by --png' picture --png=yes
wrong '--scale needs a number' picture --scale
wrong 'a scale is a number from 1 to 64, not 0' picture --scale 0
wrong 'a scale is a number from 1 to 64, not 65' picture --scale 65
wrong 'a scale is a number from 1 to 64, not 2x' picture --scale 2x
wrong 'more than one trace, which check alone takes: b' list a b
wrong "cannot open $here/none: No such file" list "$here/none"
wrong "cannot read $here: Is a directory" list "$here"
# In a folder with a trace named -o.
bytes "${sample[@]}" > "$here/-o"
run_there() { ran env -C "$here" "${tool[@]:0:${#tool[@]}-1}" "$(realpath "${tool[-1]}")" "$@"; }
run_there list -- -o
check 'command line: -- ends the options' out_is "$upside_down"
run_there list -- --help
check 'command line: after -- there is no help' err_has 'cannot open --help'
run_there check -- -o sample.trace
check 'command line: -- for several' out_is $'-o: taken, 2 records\nsample.trace: taken, 2 records'
run list "$here/sample.trace" --after 1
check 'command line: options after the trace' out_is $'frame 132 65\nend'
if [ -e /dev/full ]; then
  status=0
  "${tool[@]}" list < /dev/null > /dev/full 2> "$here/err" || status=$?
  check 'output that fails: status 2' status_is 2
  check 'output that fails: said' err_has 'cannot write standard output'
fi

checks_end tool
