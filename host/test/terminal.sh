#!/usr/bin/env bash
# Tests of the tool at a terminal, which util-linux's script plays: it waits
# with a word, says how far long work is, sends no picture there, draws where
# screens differ in colours, and a wide screen in halves where it does not fit.
#
#   terminal.sh TOOL...      the command that runs the tool
set -euo pipefail

if ! command -v script > /dev/null; then
  echo 'terminal: not tested, as there is no script'
  exit 0
fi

tool=$(printf '%q ' "$@")
# shellcheck source=host/test/checks.sh
. "$(dirname "$0")/checks.sh"

# at_terminal COMMAND: what a terminal shows of it, and its status.
at_terminal() { ran script -qec "$1" /dev/null; }
out_says() { grep -qF -- "$1" "$here/out"; }
says_nothing() { ! grep -q . "$here/out"; }

bytes 01 00 01 00 AF 02 00 02 00 03 01 > "$here/sample.trace"

# ---- standard input ----

at_terminal "$tool list" < /dev/null
check 'input: a word while it waits' out_says 'waiting for the bytes of a trace on standard input'
check 'input: how to end it' out_says 'Ctrl-D ends them'
check 'input: then what was asked for' out_says 'frame 132 65'
at_terminal "$tool list < $here/sample.trace" < /dev/null
check 'input: no word for a file' [ "$(grep -c waiting "$here/out")" -eq 0 ]

# ---- pictures ----

at_terminal "$tool picture $here/sample.trace" < /dev/null
check 'picture: status 2' status_is 2
check 'picture: not sent to a terminal' out_says 'a picture is no text for a terminal: -o FILE.png or > FILE.pbm'
check 'picture: no byte of it' [ "$(grep -c P4 "$here/out")" -eq 0 ]
at_terminal "$tool picture --png $here/sample.trace" < /dev/null
check 'picture: PNG neither' out_says 'a picture is no text for a terminal'
at_terminal "$tool picture -o $here/a.pbm $here/sample.trace" < /dev/null
check 'picture: to a file' status_is 0
check 'picture: to a file, nothing said' says_nothing

# ---- long work ----

# 80 records of 65,535 data bytes: 5,243,120 bytes.
{ bytes FF FF 02 00; head -c 65535 /dev/zero; } > "$here/record"
for _ in {1..80}; do cat "$here/record"; done > "$here/long.trace"
at_terminal "$tool state $here/long.trace > $here/state" < /dev/null
check 'long: status 0' status_is 0
check 'long: how far it is' out_says 'ssd1815b: played, 4 MB of 5'
at_terminal "cat $here/long.trace | $tool state > $here/state" < /dev/null
check 'long: from a pipe, how far it is' out_says 'ssd1815b: played, 4 MB'
at_terminal "$tool memory $here/long.trace > $here/state" < /dev/null
check 'long: looked at again, how far it is' out_says 'ssd1815b: looking again, 4 MB of 5'
at_terminal "$tool state $here/sample.trace > $here/state" < /dev/null
check 'short: nothing is said' says_nothing
ran "$@" state "$here/long.trace"
check 'long: nothing where standard error is no terminal' nothing_on err

# ---- where screens differ ----

# Row 0 is lit at 0 and 1 in both, row 1 at 0 in the one and at 1 in the other.
bytes 01 00 01 00 AF 02 00 02 00 01 03 > "$here/other.trace"
bytes 02 00 01 00 AF B8 01 00 02 00 01 > "$here/icon.trace"
# line_shows LINE TEXT: a line as the terminal has it, which puts CR before LF.
line_shows() { line_is "$1" "$2"$'\r'; }
# cells COUNT ABOVE BELOW: so many cells, the colours of their halves.
cells() { printf '\033[38;5;%d;48;5;%dm' "$2" "$3"; printf '▀%.0s' $(seq "$1"); }
# The colours are 16 for black, 245 gray, 33 blue and 214 orange.
shown="diff --upright --show $here/sample.trace $here/other.trace"
at_terminal "TERM=xterm $tool $shown" < /dev/null
check 'diff: status 1' status_is 1
check 'diff: 32 lines of panel rows, 1 of icons, 3 edges, the legend, 2 runs, their sum' [ "$(wc -l < "$here/out")" -eq 40 ]
check 'diff: rows 0 and 1 in colours' line_shows 2 "│$(cells 1 245 33)$(cells 1 245 214)$(cells 130 16 16)"$'\033[0m│'
check 'diff: rows 2 and 3 in colours' line_shows 3 "│$(cells 132 16 16)"$'\033[0m│'
legend=$'\033[38;5;16m█\033[0m dark in both, \033[38;5;245m█\033[0m lit in both, '
legend+=$'\033[38;5;33m█\033[0m lit in the first alone, \033[38;5;214m█\033[0m lit in the second alone'
check 'diff: which colour is what' line_shows 37 "$legend"
check 'diff: the lines are plain' line_shows 38 'row 1, 0: lit, then dark'
at_terminal "TERM=xterm $tool diff --upright --show $here/sample.trace $here/icon.trace" < /dev/null
check 'diff: an icon in colours' line_shows 35 "│$(cells 1 214 16)$(cells 131 16 16)"$'\033[0m│'
at_terminal "TERM=xterm NO_COLOR= $tool $shown" < /dev/null
check 'diff: NO_COLOR that is empty declines nothing' [ "$(grep -c $'\033' "$here/out")" -gt 0 ]
for declined in 'TERM=xterm NO_COLOR=1' 'TERM=dumb' 'env -u TERM'; do
  at_terminal "$declined $tool $shown" < /dev/null
  check "diff: letters ($declined)" line_shows 3 "│-+$(printf '.%.0s' {1..130})│"
  check "diff: no colours ($declined)" [ "$(grep -c $'\033' "$here/out")" -eq 0 ]
done
at_terminal "TERM=xterm $tool $shown | cat" < /dev/null
check 'diff: no colours in a pipe' [ "$(grep -c $'\033' "$here/out")" -eq 0 ]
# Where the end is not kept it would wait again.
at_terminal "timeout --foreground 20 $tool diff $here/sample.trace -" < /dev/null
check 'diff: one Ctrl-D ends it' status_is 1
check 'diff: a word while it waits' out_says 'waiting for the bytes of a trace on standard input'

# ---- a wide screen ----

# Rows 0 and 1 at the left's last place, and at the right's first.
bytes 03 00 01 00 AF 03 18 01 00 05 00 02 02 00 01 00 00 10 01 00 05 00 03 01 00 02 00 03 > "$here/wide.trace"
wide="$tool show --wide --upright $here/wide.trace"
said='ssd1815b: the screen is drawn 266 wide, and this terminal is'
at_terminal "stty cols 266; $wide" < /dev/null
check 'wide: fits in 266' line_shows 2 "│$(printf '%131s' '')██$(printf '%131s' '')│"
check 'wide: fits in 266, nothing said' [ "$(grep -c ssd1815b "$here/out")" -eq 0 ]
for columns in 265 134; do
  at_terminal "stty cols $columns; $wide 2> $here/told" < /dev/null
  check "wide: the halves in $columns, the left" line_shows 1 'left half'
  check "wide: the halves in $columns, its last place" line_shows 3 "│$(printf '%131s' '')█│"
  check "wide: the halves in $columns, the right" line_shows 38 'right half'
  check "wide: the halves in $columns, its first place" line_shows 40 "│█$(printf '%131s' '')│"
  check "wide: the halves in $columns, said" [ "$(cat "$here/told")" = "$said $columns: the halves stand one below the other" ]
done
at_terminal "stty cols 133; $wide 2> $here/told" < /dev/null
check 'wide: too narrow for a half, said' \
  [ "$(cat "$here/told")" = "$said 133: the halves stand one below the other, and do not fit either: each is 134 wide" ]
at_terminal "stty cols 80; $wide | cat" < /dev/null
check 'wide: whole in a pipe' line_shows 2 "│$(printf '%131s' '')██$(printf '%131s' '')│"
check 'wide: whole in a pipe, nothing said' [ "$(grep -c ssd1815b "$here/out")" -eq 0 ]
at_terminal "stty cols 80; $tool show --upright $here/sample.trace" < /dev/null
check 'narrow: as it was, nothing said' [ "$(grep -c ssd1815b "$here/out")" -eq 0 ]
at_terminal "stty cols 200; TERM=xterm $tool diff --wide --upright --show $here/wide.trace $here/sample.trace 2> $here/told" < /dev/null
check 'wide: diff in halves, in colours' line_shows 40 "│$(cells 1 245 245)$(cells 1 214 16)$(cells 130 16 16)"$'\033[0m│'
check 'wide: diff in halves, said' [ "$(cat "$here/told")" = "$said 200: the halves stand one below the other" ]

checks_end terminal
