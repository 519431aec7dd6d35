#!/usr/bin/env bash
# Tests of the two starts in the tool: --upright on every command, wherever it
# stands, and what hangs on the start and what does not (document 02, Order 3).
#
#   starts.sh TOOL...      the command that runs the tool
set -euo pipefail

tool=("$@")
# shellcheck source=host/test/checks.sh
. "$(dirname "$0")/checks.sh"
traces=$(realpath "$(dirname "$0")/../../traces")
readme=$(realpath "$(dirname "$0")/../README.md")
tool[-1]=$(realpath "${tool[-1]}")
cd "$here"

# Runs the tool on what stands on standard input.
run() { ran "${tool[@]}" "$@"; }

# By hand, from the frame of document 01: upright, panel row p shows RAM row p and
# place x RAM column x; upside down, rows reversed and columns mirrored, RAM row
# 63 - p and RAM column 131 - x.  The icon line is row 64 from either start, with
# its columns mirrored.  03 01 lights RAM row 0 at columns 0 and 1 and RAM row 1
# at column 0.
sample=(01 00 01 00 AF 02 00 02 00 03 01)
upright=$'frame 132 65\n0 0-1\n1 0-0\nend'
upside_down=$'frame 132 65\n62 131-131\n63 130-131\nend'
rows_back=$'frame 132 65\n0 130-131\n1 131-131\nend'
columns_back=$'frame 132 65\n62 0-0\n63 0-1\nend'
bytes "${sample[@]}" > sample.trace

# lists UPSIDE_DOWN UPRIGHT BYTES...: what list prints from either start.
lists() {
  local down=$1 up=$2
  shift 2
  run list < <(bytes "$@")
  check "list, upside down ($*)" out_is "$down"
  run list --upright < <(bytes "$@")
  check "list, upright ($*)" out_is "$up"
}

# ---- document 01's trace ----

lists "$upside_down" "$upright" "${sample[@]}"
icon=(02 00 01 00 AF B8 01 00 02 00 01)
lists $'frame 132 65\n64 131-131\nend' $'frame 132 65\n64 0-0\nend' "${icon[@]}"
# 16 rows in use are panel rows 24 to 39: RAM row 0 is their first or their last.
lists $'frame 132 65\n38 131-131\n39 130-131\nend' $'frame 132 65\n24 0-1\n25 0-0\nend' \
  02 00 01 00 A8 0F "${sample[@]}"

# ---- what sets the directions ----

# The reset pin gives the power-on state; memory stays.
lists "$upright" "$upright" 00 00 04 00 "${sample[@]}"
lists "$upright" "$upright" "${sample[@]}" 00 00 04 00 01 00 01 00 AF
# A0 or A1 and C0 to CF.
lists "$upright" "$upright" "${sample[@]}" 02 00 01 00 A0 C0
lists "$upside_down" "$upside_down" "${sample[@]}" 02 00 01 00 A1 C8
lists "$columns_back" "$columns_back" "${sample[@]}" 02 00 01 00 A0 CF
lists "$rows_back" "$rows_back" "${sample[@]}" 02 00 01 00 A1 C7
# One of them is not enough.
lists "$columns_back" "$upright" "${sample[@]}" 01 00 01 00 A0
lists "$rows_back" "$upright" "${sample[@]}" 01 00 01 00 C0
# E2 puts the rows back and leaves the columns: mirrored, until A0 or C8 comes.
lists "$rows_back" "$upright" "${sample[@]}" 01 00 01 00 E2
lists "$upright" "$upright" "${sample[@]}" 02 00 01 00 E2 A0
lists "$upside_down" "$columns_back" "${sample[@]}" 02 00 01 00 E2 C8
# A listed trace is as it stands where it is refused.
lists $'refused 4 at 15\n'"$upside_down" $'refused 4 at 15\n'"$upright" "${sample[@]}" 01 00 01 00 B9

# ---- the option on every command ----

# What each command prints, by the option before the trace, after it, twice and
# with standard input, is the same; of all but memory and check it is not what it
# prints without.
for command in list show 'picture --scale 1' state memory check; do
  read -ra words <<< "$command"
  run "${words[@]}" sample.trace
  check "$command: status 0" status_is 0
  cp out without
  run "${words[@]}" --upright sample.trace
  check "$command: upright, status 0" status_is 0
  check "$command: upright, nothing on standard error" nothing_on err
  cp out with
  for place in '--upright -- sample.trace' 'sample.trace --upright' '--upright sample.trace --upright'; do
    # shellcheck disable=SC2086  # some words
    run "${words[@]}" $place
    check "$command $place: the same" cmp -s out with
  done
  run "${words[@]}" --upright - < sample.trace
  sed -i 's/^-: /sample.trace: /' out
  check "$command: the same on standard input" cmp -s out with
  case $command in
    memory | check) check "$command: hangs on no start" cmp -s with without ;;
    *) check "$command: hangs on the start" [ "$(cmp -s with without; echo $?)" -eq 1 ] ;;
  esac
  run "${words[@]}" --upright=yes sample.trace
  check "$command: no value is taken, status 2" status_is 2
  check "$command: no value is taken, said" err_has 'ssd1815b: no value is taken by --upright'
  check "$command: no value is taken, nothing printed" nothing_on out
  run "${words[@]}" -- --upright
  check "$command: after -- it is a trace" err_has 'cannot open --upright: No such file'
  run "${words[@]}" --uprigh sample.trace
  check "$command: no part of a name is taken" err_has 'no such option: --uprigh'
done
run --upright list sample.trace
check 'no command: status 2' status_is 2
check 'no command: said' err_has 'the command stands before its options, and first is --upright'
run --uprigh list sample.trace
check 'no command and no option: said' err_has 'no such command: --uprigh'
# Help of every command names it, and is the same with it.
for command in list show picture state memory diff check; do
  run "$command" --help
  check "help: $command names it" grep -q '^  --upright  ' out
  check "help: $command tells of the starts" grep -qE 'either start' out
  cp out help
  run "$command" --upright --help
  check "help: $command --upright --help" cmp -s out help
done
run --help
check 'help: names it' grep -q '^  --upright  ' out
check 'help: says when' grep -q 'old cabinet' out

# ---- state ----

new='start              upside down, as a new cabinet hangs the module (--upright: an old one)'
old='start              upright, as an old cabinet hangs the module'
run state sample.trace
check 'state: upside down' out_has "$new"
check 'state: upside down, columns' out_has 'column direction   1, mirrored'
check 'state: upside down, rows' out_has 'row direction      1, reversed'
sed '/^start   /d; /direction/d; /^image/d' out > kept
run state --upright sample.trace
check 'state: upright' out_has "$old"
check 'state: upright, columns' out_has 'column direction   0, normal'
check 'state: upright, rows' out_has 'row direction      0, normal'
sed '/^start   /d; /direction/d; /^image/d' out > kept-upright
check 'state: nothing else' cmp -s kept kept-upright
# Of no event the image is the start's: at power-on the multiplex is 63, contrast
# 32, ratio 4 and fresh 1.
run state --after 0 sample.trace
check 'state: the start, upside down' out_has 'image              000000003F200400000000000101000000000000000001'
run state --upright --after 0 sample.trace
check 'state: the start, upright' out_has 'image              000000003F200400000000000000000000000000000001'
# It is said of what was chosen, whatever came later.
run state < <(bytes 00 00 04 00)
check 'state: upside down, before a reset record' out_has "$new"
check 'state: upside down, after a reset record' out_has 'row direction      0, normal'

# ---- what is refused, and memory ----

# Each refusal of the stored traces has the same words from either start, and so
# have memory and the bytes read.
count=0
for trace in "$traces"/refusals/*.trace; do
  count=$((count + 1))
  for command in memory check; do
    run "$command" "$trace"
    check "$command: refused, status 1 (${trace##*/})" status_is 1
    cp out without
    run "$command" --upright "$trace"
    check "$command: upright, refused, status 1 (${trace##*/})" status_is 1
    check "$command: the same from either start (${trace##*/})" cmp -s out without
  done
done
check 'refused: there are traces' [ "$count" -gt 8 ]
# Where the code and the column came from is found from the same start again.
for refused in '01 00 01 00 81 01 00 02 00 00' '02 00 01 00 0F 18 01 00 02 00 AA'; do
  # shellcheck disable=SC2086  # some bytes
  run list < <(bytes $refused)
  cp err said
  # shellcheck disable=SC2086
  run list --upright < <(bytes $refused)
  check "refused: the same words ($refused)" cmp -s err said
  check "refused: words ($refused)" err_has 'since'
done

# ---- after N records, and long traces in parts ----

three=("${sample[@]}" 00 00 04 00)
run list --after 2 < <(bytes "${three[@]}")
check 'after: upside down' out_is "$upside_down"
run list --upright --after 2 < <(bytes "${three[@]}")
check 'after: upright' out_is "$upright"
run list --after=2 --upright < <(bytes "${three[@]}")
check 'after: upright, behind it' out_is "$upright"
# 20 records of 65,535 bytes of 0 and then 03 01, from column 72 on: 20 * 65,535
# places, 132 to a page.
{ bytes 01 00 01 00 AF
  for _ in {1..20}; do bytes FF FF 02 00; head -c 65535 /dev/zero; done
  bytes 02 00 02 00 03 01; } > long.trace
run show long.trace
check 'long: upside down, places 58 and 59' line_is 33 "│$(printf '%58s' '')▄█$(printf '%72s' '')│"
run show --upright long.trace
check 'long: upright, places 72 and 73' line_is 2 "│$(printf '%72s' '')█▀$(printf '%58s' '')│"
run show --upright < long.trace
check 'long: the same on standard input' line_is 2 "│$(printf '%72s' '')█▀$(printf '%58s' '')│"
run state --upright --after 21 long.trace
check 'long: after so many records' out_has 'run                taken, number 0 at 1310785, whole records 21'
check 'long: after so many records, its start' out_has "$old"

# ---- check ----

cp sample.trace second.trace
bytes 01 00 01 00 B9 > refused.trace
run check --upright sample.trace second.trace refused.trace
check 'check: several, status 1' status_is 1
check 'check: several' out_is 'sample.trace: taken, 2 records
second.trace: taken, 2 records
refused.trace: refused 4 at 4: B9 to BF name no page'

# ---- diff ----

# answers STATUS OUT ARGUMENTS...: a status, all of standard output, and nothing
# on standard error.
answers() {
  local expected=$1 text=$2
  shift 2
  run diff "$@" < "${input:-/dev/null}"
  check "diff: status $expected ($*)" status_is "$expected"
  check "diff: what is printed ($*)" out_is "$text"
  check "diff: nothing on standard error ($*)" nothing_on err
}
# 01 03 lights RAM row 0 at columns 0 and 1 and RAM row 1 at column 1.
bytes 01 00 01 00 AF 02 00 02 00 01 03 > other.trace
bytes 01 00 01 00 AF > dark.trace
bytes "${icon[@]}" > icon.trace
down='row 62, 130: dark, then lit
row 62, 131: lit, then dark
2 runs differ, 2 places in 1 row'
up='row 1, 0: lit, then dark
row 1, 1: dark, then lit
2 runs differ, 2 places in 1 row'
answers 1 "$down" sample.trace other.trace
answers 1 "$up" --upright sample.trace other.trace
answers 1 "$up" sample.trace --upright other.trace
answers 1 "$up" sample.trace other.trace --upright --upright
answers 1 'row 62, 131: dark, then lit
row 63, 130 to 131: dark, then lit
2 runs differ, 3 places in 2 rows' dark.trace sample.trace
answers 1 'row 64 (the icon line), 131: dark, then lit
1 run differs, 1 place in 1 row' dark.trace icon.trace
# A listing is not played: the option is for the trace beside it.
echo "$upright" > upright.list
echo "$upside_down" > upside-down.list
answers 0 'the same, no place differs' upside-down.list sample.trace
answers 0 'the same, no place differs' --upright upright.list sample.trace
answers 0 'the same, no place differs' --upright sample.trace upright.list
input=sample.trace answers 0 'the same, no place differs' --upright upright.list -
turned='row 0, 0 to 1: lit, then dark
row 1, 0: lit, then dark
row 62, 131: dark, then lit
row 63, 130 to 131: dark, then lit
4 runs differ, 6 places in 4 rows'
answers 1 "$turned" upright.list sample.trace
answers 1 "$turned" upright.list upside-down.list
# A trace of each cabinet: the listing of the one beside the other.
"${tool[@]}" list --upright sample.trace > old.list
answers 1 "$turned" old.list sample.trace
# Memories hang on no start.
memories='page 0, column 0: 03, then 01
page 0, column 1: 01, then 03
2 bytes of memory differ, in 1 page'
answers 1 "$memories" --memory sample.trace other.trace
answers 1 "$memories" --memory --upright sample.trace other.trace
# Two listings are not played at all.
run diff --upright upright.list upside-down.list
check 'diff: two listings, status 2' status_is 2
check 'diff: two listings, said' err_is 'ssd1815b: --upright is for traces, and both are listings'
check 'diff: two listings, nothing compared' nothing_on out
run diff --upright=yes sample.trace other.trace
check 'diff: no value is taken, status 2' status_is 2
check 'diff: no value is taken, said' err_has 'ssd1815b: no value is taken by --upright'
run diff --upright --show --brief sample.trace other.trace
check 'diff: what else is wrong is said' err_has '--brief is one line, and --show a screen'

# ---- what the README shows ----

check 'README: document 01'\''s trace from either start' \
  [ "$(sed -n '/^frame 132 65$/,/^end$/p' "$readme")" = "$upside_down"$'\n'"$upright" ]
check 'README: what state says' grep -qxF -- "$new" "$readme"

checks_end starts
