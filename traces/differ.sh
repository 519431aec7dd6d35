#!/usr/bin/env bash
# Compares where the oracle and the tool find two traces to differ: each trace
# under this folder with itself and with the next one of its own folder, their
# screens and their memories, from both starts.  The tool's lines are turned
# back into the oracle's numbers, ROW FIRST LAST WAS IS and PLACE WAS IS; its
# last line and its status must be those of just these lines.  Traces in wide/ are
# compared half by half: the oracle has each chip's own events (halves.py), and
# the tool's lines are those of that half.
#
#   differ.sh ORACLE TOOL...      TOOL... is the command that runs the tool
set -euo pipefail
traces=$(dirname "$0")

oracle=$1
tool=("${@:2}")
count=0
failed=0

here=$(mktemp -d)
trap 'rm -rf "$here"' EXIT

# differ WHAT EXPECTED FOUND: says what is not the same.
differ() {
  failed=$((failed + 1))
  echo "differ: $first and $second: $1" >&2
  diff <(echo "$2") <(echo "$3") | head -n 10 >&2 || true
}

# The tool's lines as the oracle's; a line of another form stays as it is.
screen_numbers() {
  sed -E 's/^row ([0-9]|[1-5][0-9]|6[0-3]|64 \(the icon line\)), /\1 /
          s/ \(the icon line\)//
          s/^([0-9]+ [0-9]+) to ([0-9]+): /\1 \2 /
          s/^([0-9]+) ([0-9]+): /\1 \2 \2 /
          s/ lit, then dark$/ 1 0/
          s/ dark, then lit$/ 0 1/'
}
memory_numbers() {
  local form='^page ([0-7]|8 \(the icon line\)), column ([0-9]+): ([0-9A-F]{2}), then ([0-9A-F]{2})$'
  while IFS= read -r line; do
    if [[ $line =~ $form ]]; then
      echo "$((132 * ${BASH_REMATCH[1]%% *} + BASH_REMATCH[2])) $((16#${BASH_REMATCH[3]})) $((16#${BASH_REMATCH[4]}))"
    else
      echo "$line"
    fi
  done
}

# The numbers of the tool's last line: runs, places and rows; bytes and pages.
sum_numbers() {
  sed -nE '$ {
    s/^the same, no (place|byte of memory) differs(; all are dark)?$/0 0 0/
    s/^([0-9]+) runs? differs?, ([0-9]+) places? in ([0-9]+) rows?$/\1 \2 \3/
    s/^([0-9]+) bytes? of memory differs?, in ([0-9]+) pages?$/\1 \1 \2/
    p
  }'
}
# The same of the oracle's lines; a byte is a place of its page.
count_numbers() {
  awk 'NF == 5 { places += $3 - $2 + 1; lines[$1] }
       NF == 3 { places++; lines[int($1 / 132)] }
       END { for (line in lines) sum++; print NR + 0, places + 0, sum + 0 }'
}

# half TRACE SIDE: the name of a file with the events of that chip.
half() {
  local name
  name=$here/$(basename "$1").$2
  [ -e "$name" ] || "$traces/halves.py" "$oracle" "$2" < "$1" > "$name"
  echo "$name"
}

# one_side SIDE NUMBERS OPTION...: what the oracle and the tool say of one chip,
# or of the only one where SIDE is empty, are the same.
one_side() {
  local side=$1 numbers=$2 one=$first other=$second expected found
  shift 2
  cp "$here/all" "$here/tool"
  if [ -n "$side" ]; then
    one=$(half "$first" "$side")
    other=$(half "$second" "$side")
    sed -nE "s/^$side (half|chip)[,:] //p" "$here/all" > "$here/tool"
  fi
  "$oracle" differ "$@" "$one" "$other" > "$here/oracle" || { differ "the oracle fails ($*)" '' ''; exit 1; }
  expected=$(cat "$here/oracle")
  found=$(sed '$d' "$here/tool" | "$numbers")
  [ "$expected" = "$found" ] || differ "oracle and tool ($side $*)" "$expected" "$found"
  expected=$(count_numbers < "$here/oracle")
  found=$(sum_numbers < "$here/tool")
  [ "$expected" = "$found" ] || differ "counts, by the oracle's lines and the tool's ($side $*)" "$expected" "$found"
}

# compare NUMBERS OPTION...: the two traces by oracle and tool; $wide is --wide and
# $sides names the chips where there are two.
compare() {
  local numbers=$1 status=0 expected=0 side
  shift
  count=$((count + 1))
  # A trace that is refused is compared as it stands there.
  # shellcheck disable=SC2086  # no word where $wide is empty
  "${tool[@]}" diff --refused $wide "$@" "$first" "$second" > "$here/all" 2> "$here/said" || status=$?
  for side in "${sides[@]}"; do
    one_side "$side" "$numbers" "$@"
    [ ! -s "$here/oracle" ] || expected=1
  done
  [ "$expected" -eq "$status" ] || differ "status, by the oracle's lines and the tool's ($*)" "$expected" "$status"
}

while IFS= read -r folder; do
  wide=
  sides=('')
  if [ "$folder" = "$traces/wide" ]; then
    wide=--wide
    sides=(left right)
    if ! command -v python3 > /dev/null; then
      echo 'differ: wide traces not compared, as there is no python3'
      continue
    fi
  fi
  mapfile -t found < <(find "$folder" -maxdepth 1 -name '*.trace' | sort)
  for i in "${!found[@]}"; do
    first=${found[i]}
    for second in "$first" "${found[@]:i+1:1}"; do
      compare screen_numbers
      compare screen_numbers --upright
      compare memory_numbers --memory
      compare memory_numbers --memory --upright
    done
  done
done < <(find "$traces" -mindepth 1 -maxdepth 1 -type d | sort)

echo "differ: $count compared, $failed differences"
[ "$count" -gt 0 ] && [ "$failed" -eq 0 ]
