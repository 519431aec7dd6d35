#!/usr/bin/env bash
# Runs every trace under this folder through the oracle and through the tool,
# from both starts, and compares: the listing, the number, offset and count of
# the run, and the registers that it leaves.  From both starts the run is the
# same, and so is all that it leaves but the two directions.  Of the listings
# beside a NAME.trace, NAME.upright.list is compared from the old start and
# NAME.list from the new one; only a trace in recorded/ that is taken may be
# without one, and no listing may be without its trace.  A trace in refusals/,
# and any other whose name begins with a number and -, is refused with that
# number; all others are taken whole, compared reads too.  Traces in wide/ and in
# recorded/wide/ are those of a wide terminal: the run is that of the oracle's
# listing, and the registers of each chip are by the oracle's run of its own
# events (halves.py).
# Traces, listings and the stored run of crates/listpack must be what make.py and
# pack.py make.
#
#   check.sh ORACLE TOOL...      TOOL... is the command that runs the tool
set -euo pipefail
traces=$(dirname "$0")

oracle=$1
tool=("${@:2}")
count=0
failed=0
has_python() { command -v python3 > /dev/null; }

differ() {
  failed=$((failed + 1))
  echo "traces: $1: $2" >&2
  diff <(echo "$3") <(echo "$4") >&2 || true
}

# The run's number, offset and count, the image or images and the start, from the
# oracle's `run` and from the tool's `state`, in one form.
oracle_outcome() { sed -n '1p; s/^state //p' "$here/$1"; echo "${1/-/ }"; }
tool_outcome() {
  sed -nE 's/^run +[a-z]+, number ([0-9]+) at ([0-9]+), whole records ([0-9]+)$/\1 \2 \3/p' "$1"
  sed -nE 's/^image( of the (left|right))? +//p' "$1"
  sed -nE 's/^start +(upright|upside down),.*/\1/p' "$1"
}

# oracle_run OPTION...: the oracle's run of the trace; of a wide one both chips.
oracle_run() {
  if [ -z "$wide" ]; then
    "$oracle" run "$@"
  else
    "$traces/halves.py" "$oracle" "$@"
  fi < "$trace"
}

# What a run leaves, without the two directions: bytes 12 and 13 of the image.
without_directions() { sed -E 's/^(state .{24})..../\1..../' "$here/$1"; }

here=$(mktemp -d)
trap 'rm -rf "$here"' EXIT

# compare START LISTING OPTION...: the trace from one start, which the option
# names, and the listing that is kept of it.  Leaves the oracle's listing in
# $listed and its run in START.  $wide is --wide or nothing.
# shellcheck disable=SC2086  # no word where $wide is empty
compare() {
  local start=$1 list=$2 kept status expected found
  shift 2
  listed=$("$oracle" list $wide "$@" < "$trace")
  if [ -e "$list" ]; then
    kept=$(cat "$list")
    [ "$listed" = "$kept" ] || differ "$trace" "$start: the oracle, and the listing kept" "$listed" "$kept"
  fi

  status=0
  found=$("${tool[@]}" list $wide "$@" "$trace" 2> /dev/null) || status=$?
  [ "$listed" = "$found" ] || differ "$trace" "$start: listing, oracle and tool" "$listed" "$found"

  expected=0
  case $listed in
    refused*) expected=1 ;;
    'input too long') expected=2 ;;
  esac
  [ "$status" -eq "$expected" ] || differ "$trace" "$start: status of the tool" "$expected" "$status"
  : > "$here/$start"
  [ "$expected" -ne 2 ] || return 0
  [ -z "$wide" ] || has_python || return 0

  oracle_run "$@" > "$here/$start"
  "${tool[@]}" state $wide "$@" "$trace" > "$here/tool" || true
  expected=$(oracle_outcome "$start")
  found=$(tool_outcome "$here/tool")
  [ "$expected" = "$found" ] || differ "$trace" "$start: run and registers, oracle and tool" "$expected" "$found"
}

while IFS= read -r trace; do
  count=$((count + 1))
  name=${trace%.trace}
  wide=
  case $trace in
    "$traces"/wide/* | "$traces"/recorded/wide/*) wide=--wide ;;
  esac
  if [[ $name = *.upright ]]; then
    differ "$trace" "a trace is not named so, since $name.list is that of ${name%.upright}.trace" '' ''
    continue
  fi
  compare upright "$name.upright.list" --upright
  compare upside-down "$name.list"
  expected=$(without_directions upright)
  found=$(without_directions upside-down)
  [ "$expected" = "$found" ] || differ "$trace" 'the oracle from one start, and from the other' "$expected" "$found"

  kept=yes
  [ -e "$name.upright.list" ] || [ -e "$name.list" ] || kept=
  number=$(basename "$trace")
  number=${number%%-*}
  case $trace in
    */recorded/*)
      [[ $listed = frame* || $kept ]] ||
        differ "$trace" "the model does not take this recording (the tool's show says where)" '' "${listed%%$'\n'*}" ;;
    */refusals/* | */[1-9]-*.trace | */1[0-9]-*.trace)
      [[ $listed = "refused $number at "* ]] || differ "$trace" 'not refused by its number' '' "$listed" ;;
    *)
      [[ $listed = frame* ]] || differ "$trace" 'not taken' '' "$listed" ;;
  esac
  [[ $kept || $trace = */recorded/* ]] || differ "$trace" 'has no listing' '' ''
done < <(find "$traces" -name '*.trace' | sort)

while IFS= read -r list; do
  name=${list%.list}
  [ -e "${name%.upright}.trace" ] || differ "$list" 'the listing of no trace' '' ''
done < <(find "$traces" -name '*.list' | sort)

if has_python; then
  "$traces/make.py" --check || failed=$((failed + 1))
  "$traces/pack.py" --check || failed=$((failed + 1))
else
  echo 'traces: sources, pack and registers of wide traces not compared, as there is no python3'
fi

echo "traces: $count compared from both starts, $failed differences"
[ "$count" -gt 0 ] && [ "$failed" -eq 0 ]
