#!/usr/bin/env bash
# Tests of .ci/starts: which files it takes for callers that start a chip, and
# what it says of docs/STARTS.md where the two are not the same.
#
#   callers.sh      in the repository's folder
set -euo pipefail

# shellcheck source=host/test/checks.sh
. "$(dirname "$0")/checks.sh"

# A repository of a few callers, each with its start.
house=$here/house
mkdir -p "$house/.ci" "$house/docs" "$house/traces/rules" "$house/crates/one/src"
cp .ci/starts "$house/.ci"
echo 'ssd1815b_start(state, 23, memory, 1188);' > "$house/new.c"
echo 'ssd1815b_start_upright(state, 23, memory, 1188);' > "$house/old.c"
printf 'ssd1815b list one.trace\nssd1815b list --upright one.trace\n' > "$house/both.sh"
echo 'echo nothing is played' > "$house/none.sh"
echo 'list_from(Hung::Upright)' > "$house/crates/one/src/main.rt"
touch "$house/traces/rules/a.upright.list"
# shellcheck disable=SC2016  # backquotes of the table
rows=('| `new.c` | new | why |' '| `old.c` | old | why |' '| `both.sh` | both | why |'
  '| `crates/one/src/main.rt` | old | why |' '| `traces/rules/` | old | why |')
git -C "$house" init -q

# listed ROWS...: .ci/starts where docs/STARTS.md has these rows.
listed() {
  printf '%s\n' '| caller | start | why |' '|---|---|---|' "$@" > "$house/docs/STARTS.md"
  git -C "$house" add -A
  ran "$house/.ci/starts"
}

listed "${rows[@]}"
check 'all are listed: status 0' status_is 0
check 'all are listed: how many' out_is 'starts: 5 callers, each in docs/STARTS.md'

for i in "${!rows[@]}"; do
  IFS='|' read -r _ path start _ <<< "${rows[i]//[ \`]/}"
  listed "${rows[@]:0:i}" "${rows[@]:i+1}"
  check "$path not listed: status 1" status_is 1
  check "$path not listed: said" out_is "docs/STARTS.md does not list $path, which takes the start: $start"
  for other in old new both; do
    [ "$other" != "$start" ] || continue
    listed "${rows[@]:0:i}" "${rows[i]/| $start |/| $other |}" "${rows[@]:i+1}"
    check "$path listed as $other: status 1" status_is 1
    check "$path listed as $other: said" out_is "docs/STARTS.md says $other of $path, which takes the start: $start"
  done
done

# shellcheck disable=SC2016  # backquotes of the table
listed "${rows[@]}" '| `none.sh` | new | why |'
check 'a row without a caller: status 1' status_is 1
check 'a row without a caller: said' out_is 'docs/STARTS.md lists none.sh, which starts no chip'
listed "${rows[@]}" "${rows[0]}"
check 'two rows: status 1' status_is 1
check 'two rows: said' out_is 'docs/STARTS.md has two rows of new.c'

# taken LINE FILE START: a file of this line is a caller that takes this start.
taken() {
  mkdir -p "$(dirname "$house/$2")"
  printf '%s\n' "$1" > "$house/$2"
  listed "${rows[@]}"
  check "taken: $1" out_is "docs/STARTS.md does not list $2, which takes the start: $3"
  rm "$house/$2"
}
while IFS='~' read -r line file start; do taken "$line" "$file" "$start"; done <<'END'
"$tool" list one.trace~a.sh~new
"${tool[@]}" show --upright one.trace~a.sh~old
run() { ran "${tool[@]}" "$@"; }~a.sh~new
"$prefix/bin/ssd1815b" list < one.trace~a.sh~new
"${make[@]}" show TRACE=one.trace~a.sh~new
make -s show UPRIGHT=yes~a.sh~old
	$(MAKE) show~Makefile~new
    traces/typed.py mine.txt~a.md~new
    crates/listtrace/out/listtrace < one.trace~a.md~new
"$listpack" < pack~a.sh~new
subprocess.run([tool, "list", name])~a.py~new
subprocess.run([oracle, "list", "--upright"])~a.py~old
"$oracle" differ one.trace other.trace~a.sh~new
$ ssd1815b picture -o one.png one.trace~a.1~new
start_chip(hung, state, memory);~a.h~both
uint8_t number = plain_start_upright(state, 23, memory, 1188);~a.cpp~old
chip = Chip()~python/a.py~new
chip = Chip(upright=True)~python/a.py~old
let start = Start::UpsideDown;~oracle/a.rs~new
sample = run (image_of power_on) zeros own~crates/one/specs/A.antt~old
END

# A second listing makes a folder both; a silent call makes an old caller both.
touch "$house/traces/rules/a.list"
listed "${rows[@]}"
check 'a second listing: said' out_is 'docs/STARTS.md says old of traces/rules/, which takes the start: both'
rm "$house/traces/rules/a.list"
echo 'plain_start(state, 23, memory, 1188);' >> "$house/old.c"
listed "${rows[@]}"
check 'the new start by silence: said' out_is 'docs/STARTS.md says old of old.c, which takes the start: both'

checks_end callers
