#!/usr/bin/env bash
# Tests of the tests: builds plain C with each damage of mutants.txt, and sees
# that the comparison with the oracle or the tests of the calls catch it.  The
# damages are shared out among the machine's processors.
#
#   mutants.sh ORACLE CC
set -euo pipefail
shopt -s inherit_errexit
cd "$(dirname "$0")/.."

oracle=$1
cc=$2
out=target/c/mutants
rm -rf "$out"
mkdir -p "$out"

include=(-Ihost -Ihost/tool -Ihost/compare -Ibench)
stream=$out/cases
"$oracle" cases --seed 1 --singles 20000 --events 50000 --runs 3000 \
  --draws 2000 --listings 200 --compared-frames 280 --compared-memories 1300 \
  --starts 400 --wide-singles 20000 --wide-runs 3000 --wide-draws 600 \
  --pages 500 --wide-listings 200 > "$stream"

# The tests themselves are compiled once, without the model: each by its name
# and the objects that it is linked of.
tests=(calls differences samples wide widerun widepicture)
for source in host/compare/*.c host/tool/{listing,played,registers}.c \
              $(printf 'host/test/%s.c ' "${tests[@]}" twochips); do
  mkdir -p "$out/$(dirname "$source")"
  "$cc" -std=c11 -O2 "${include[@]}" -c "$source" -o "$out/${source%.c}.o"
done
compare=()
for source in host/compare/*.c host/tool/{listing,played,registers}.c; do
  compare+=("$out/${source%.c}.o")
done

# compile FILE ROOM: compiles a plain.c as the model, in a folder of its own.
compile() {
  "$cc" -std=c11 -O2 -w "${include[@]}" -include bench/as_model.h -c "$1" -o "$2/model.o"
}

# caught_by ROOM: builds the tests over the model there; says which of them fail.
caught_by() {
  local caught='' test
  "$cc" "${compare[@]}" "$1/model.o" -o "$1/compare"
  "$1/compare" < "$stream" > "$1/report" 2>&1 || caught+=" compare"
  for test in "${tests[@]}"; do
    "$cc" "$out"/host/{"test/$test",test/twochips,compare/room}.o "$1/model.o" -o "$1/$test"
    "$1/$test" > /dev/null 2>&1 || caught+=" $test"
  done
  echo "$caught"
}

# try ROOM LINE: one damage, and a line on what became of it.
try() {
  local name=${2%% | *} caught=
  sed "${2#* | }" bench/plain.c > "$1/plain.c"
  if cmp -s bench/plain.c "$1/plain.c"; then
    name="$name: the damage does not apply"
  elif ! compile "$1/plain.c" "$1"; then
    name="$name: the damage does not compile"
  else
    caught=$(caught_by "$1")
  fi
  if [ -z "$caught" ]; then
    echo "MISSED  $name"
  else
    printf 'caught  %-55s by%s\n' "$name" "$caught"
  fi
}

# share FIRST EVERY: tries one in so many damages; says of each its place.
share() {
  local room=$out/$1 place line
  mkdir "$room"
  for ((place = $1; place < ${#damages[@]}; place += $2)); do
    line=$(try "$room" "${damages[place]}")
    printf '%s %s\n' "$place" "$line"
  done > "$room/said"
}

mkdir "$out/undamaged"
compile bench/plain.c "$out/undamaged"
undamaged=$(caught_by "$out/undamaged")
if [ -n "$undamaged" ]; then
  echo "mutants: plain.c itself fails:$undamaged" >&2
  exit 1
fi

mapfile -t damages < <(grep -v -e '^#' -e '^$' bench/mutants.txt)
jobs=$(nproc)
workers=()
for ((first = 0; first < jobs; first++)); do
  share "$first" "$jobs" &
  workers+=($!)
done
for worker in "${workers[@]}"; do
  wait "$worker"
done

sort -n "$out"/*/said | cut -d ' ' -f 2- | tee "$out/said"
tried=$(wc -l < "$out/said")
missed=$(grep -c '^MISSED' "$out/said" || true)
echo "mutants: $tried tried, $missed missed"
[ "$tried" -gt 0 ] && [ "$tried" -eq "${#damages[@]}" ] && [ "$missed" -eq 0 ]
