#!/usr/bin/env bash
# Executed instructions of each workload of the bench, the library beside plain
# C: the difference between N and 2N times, so that what the program does
# around them falls away.
#
#   instructions.sh BENCH [EMULATOR...]
#
# Counted by the emulator where there is one, else by perf where the machine
# lets it count, else by valgrind.
set -euo pipefail
shopt -s inherit_errexit

bench=$1
emulator=("${@:2}")
out=$(mktemp -d)
trap 'rm -rf "$out"' EXIT

perf_counts() {
  command -v perf > /dev/null &&
    perf stat -x, -e instructions:u true 2>&1 | grep -q '^[0-9]'
}

if [ ${#emulator[@]} -gt 0 ]; then
  by=emulator
elif perf_counts; then
  by=perf
elif command -v valgrind > /dev/null; then
  by=valgrind
else
  echo 'instructions: neither perf nor valgrind can count here' >&2
  exit 1
fi

# count WORKLOAD MODEL TIMES: all instructions of that run.
count() {
  case $by in
    emulator)
      "${emulator[@]}" -singlestep -d exec,nochain -D /dev/stdout \
        "$bench" repeat "$1" "$2" "$3" | grep -c '^Trace' ;;
    perf)
      perf stat -x, -e instructions:u -o "$out/perf" "$bench" repeat "$1" "$2" "$3"
      sed -n 's/^\([0-9]*\),.*instructions.*/\1/p' "$out/perf" ;;
    valgrind)
      valgrind --tool=callgrind --callgrind-out-file="$out/callgrind" \
        "$bench" repeat "$1" "$2" "$3" 2> /dev/null
      sed -n 's/^summary: //p' "$out/callgrind" ;;
  esac
}

# per_unit WORKLOAD MODEL UNITS: a hundred times the instructions of a unit.
per_unit() {
  local n=2 once twice
  once=$(count "$1" "$2" $n)
  twice=$(count "$1" "$2" $((2 * n)))
  if [ "$twice" -le "$once" ]; then
    echo "instructions: $once for $n times and $twice for $((2 * n)) cannot be" >&2
    exit 1
  fi
  echo $(((twice - once) * 100 / n / $3))
}

echo "executed instructions, counted by $by"
printf '%-28s %10s %10s  %-8s %6s\n' '' library 'plain C' '' ratio
number=0
while read -r units unit name; do
  library=$(per_unit $number library "$units")
  plain=$(per_unit $number plain "$units")
  awk -v name="$name" -v unit="$unit" -v library="$library" -v plain="$plain" 'BEGIN {
    printf "%-28s %10.2f %10.2f  per %-6s %4.2f\n", name, library / 100, plain / 100, unit, library / plain
  }'
  number=$((number + 1))
done < <("${emulator[@]}" "$bench" names)
