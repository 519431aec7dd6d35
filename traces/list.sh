#!/usr/bin/env bash
# Writes the listings beside each NAME.trace: what the oracle lists, never what
# the model does.  NAME.upright.list is from the old start, NAME.list from the
# new one.  Those that are there are written again; a trace that has neither gets
# NAME.list.  Traces in wide/ are listed as those of a wide terminal.  Says which
# listings are new or other than they were.  Recordings in recorded/ are left
# alone.
#
#   list.sh ORACLE
set -euo pipefail

traces=$(dirname "$0")
oracle=$1
listed=$(mktemp)
trap 'rm -f "$listed"' EXIT
count=0

# write LISTING OPTION...: what the oracle lists of the trace.
write() {
  "$oracle" list "${wide[@]}" "${@:2}" < "$trace" > "$listed"
  count=$((count + 1))
  if ! cmp -s "$listed" "$1"; then
    cat "$listed" > "$1"
    echo "$1: written"
  fi
}

while IFS= read -r trace; do
  name=${trace%.trace}
  wide=()
  if [[ $trace = "$traces"/wide/* ]]; then wide=(--wide); fi
  if [[ $name = *.upright ]]; then
    echo "$trace: a trace is not named so, since $name.list is that of ${name%.upright}.trace" >&2
    exit 1
  fi
  if [ -e "$name.upright.list" ]; then write "$name.upright.list" --upright; fi
  if [ -e "$name.list" ] || [ ! -e "$name.upright.list" ]; then write "$name.list"; fi
done < <(find "$traces" -name recorded -prune -o -name '*.trace' -print | sort)
echo "traces: $count listings"
