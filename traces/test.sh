#!/usr/bin/env bash
# Tests of make.py, typed.py, list.sh, halves.py, pack.py, check.sh and differ.sh:
# what they say of sources, listings, recordings, differences and starts that are not as
# they should be, and that they overwrite nothing that is not theirs; and of
# packs.py and program.sh, with stand-ins for the programs that they run.  All is
# done in a temporary copy.
#
#   test.sh ORACLE TOOL...      TOOL... is the command that runs the tool
set -euo pipefail
traces=$(dirname "$0")

if ! command -v python3 > /dev/null; then
  echo 'trace scripts: not tested, as there is no python3'
  exit 0
fi

oracle=$(realpath "$1")
tool=("${@:2}")
# shellcheck source=host/test/checks.sh
. "$traces/../host/test/checks.sh"

# A folder of traces with one trace in it, and its stored run.
copy=$here/copy
mkdir -p "$copy/traces/rules" "$copy/traces/recorded" "$copy/crates/listpack"
cp "$traces"/{check.sh,halves.py,list.sh,make.py,pack.py,program.sh,typed.py} "$copy/traces"
cp "$traces"/rules/bits.* "$copy/traces/rules"
"$copy/traces/pack.py"
check_traces() { ran "$copy/traces/check.sh" "$oracle" "${tool[@]}"; }

check_traces
check 'check.sh: one trace, as it should be' status_is 0
check 'check.sh: it is compared' out_has 'traces: 1 compared from both starts, 0 differences'

# ---- the two starts ----

# The listings of bits from the old start and from the new one.
bits=$copy/traces/rules/bits
cp "$bits.upright.list" "$here/old"
cp "$bits.list" "$here/new"
echo damaged > "$here/damaged"
check 'bits: not the same from both starts' [ "$(cat "$here/old")" != "$(cat "$here/new")" ]

# keeps OLD NEW: bits.upright.list and bits.list are these; - is none.
keeps() {
  rm -f "$bits.upright.list" "$bits.list"
  [ "$1" = - ] || cp "$here/$1" "$bits.upright.list"
  [ "$2" = - ] || cp "$here/$2" "$bits.list"
}
is_kept() { if [ "$2" = - ]; then [ ! -e "$1" ]; else cmp -s "$1" "$here/$2"; fi; }
kept() { is_kept "$bits.upright.list" "$1" && is_kept "$bits.list" "$2"; }

# lists OLD NEW, THEN_OLD THEN_NEW: what list.sh makes of these.
lists() {
  keeps "$1" "$2"
  ran "$copy/traces/list.sh" "$oracle"
  check "list.sh: $1 and $2, then $3 and $4" kept "$3" "$4"
}
lists damaged damaged old new
lists damaged - old -
lists - damaged - new
lists - - - new
lists new old old new
check 'list.sh: both are told' out_is "$bits.upright.list: written
$bits.list: written
traces: 2 listings"

# stands STATUS OLD NEW: how check.sh finds these, with the pack that they make.
stands() {
  keeps "$2" "$3"
  "$copy/traces/pack.py"
  check_traces
  check "check.sh: $2 and $3, status $1" status_is "$1"
}
old_differs() { err_has 'rules/bits.trace: upright: the oracle, and the listing kept'; }
new_differs() { err_has 'rules/bits.trace: upside-down: the oracle, and the listing kept'; }
stands 0 old new
stands 0 old -
stands 0 - new
stands 1 - old
check 'check.sh: the old start without its name' new_differs
stands 1 new -
check 'check.sh: the new start by the name of the old' old_differs
stands 1 new old
check 'check.sh: one for the other' old_differs
check 'check.sh: the other for the one' new_differs
keeps - -
check_traces
check 'check.sh: no listing, fails' status_is 1
check 'check.sh: no listing, said' err_has 'rules/bits.trace: has no listing'

# packed COUNT OLD NEW: the stored run that these make.
packed() {
  keeps "$2" "$3"
  : > "$here/stdin"
  : > "$here/stdout"
  if [ "$2" != - ]; then
    { bytes 12 00 00 00 12 00 00 00; printf 'upright rules/bits'; cat "$bits.trace"; } >> "$here/stdin"
    { echo 'trace upright rules/bits'; cat "$here/$2"; } >> "$here/stdout"
  fi
  if [ "$3" != - ]; then
    { bytes 0A 00 00 00 12 00 00 00; printf 'rules/bits'; cat "$bits.trace"; } >> "$here/stdin"
    { echo 'trace rules/bits'; cat "$here/$3"; } >> "$here/stdout"
  fi
  echo "$1 traces" >> "$here/stdout"
  "$copy/traces/pack.py"
  check "pack.py: $2 and $3, the pack" cmp -s "$copy/crates/listpack/stdin" "$here/stdin"
  check "pack.py: $2 and $3, its listing" cmp -s "$copy/crates/listpack/stdout" "$here/stdout"
}
packed 1 old -
packed 1 - new
packed 2 old new

# A command without --upright, and one with it always.
cat > "$here/deaf" <<'END'
#!/usr/bin/env bash
words=()
for word in "$@"; do [ "$word" = --upright ] || words+=("$word"); done
exec "${words[@]}"
END
cat > "$here/always" <<'END'
#!/bin/sh
case " $* " in *' --upright '*) exec "$@" ;; *) exec "$@" --upright ;; esac
END
# The tool, that says the other start than it plays from.
cat > "$here/mistaken" <<'END'
#!/usr/bin/env bash
set -o pipefail
"$@" | sed -E 's/^(start +)upright,/\1upside down,/; t; s/^(start +)upside down,/\1upright,/'
END
for command in deaf always; do
  printf '#!/bin/sh\nexec "%s" "%s" "$@"\n' "$here/$command" "$oracle" > "$here/$command-oracle"
done
# The oracle, with a run from the new start as OTHER, lines of sed, would have it.
cat > "$here/other-oracle" <<END
#!/bin/sh
if [ "\$1 \$2" = 'run ' ]; then "$oracle" "\$@" | sed -E "\$OTHER"; else exec "$oracle" "\$@"; fi
END
chmod +x "$here"/{deaf,always,mistaken,deaf-oracle,always-oracle,other-oracle}

# caught WHAT WORDS ORACLE TOOL...: check.sh fails, and says so.
caught() {
  ran "$copy/traces/check.sh" "${@:3}"
  check "check.sh: $1, fails" status_is 1
  check "check.sh: $1, said" err_has "$2"
}
caught 'a tool without --upright' 'rules/bits.trace: upright: listing, oracle and tool' "$oracle" "$here/deaf" "${tool[@]}"
check 'check.sh: a tool without --upright, its registers' err_has ': upright: run and registers, oracle and tool'
check 'check.sh: a tool without --upright, nothing else' [ "$(grep -c '^traces: ' "$here/err")" -eq 2 ]
caught 'a tool that always begins upright' 'rules/bits.trace: upside-down: listing, oracle and tool' "$oracle" "$here/always" "${tool[@]}"
check 'check.sh: a tool that always begins upright, its registers' err_has ': upside-down: run and registers, oracle and tool'
check 'check.sh: a tool that always begins upright, nothing else' [ "$(grep -c '^traces: ' "$here/err")" -eq 2 ]
caught 'a tool that says the other start' ': upright: run and registers, oracle and tool' "$oracle" "$here/mistaken" "${tool[@]}"
check 'check.sh: a tool that says the other start, both times' err_has ': upside-down: run and registers, oracle and tool'
caught 'both without --upright' ': upright: the oracle, and the listing kept' "$here/deaf-oracle" "$here/deaf" "${tool[@]}"
caught 'both always upright' ': upside-down: the oracle, and the listing kept' "$here/always-oracle" "$here/always" "${tool[@]}"
# Number, offset, count; page, frame phases, entire on, fresh; the memory.
for other in '1s/^[0-9]+/3/' '1s/ [0-9]+ / 9 /' '1s/[0-9]+$/9/' \
  's/^state ../state 07/' 's/^(state .{22})../\107/' 's/^(state .{28})../\107/' 's/..$/07/' 's/^memory .*/memory/'; do
  OTHER=$other caught "a run that hangs on the start ($other)" 'rules/bits.trace: the oracle from one start, and from the other' \
    "$here/other-oracle" "${tool[@]}"
done
OTHER=p caught 'the same run, told twice' 'upside-down: run and registers, oracle and tool' "$here/other-oracle" "${tool[@]}"

# A listing that nothing is compared with, and traces that are named as listings of the old start are.
for stray in rules/bits.uprigth.list rules/other.list rules/other.upright.list recorded/other.upright.list; do
  cp "$here/old" "$copy/traces/$stray"
  caught "$stray" "$stray: the listing of no trace" "$oracle" "${tool[@]}"
  rm "$copy/traces/$stray"
done
cp "$bits.trace" "$copy/traces/recorded/bits.upright.trace"
caught 'a recording that is named .upright' 'recorded/bits.upright.trace: a trace is not named so' "$oracle" "${tool[@]}"
mv "$copy/traces/recorded/bits.upright.trace" "$bits.upright.trace"
caught 'a trace that is named .upright' 'rules/bits.upright.trace: a trace is not named so' "$oracle" "${tool[@]}"
ran "$copy/traces/list.sh" "$oracle"
check 'list.sh: a trace that is named .upright, fails' status_is 1
check 'list.sh: a trace that is named .upright, said' \
  err_is "$bits.upright.trace: a trace is not named so, since $bits.upright.list is that of $bits.trace"
check 'list.sh: a trace that is named .upright, the listings stay' kept old new
ran "$copy/traces/pack.py"
check 'pack.py: a trace that is named .upright' \
  err_is 'traces/rules/bits.upright.trace: a trace is not named so, since that is how the old start is named'
rm "$bits.upright.trace"
mkdir "$copy/traces/upright x"
cp "$bits.trace" "$bits.list" "$copy/traces/upright x"
ran "$copy/traces/pack.py"
check 'pack.py: a folder that is named upright' \
  err_is 'traces/upright x/bits.trace: a trace is not named so, since that is how the old start is named'
rm -r "$copy/traces/upright x"

# The longest pack that the program for packs takes, and one that is longer.
room=$(((131072 - $(wc -c < "$here/stdin")) / 2 - 8 - 7))
for size in "$room" $((room + 1)); do
  for name in a b; do
    head -c "$size" /dev/zero > "$copy/traces/rules/$name.trace"
    cp "$here/new" "$copy/traces/rules/$name.list"
  done
  ran "$copy/traces/pack.py"
  check "pack.py: traces of $size bytes, status" status_is $((size > room))
  check "pack.py: traces of $size bytes, the longest pack is made" [ "$(wc -c < "$copy/crates/listpack/stdin")" -eq 131072 ]
done
check 'pack.py: too long, said' err_is 'the pack would have 131074 bytes, and the program for packs takes 131072'
rm "$copy/traces/rules"/[ab].*
"$copy/traces/pack.py"
check_traces
check 'check.sh: as it should be again' status_is 0

# ---- recordings ----

recording=$copy/traces/recorded/mine
bytes 01 00 01 00 AF 02 00 02 00 03 01 > "$recording.trace"
check_traces
check 'recording: taken' status_is 0

# What the glass showed, on an old cabinet and on a new one.
printf 'frame 132 65\n0 0-1\n1 0-0\nend\n' > "$here/old-glass"
printf 'frame 132 65\n62 131-131\n63 130-131\nend\n' > "$here/new-glass"
# glass STATUS CABINET NAME: what that cabinet showed, by the name of a listing.
glass() {
  cp "$here/$2-glass" "$3"
  check_traces
  check "recording: $(basename "$3") of an $2 cabinet, status $1" status_is "$1"
}
glass 0 old "$recording.upright.list"
glass 0 new "$recording.list"
glass 1 old "$recording.list"
check 'recording: which start' err_has 'recorded/mine.trace: upside-down: the oracle, and the listing kept'
rm "$recording.list"
glass 1 new "$recording.upright.list"
check 'recording: which start, by its name' err_has 'recorded/mine.trace: upright: the oracle, and the listing kept'
rm "$recording.upright.list"

# A dummy read, and then a byte that is not in memory.
bytes 02 00 03 00 00 55 > "$recording.trace"
check_traces
check 'recording: refused, fails' status_is 1
check 'recording: refused, by name' err_has 'recorded/mine.trace: the model does not take this recording'
check 'recording: refused, where' err_has 'refused 10 at 5'
check 'recording: refused, told once' [ "$(grep -c 'does not take this recording' "$here/err")" -eq 1 ]
for list in "$recording.list" "$recording.upright.list"; do
  printf 'refused 10 at 5\nframe 132 65\nend\n' > "$list"
  check_traces
  check "recording: refused, and known ($list)" status_is 0
  printf 'frame 132 65\nend\n' > "$list"
  check_traces
  check "recording: refused, and the glass showed more ($list)" status_is 1
  rm "$list"
done

head -c 65540 /dev/zero > "$recording.trace"
check_traces
check 'recording: too long, fails' status_is 1
check 'recording: too long, said' err_has 'input too long'
for list in "$recording.list" "$recording.upright.list"; do
  echo 'input too long' > "$list"
  check_traces
  check "recording: too long, and known ($list)" status_is 0
  rm "$list"
done
rm "$recording.trace"

# ---- names that say a refusal ----

bytes 01 00 01 00 B9 > "$copy/traces/rules/4-named.trace"
"$copy/traces/list.sh" "$oracle" > /dev/null
"$copy/traces/pack.py"
check_traces
check 'a name with a number: refused with it' status_is 0
mv "$copy/traces/rules/4-named.trace" "$copy/traces/rules/3-named.trace"
mv "$copy/traces/rules/4-named.list" "$copy/traces/rules/3-named.list"
"$copy/traces/pack.py"
check_traces
check 'a name with a number: refused with another, fails' status_is 1
check 'a name with a number: said' err_has 'rules/3-named.trace: not refused by its number'
rm "$copy/traces/rules"/3-named.*
"$copy/traces/pack.py"

# ---- traces of a wide terminal ----

mkdir "$copy/traces/wide"
right=$copy/traces/wide/right
printf 'select right\ncommand AF 02\nwrite 03 01\n' > "$right.txt"
"$copy/traces/make.py" > /dev/null
touch "$right.list" "$right.upright.list"
"$copy/traces/list.sh" "$oracle" > /dev/null
check 'list.sh: wide, from the old start' [ "$(cat "$right.upright.list")" = $'frame 264 65\n0 134-135\n1 134-134\nend' ]
check 'list.sh: wide, from the new start' [ "$(cat "$right.list")" = $'frame 264 65\n62 261-261\n63 260-261\nend' ]
cp "$copy/crates/listpack/stdin" "$here/stdin"
"$copy/traces/pack.py"
check 'pack.py: wide traces are left out' cmp -s "$copy/crates/listpack/stdin" "$here/stdin"
check_traces
check 'check.sh: wide, as it should be' status_is 0
check 'check.sh: wide, it is compared' out_has 'traces: 2 compared from both starts, 0 differences'

# A tool without --wide, one that tells of another run, and a narrow listing.
cat > "$here/narrow" <<'END'
#!/usr/bin/env bash
words=()
for word in "$@"; do [ "$word" = --wide ] || words+=("$word"); done
exec "${words[@]}"
END
cat > "$here/other" <<'END'
#!/usr/bin/env bash
set -o pipefail
"$@" | sed -E "$OTHER"
END
chmod +x "$here"/{narrow,other}
caught 'a tool without --wide' 'wide/right.trace: upright: listing, oracle and tool' "$oracle" "$here/narrow" "${tool[@]}"
for other in 's/^(image of the left +)../\107/' 's/^(image of the right +..)../\107/' \
  '/^image of the left/d' '/^image of the left/{h;d}; /^image of the right/G' 's/whole records 3/whole records 2/'; do
  OTHER=$other caught "another run of a wide trace ($other)" 'wide/right.trace: upside-down: run and registers, oracle and tool' \
    "$oracle" "$here/other" "${tool[@]}"
done
"$oracle" list < "$right.trace" > "$right.list"
caught 'the narrow listing of a wide trace' 'wide/right.trace: upside-down: the oracle, and the listing kept' "$oracle" "${tool[@]}"
rm "$right.list"

# Names that say a refusal.
for number in 13 14; do
  printf 'command AF\nrecord 0005 04\n' > "$copy/traces/wide/$number-named.txt"
  "$copy/traces/make.py" > /dev/null
  "$copy/traces/list.sh" "$oracle" > /dev/null
  check_traces
  check "a name with $number: status" status_is $((number - 13))
  rm "$copy/traces/wide/$number-named".*
done
check 'a name with a number: said of a wide trace' err_has 'wide/14-named.trace: not refused by its number'

# What each chip is left with, by halves.py: refused in the middle of a record that both have.
printf 'write 11\nselect right\nwrite 22\nselect both\ncommand 81 05 B9 B3\n' > "$right.txt"
"$copy/traces/make.py" > /dev/null
ran "$copy/traces/halves.py" "$oracle" --upright < "$right.trace"
check 'halves.py: status 0' status_is 0
check 'halves.py: number, offset and whole records' line_is 1 '4 26 4'
check 'halves.py: the left' line_is 2 'state 000100003F050400000000000000000000000000000001'
check 'halves.py: its memory' line_is 3 "$("$oracle" run < <(bytes 01 00 02 00 11) | sed -n 3p)"
check 'halves.py: the right' line_is 4 'state 000200003F050400000000000000000000000000000001'
check 'halves.py: its memory too' line_is 5 "$("$oracle" run < <(bytes 02 00 02 00 11 22) | sed -n 3p)"
# half SIDE BYTES...: the trace of one chip.
half() {
  "$copy/traces/halves.py" "$oracle" "$1" < "$right.trace" > "$here/half"
  check "halves.py: the $1 chip's own trace" cmp -s "$here/half" <(bytes "${@:2}")
}
half left 01 00 02 00 11 02 00 01 00 81 05
half right 01 00 02 00 11 01 00 02 00 22 02 00 01 00 81 05
ran "$copy/traces/halves.py" "$oracle" both < "$right.trace"
check 'halves.py: no such half' status_is 1
rm -r "$copy/traces/wide"

# A recording of a wide terminal, where it belongs and where not.
mkdir "$copy/traces/recorded/wide"
bytes 01 00 05 00 02 01 00 01 00 AF > "$copy/traces/recorded/wide/site.trace"
check_traces
check 'recording: wide, taken' status_is 0
mv "$copy/traces/recorded/wide/site.trace" "$copy/traces/recorded/site.trace"
check_traces
check 'recording: wide, among those of one chip' err_has 'recorded/site.trace: the model does not take this recording'
rm -r "$copy/traces/recorded"/{wide,site.trace}

# ---- recordings are never written to ----

# A recording with notes beside it, one of them a source, and what the glass showed.
bytes 01 00 01 00 AF > "$recording.trace"
echo '# site 7, on a Tuesday' > "$recording.txt"
printf 'frame 132 65\nend\n' > "$recording.list"
echo 'command AE' > "$copy/traces/recorded/other.txt"
recordings() { (cd "$copy/traces/recorded" && find . -type f | sort | xargs sha256sum); }
before=$(recordings)
# untouched WHAT COMMAND...: recorded/ is as it was after it.
untouched() {
  ran "${@:2}"
  check "recorded/ untouched: $1" [ "$(recordings)" = "$before" ]
}
untouched 'make.py' "$copy/traces/make.py"
check 'make.py: notes beside a recording are no fault' status_is 0
check 'make.py: sources in recorded/ are not counted' out_is 'traces: 1 source, 0 wrong'
untouched 'make.py --force' "$copy/traces/make.py" --force
untouched 'make.py --check' "$copy/traces/make.py" --check
check 'make.py --check: notes beside a recording are no fault' status_is 0
for name in mine other; do
  for force in '' --force; do
    # shellcheck disable=SC2086  # no word where it is empty
    untouched "make.py $force recorded/$name.txt" "$copy/traces/make.py" $force "$copy/traces/recorded/$name.txt"
    check "make.py $force recorded/$name.txt: status 1" status_is 1
    check "make.py $force recorded/$name.txt: said" \
      err_is "make.py: $copy/traces/recorded/$name.txt: nothing is written to recorded/; type a trace in another folder"
  done
done
ln -s recorded "$copy/traces/link"
untouched 'make.py by a link' "$copy/traces/make.py" --force
untouched 'make.py by a link, named' "$copy/traces/make.py" --force "$copy/traces/link/mine.txt"
rm "$copy/traces/link"
untouched 'list.sh' "$copy/traces/list.sh" "$oracle"
check 'list.sh: status 0' status_is 0
check 'list.sh: nothing is written that is so already' out_is 'traces: 2 listings'
untouched 'pack.py' "$copy/traces/pack.py"
untouched 'check.sh' "$copy/traces/check.sh" "$oracle" "${tool[@]}"
untouched 'typed.py' env SSD1815B_TOOL="${tool[*]}" "$copy/traces/typed.py" "$copy/traces/recorded/other.txt"
rm "$copy/traces/recorded"/*

# ---- listings ----

keeps old damaged
ran "$copy/traces/list.sh" "$oracle"
check 'list.sh: the listing again' kept old new
check 'list.sh: which was written' line_is 1 "$bits.list: written"
for only in 'old -' '- new' 'old new'; do
  # shellcheck disable=SC2086  # two words
  keeps $only
  ran "$copy/traces/list.sh" false
  check "list.sh: an oracle that fails, fails ($only)" [ "$status" -ne 0 ]
  # shellcheck disable=SC2086
  check "list.sh: an oracle that fails leaves the listings ($only)" kept $only
done

# ---- the stored run ----

keeps - -
check_traces
check 'pack.py: no listing, fails' status_is 1
# shellcheck disable=SC2016  # backquotes of the text
check 'pack.py: no listing, said' err_has 'traces/rules/bits.trace has no listing: `make traces` makes one'
ran "$copy/traces/pack.py" --check
# shellcheck disable=SC2016
check 'pack.py: no listing, and no more said' err_is 'traces/rules/bits.trace has no listing: `make traces` makes one'
for only in 'old -' '- new' 'new old'; do
  # shellcheck disable=SC2086  # two words
  keeps $only
  ran "$copy/traces/pack.py" --check
  check "pack.py: not the pack of these listings, fails ($only)" status_is 1
done
keeps old new
ran "$copy/traces/pack.py" --check
check 'pack.py: the pack of both listings' status_is 0

# ---- sources: what is made ----

source=$copy/mine.txt
made=$copy/mine.trace

# makes BYTES LINES...: the bytes of a source of these lines.
makes() {
  rm -f "$copy"/mine.trace
  printf '%b\n' "${@:2}" > "$source"
  ran "$copy/traces/make.py" "$source"
  check "make.py: status 0 (${*:2})" status_is 0
  check "make.py: $1 (${*:2})" [ "$(od -An -tx1 -v "$made" | tr -d ' \n')" = "${1// /}" ]
}
makes '01 00 01 00 af 02 00 02 00 03 01' 'command AF  # on' '' 'write 03 01'
makes '03 00 02 00 ab ab ab 00 00 04 00' 'write ab x 3' 'reset'
makes '01 00 05 01 7f 01 00' 'record 0105 7F' 'bytes 01 00'
makes '01 00 05 00 01 01 00 05 00 02 01 00 05 00 03' 'select left' 'select\tright # right' 'select both'
makes '06 00 02 00 00 60 60 00 00 00 02 00 03 00 00 55' 'text .' 'read\t00 55'
makes '01 00 01 00 af' '\xEF\xBB\xBFcommand AF\r'
makes '' '# nothing'

# All under the folder, and several by name.
cp "$copy/traces/rules/bits.trace" "$here/bits.trace"
rm "$copy/traces/rules/bits.trace"
ran "$copy/traces/make.py"
check 'make.py: all under its folder' cmp -s "$copy/traces/rules/bits.trace" "$here/bits.trace"
echo 'command AF' > "$copy/other.txt"
rm -f "$made"
ran "$copy/traces/make.py" "$source" "$copy/other.txt"
check 'make.py: several' [ -e "$made" ]
check 'make.py: several, said' out_is 'traces: 2 sources, 0 wrong'
check 'make.py: the other of them' [ -e "$copy/other.trace" ]

# ---- sources: what is not overwritten ----

# A recording beside notes, in a folder of one's own.
own=$copy/own
mkdir "$own"
bytes 01 00 01 00 A5 > "$own/site7.trace"
cp "$own/site7.trace" "$here/site7.trace"
echo '# notes alone' > "$own/site7.txt"
echo 'command AF' > "$own/new.txt"
ran "$copy/traces/make.py" "$own/new.txt" "$own/site7.txt"
check 'make.py: a trace that it did not make: status 1' status_is 1
check 'make.py: a trace that it did not make, said' \
  err_is "$own/site7.trace is not overwritten: it was not made here from site7.txt (--force overwrites it)"
check 'make.py: a trace that it did not make stays' cmp -s "$own/site7.trace" "$here/site7.trace"
check 'make.py: and then nothing is written' [ ! -e "$own/new.trace" ]

# What it made it may make again, as often as the source is edited.
ran "$copy/traces/make.py" "$own/new.txt"
check 'make.py: a new trace' status_is 0
for code in A5 A4 A4; do
  echo "command $code" > "$own/new.txt"
  ran "$copy/traces/make.py" "$own/new.txt"
  check "make.py: its own trace again ($code)" status_is 0
  check "make.py: its own trace, as edited ($code)" cmp -s "$own/new.trace" <(bytes 01 00 01 00 "$code")
done
check 'make.py: its record is one that sha256sum reads' sh -c "cd '$own' && sha256sum --check --status made.sha256"

# A recording put in the place of what it made is not overwritten.
cp "$here/site7.trace" "$own/new.trace"
echo 'command A6' > "$own/new.txt"
ran "$copy/traces/make.py" "$own/new.txt"
check 'make.py: a recording put in its place: status 1' status_is 1
check 'make.py: a recording put in its place stays' cmp -s "$own/new.trace" "$here/site7.trace"

# Nor is one that was typed after it and was equal for a time.
echo 'command A5' > "$own/site7.txt"
ran "$copy/traces/make.py" "$own/site7.txt"
check 'make.py: a recording typed alike: status 0' status_is 0
echo 'command A4' > "$own/site7.txt"
ran "$copy/traces/make.py" "$own/site7.txt"
check 'make.py: a recording typed alike, then edited: status 1' status_is 1
check 'make.py: a recording typed alike stays' cmp -s "$own/site7.trace" "$here/site7.trace"

ran "$copy/traces/make.py" --force "$own/site7.txt"
check 'make.py --force: status 0' status_is 0
check 'make.py --force: overwritten' cmp -s "$own/site7.trace" <(bytes 01 00 01 00 A4)
echo 'command A6' > "$own/site7.txt"
ran "$copy/traces/make.py" "$own/site7.txt"
check 'make.py --force: from then on it is its own' cmp -s "$own/site7.trace" <(bytes 01 00 01 00 A6)

# ---- sources: told by their lines ----

# typed ARGUMENTS...: the source through the tool.
typed() { ran env SSD1815B_TOOL="${tool[*]}" "$copy/traces/typed.py" "$@"; }
# line_of PATTERN: the number of the first line of standard output that begins so.
line_of() { grep -n -m 1 -- "^$1" "$here/out" | cut -d : -f 1; }

# Remarks and blank lines count as lines; the second byte of line 7 is refused.
printf '# a\ncommand AE\n\nwrite 01 02 # two\ncommand AF\n# b\n  command D3 40  # too much\nreset\n' > "$own/mine.txt"
typed "$own/mine.txt"
check 'typed.py: refused, status 1' status_is 1
check 'typed.py: the line' out_has "$own/mine.txt:7: command D3 40"
check "typed.py: the tool's words follow" [ "$(line_of 'refused 5 at 21 (0x15): ')" -eq $(($(line_of "$own/mine.txt:7:") + 1)) ]
check 'typed.py: the line, once' [ "$(grep -c "$own/mine.txt:7:" "$here/out")" -eq 1 ]
check 'typed.py: the screen is shown' [ "$(line_of "$own/mine.txt")" -gt 30 ]
check 'typed.py: nothing is written' [ ! -e "$own/mine.trace" ]
# typed_lists LISTING ARGUMENT...: what a command that lists it prints.
typed_lists() {
  typed "${@:2}" "$own/mine.txt"
  check "typed.py ${*:2}: status 1" status_is 1
  check "typed.py ${*:2}: the listing as it is" out_is "$(printf 'refused 5 at 21\nframe 132 65\n%send' "$1")"
  check "typed.py ${*:2}: the line, on standard error" [ "$(head -n 1 "$here/err")" = "$own/mine.txt:7: command D3 40" ]
}
typed_lists $'62 130-130\n63 131-131\n' list
typed_lists $'0 0-0\n1 1-1\n' list --upright
typed_lists $'0 0-0\n1 1-1\n' list --upright --after 9
# The same with no command: what `show` draws from each start.
bytes 01 00 01 00 AF 02 00 02 00 03 01 > "$own/sample.trace"
typed "$own/sample.trace"
check 'typed.py: from the new start' out_is "$("${tool[@]}" show "$own/sample.trace")"
typed --upright "$own/sample.trace"
check 'typed.py --upright: from the old start' out_is "$("${tool[@]}" show --upright "$own/sample.trace")"
typed show --upright "$own/sample.trace"
check 'typed.py show --upright: from the old start' out_is "$("${tool[@]}" show --upright "$own/sample.trace")"
check 'typed.py: the two are not the same' \
  [ "$("${tool[@]}" show "$own/sample.trace")" != "$("${tool[@]}" show --upright "$own/sample.trace")" ]
typed picture --scale 1 "$own/mine.txt"
check 'typed.py picture: its options' [ "$(head -n 1 "$here/out")" = P4 ]
check 'typed.py picture: the line, on standard error' [ "$(head -n 1 "$here/err")" = "$own/mine.txt:7: command D3 40" ]

# told_at LINE LINES...: a source of these lines is refused at that one.
told_at() {
  printf '%b\n' "${@:2}" > "$own/mine.txt"
  typed "$own/mine.txt"
  check "typed.py: line $1 (${*:2})" out_has "$own/mine.txt:$1: ${!#}"
}
told_at 1 'command B9'
told_at 2 'write 00 x 132' 'command 30'
told_at 3 'reset' '' 'bytes 01 00'
told_at 3 '# no trace' 'text A' 'record 0005 00'
told_at 2 'command 81' 'write 00'
check 'typed.py: the line of the awaited code' out_has "  $own/mine.txt:1: command 81"
told_at 3 '# column' 'command 0F 18' 'write AA'
check 'typed.py: the line of the column' out_has "  $own/mine.txt:2: command 0F 18"
typed "$copy/traces/rules/bits.txt"
check 'typed.py: taken, status 0' status_is 0
check 'typed.py: taken, no line' [ -z "$(line_of '.*bits.txt')" ]
echo 'command A' > "$own/mine.txt"
typed "$own/mine.txt"
check 'typed.py: a fault: status 2' status_is 2
check 'typed.py: a fault, as make.py says it' err_is "$own/mine.txt:1: 'A' is not 2 hexadecimal digits"
typed show "$own"
check 'typed.py: neither source nor trace' err_is "typed.py: $own: FILE.txt or FILE.trace is wanted, and stands last"

# A trace that was made of a source is told by its lines; one that was not is told without.
printf 'reset\ncommand B9\n' > "$own/mine.txt"
bytes 00 00 04 00 01 00 01 00 B9 > "$own/mine.trace"
typed "$own/mine.trace"
check 'typed.py: a trace of a source: status 1' status_is 1
check 'typed.py: a trace of a source: the line' out_has "$own/mine.txt:2: command B9"
for text in 'command B9' 'notes, and no source' '# notes'; do
  echo "$text" > "$own/mine.txt"
  typed "$own/mine.trace"
  check "typed.py: a trace beside another text is shown ($text)" [ -n "$(line_of 'refused 4 at 8')" ]
  check "typed.py: a trace beside another text, without lines ($text)" [ -z "$(line_of '.*mine.txt')" ]
done
# Of a wide terminal: the lines of what was selected, and of what is awaited.
printf 'select right\ncommand 81\nselect both\nwrite 00\n' > "$own/wide.txt"
typed --wide "$own/wide.txt"
check 'typed.py: --wide, the line' out_has "$own/wide.txt:4: write 00"
check 'typed.py: --wide, what is selected' out_has "  $own/wide.txt:3: select both"
check 'typed.py: --wide, what is awaited' out_has "  $own/wide.txt:2: command 81"
typed "$own/wide.txt"
check 'typed.py: without --wide, the line' out_has "$own/wide.txt:1: select right"
typed --wide list "$own/wide.txt"
check 'typed.py: an option before the command: status 2' status_is 2
check 'typed.py: an option before the command, said' err_is 'typed.py: list: the command stands before its options'
# check and diff name the source, and not the standard input that its trace is given on.
typed check "$own/wide.txt"
check 'typed.py check: refused, status 1' status_is 1
check 'typed.py check: refused, by name' out_is "$own/wide.txt: refused 9 at 0: kind not 1 to 4, or kind 4 with a payload"
check 'typed.py check: what it wants, by name' \
  err_is "ssd1815b: $own/wide.txt: kind 5 selects a chip of a wide terminal: --wide plays such a trace"
typed check --wide "$own/wide.txt"
check 'typed.py check --wide: by name' out_is "$own/wide.txt: refused 6 at 19: a data write or read while a code is awaited"
check 'typed.py check --wide: the chips, by name, and the line that selected them' err_is "ssd1815b: $own/wide.txt:
  selected: both, since 10 (0xA) in record 2
  $own/wide.txt:3: select both
  refused by the right chip alone, and so neither changes"
typed check "$copy/traces/rules/bits.txt"
check 'typed.py check: taken, by name' grep -qxE "$copy/traces/rules/bits.txt: taken, [0-9]+ records?" "$here/out"
check 'typed.py check: taken, one line' [ "$(wc -l < "$here/out")" -eq 1 ]
typed check "$own/sample.trace"
check 'typed.py check: a trace by its own name' out_is "$own/sample.trace: taken, 2 records"
typed diff --wide --brief "$own/sample.trace" "$own/wide.txt"
check 'typed.py diff: by name' grep -qE "^$own/sample.trace and $own/wide.txt: left half: " "$here/out"
check 'typed.py diff: refused, by name' err_has "ssd1815b: $own/wide.txt: refused 6 at 19: "
printf 'command AF\nwrite 03 01\n' > "$own/wide.txt"
typed diff --after 9 "$own/sample.trace" "$own/wide.txt"
check 'typed.py diff: the same' status_is 0
check 'typed.py diff: fewer records, by name' err_has "ssd1815b: --after 9: $own/wide.txt has 2 records, and all of it is played"
: > "$own/wide.txt"
typed diff "$own/sample.trace" "$own/wide.txt"
check 'typed.py diff: empty, by name' err_is "ssd1815b: $own/wide.txt is empty: a trace of no record"
# A trace on standard input beside another is not the other.
typed diff --brief - "$own/sample.trace"
check 'typed.py diff: standard input by its own name' out_has "- and $own/sample.trace: 2 runs differ, 3 places in 2 rows"
rm "$own/wide.txt"

rm "$own/mine.txt"
typed "$own/mine.trace"
check 'typed.py: a trace by itself' [ -n "$(line_of 'refused 4 at 8')" ]
rm "$own/mine.trace"
typed "$own/mine.trace"
check 'typed.py: no such trace: status 2' status_is 2
# More than a pipe holds, to a tool that reads none of it.
printf 'write 00 x 65535\nwrite 00 x 65535\n' > "$own/long.txt"
ran env SSD1815B_TOOL=true "$copy/traces/typed.py" "$own/long.txt"
check 'typed.py: a tool that ends before it has read all: its status' status_is 0
rm "$own/long.txt"
ran env -u SSD1815B_TOOL PATH=/usr/bin:/bin "$copy/traces/typed.py" "$own/site7.txt"
check 'typed.py: no tool: status 2' status_is 2
# shellcheck disable=SC2016
check 'typed.py: no tool, said' err_is 'typed.py: no tool: `make` builds it, or SSD1815B_TOOL says where it is'

# ---- sources: what is refused ----

# fault WORDS LINE: the one thing said of a source that has this line last.
fault() {
  rm -f "$copy"/*.trace
  printf 'command AF\n%b\n' "$2" > "$source"
  ran "$copy/traces/make.py" "$copy/other.txt" "$source"
  check "make.py: status 1 ($2)" status_is 1
  check "make.py: $1 ($2)" err_is "$source:2: $1"
  check "make.py: nothing is written ($2)" [ -z "$(find "$copy" -maxdepth 1 -name '*.trace')" ]
}
beginnings='a line begins with command, write, text, read, reset, select, record or bytes, not'
repeat='x wants one number from 1 to 65535 after it, and nothing else'
fault "$beginnings 'Command'" 'Command AF'
fault "$beginnings '12'" '12 34'
fault 'reset stands alone' 'reset 00'
fault 'select wants one word after it: left, right or both' 'select'
fault 'select wants one word after it: left, right or both' 'select 01'
fault 'select wants one word after it: left, right or both' 'select left right'
fault 'record wants a kind, 4 hexadecimal digits' 'record'
fault "'12345' is not 4 hexadecimal digits" 'record 12345 00'
fault "'5' is not 4 hexadecimal digits" 'record 5 00'
fault "'7' is not 2 hexadecimal digits" 'write 00 7'
fault "'0G' is not 2 hexadecimal digits" 'command 0G'
fault "'+1' is not 2 hexadecimal digits" 'bytes +1'
fault "$repeat" 'write 00 x 70000'
fault "$repeat" 'write 00 x -1'
fault "$repeat" 'write 00 x 0'
fault "$repeat" 'write 00 x'
fault "$repeat" 'write 00 x 2 00'
fault "$repeat" 'write 00 x 99999999999999999999'
fault 'x wants bytes before it' 'write x 5'
fault 'a line has at most 65535 bytes, not 65536' 'write 00 01 x 32768'
fault 'a line has at most 65535 bytes, not 65538' "text $(printf 'A%.0s' {1..10923})"
fault "no letter for 'a': capitals, digits, - . : and space" 'text Ra'
fault 'not UTF-8: byte E9' 'reset # r\xE9sum'

# refuses WORDS ARGUMENTS...: what is said of a command line.
refuses() {
  ran "$copy/traces/make.py" "${@:2}"
  check "make.py: status 1 (${*:2})" status_is 1
  check "make.py: $1" err_is "make.py: $1"
}
refuses "$copy/none.txt: No such file or directory" "$copy/none.txt"
refuses "$copy/traces/rules/bits.trace: a source is named FILE.txt" "$copy/traces/rules/bits.trace"
refuses '--check stands alone' --check "$source"
refuses $'no such option: --all\nmake.py --help says more' --all
printf 'command A\nreset\nreset 1\n' > "$source"
ran "$copy/traces/make.py" "$source"
check 'make.py: each fault is told' err_is "$source:1: 'A' is not 2 hexadecimal digits
$source:3: reset stands alone"
ran "$copy/traces/make.py" show --help
check 'make.py: help' out_has 'Makes traces from typed sources.'
check 'make.py: help, status 0' status_is 0

# ---- sources that do not say what the traces are ----

bytes 00 > "$copy/traces/rules/bits.trace"
check_traces
check 'make.py: another trace than its source says, fails' status_is 1
check 'make.py: another trace than its source says, by name' grep -q 'rules/bits.trace is not what its source says' "$here/out"

# ---- where two traces differ ----

# Upright, row 0 is lit at 0 and 1 and row 1 at 0; row 0 at 0 and the icon line at
# 131.  Upside down, row 63 at 130 and 131 and row 62 at 131; row 63 at 131 and the
# icon line at 0.
pairs=$here/pairs
mkdir -p "$pairs/traces/folder"
cp "$traces/differ.sh" "$pairs/traces"
bytes 01 00 01 00 AF 02 00 02 00 03 01 > "$pairs/traces/folder/a.trace"
bytes 01 00 01 00 AF 01 00 02 00 01 03 00 01 00 B8 03 18 01 00 02 00 FF > "$pairs/traces/folder/b.trace"
# An oracle that answers the file which the options and names say.
cat > "$pairs/oracle" <<'END'
#!/bin/sh
shift
memory=
upright=
[ "$1" != --memory ] || { memory=memory-; shift; }
[ "$1" != --upright ] || { upright=upright-; shift; }
cat "$(dirname "$0")/$memory$upright$(basename "$1" .trace)-$(basename "$2" .trace)"
END
chmod +x "$pairs/oracle"
# answers: those files as they should be; page 8, column 131 is 8 * 132 + 131.
answers() {
  for same in {,upright-,memory-,memory-upright-}{a-a,b-b}; do : > "$pairs/$same"; done
  printf '62 131 131 1 0\n63 130 130 1 0\n64 0 0 0 1\n' > "$pairs/a-b"
  printf '0 1 1 1 0\n1 0 0 1 0\n64 131 131 0 1\n' > "$pairs/upright-a-b"
  printf '0 3 1\n1 1 0\n1187 0 1\n' | tee "$pairs/memory-a-b" > "$pairs/memory-upright-a-b"
}
differs() { ran "$pairs/traces/differ.sh" "$pairs/oracle" "$@"; }
answers
differs "${tool[@]}"
check 'differ.sh: as it should be' status_is 0
check 'differ.sh: each with itself and with the next' out_is 'differ: 12 compared, 0 differences'
# not_so FILE LINES: another answer of the oracle.
not_so() {
  answers
  printf '%b' "$2" > "$pairs/$1"
  differs "${tool[@]}"
  check "differ.sh: fails ($1: $2)" status_is 1
  check "differ.sh: which ($1: $2)" err_has 'oracle and tool'
}
not_so a-a '0 0 0 0 1\n'
not_so upright-a-a '0 0 0 0 1\n'
not_so memory-b-b '7 0 1\n'
not_so memory-upright-b-b '7 0 1\n'
not_so upright-a-b '0 1 1 1 0\n1 0 0 1 0\n'
not_so upright-a-b '0 1 1 1 0\n1 0 0 1 0\n64 130 131 0 1\n'
not_so upright-a-b '0 1 1 1 0\n1 0 0 0 1\n64 131 131 0 1\n'
not_so upright-a-b '0 1 1 1 0\n2 0 0 1 0\n64 131 131 0 1\n'
not_so a-b '62 131 131 1 0\n63 130 130 1 0\n64 131 131 0 1\n'
not_so a-b '0 1 1 1 0\n1 0 0 1 0\n64 131 131 0 1\n'
not_so memory-a-b '0 3 1\n1 1 0\n1187 0 255\n'
not_so memory-a-b '0 3 1\n1 1 0\n1186 0 1\n'
# Of a wide terminal, half by half: the left has a's picture and the right b's, and the other way round.
mkdir "$pairs/traces/wide"
cp "$traces/halves.py" "$traces/make.py" "$pairs/traces"
apart() { cat <(bytes 01 00 05 00 "$1") "$pairs/traces/folder/a.trace" <(bytes 01 00 05 00 "$2") "$pairs/traces/folder/b.trace"; }
apart 01 02 > "$pairs/traces/wide/a.trace"
apart 02 01 > "$pairs/traces/wide/b.trace"
# The oracle itself, or one that finds no difference between a half and another.
wide_differs() { ran "$pairs/traces/differ.sh" "$@"; }
mv "$pairs/traces/folder" "$pairs"
wide_differs "$oracle" "${tool[@]}"
check 'differ.sh: wide, as it should be' status_is 0
check 'differ.sh: wide, each with itself and with the next' out_is 'differ: 12 compared, 0 differences'
cat > "$pairs/blind" <<END
#!/bin/sh
[ "\$1" = differ ] || exec "$oracle" "\$@"
END
chmod +x "$pairs/blind"
wide_differs "$pairs/blind" "${tool[@]}"
check 'differ.sh: wide, an oracle that finds nothing, fails' status_is 1
check 'differ.sh: wide, of the left' err_has 'oracle and tool (left '
check 'differ.sh: wide, of the right' err_has 'oracle and tool (right --memory --upright)'
OTHER='s/^left/up/; s/^right/left/; s/^up/right/' wide_differs "$oracle" "$here/other" "${tool[@]}"
check 'differ.sh: wide, one half for the other, fails' status_is 1
wide_differs "$oracle" "$here/narrow" "${tool[@]}"
check 'differ.sh: wide, a tool without --wide, fails' status_is 1
rm -r "$pairs/traces/wide"
mv "$pairs/folder" "$pairs/traces"

answers
differs true
check 'differ.sh: a tool that prints nothing, fails' status_is 1
for command in deaf always; do
  differs "$here/$command" "${tool[@]}"
  check "differ.sh: a tool that is $command upright, or to it, fails" status_is 1
done
rm "$pairs/a-b"
differs "${tool[@]}"
check 'differ.sh: an oracle that fails, fails' status_is 1
check 'differ.sh: an oracle that fails, said' err_has 'folder/b.trace: the oracle fails'
rm "$pairs"/traces/folder/*
differs "${tool[@]}"
check 'differ.sh: no trace is no success' status_is 1

# ---- the program for packs: names about the word upright ----

# What packs.py finds of a program that lists an entry from the old start by the
# right rule, and of programs that do so by others.
cat > "$here/rules.py" <<'END'
import pathlib
import sys

sys.dont_write_bytecode = True
folder, oracle = pathlib.Path(sys.argv[1]).resolve(), sys.argv[2]
sys.path.insert(0, str(folder))
import packs

# By an entry's name, and the pack from there on.
RULES = {
    "as it should be": lambda name, rest: name.startswith(b"upright "),
    "never": lambda name, rest: False,
    "always": lambda name, rest: True,
    "the other way round": lambda name, rest: not name.startswith(b"upright "),
    "without the space": lambda name, rest: name.startswith(b"upright"),
    "a word of seven letters": lambda name, rest: name[7:8] == b" ",
    "the first and the last byte": lambda name, rest: name[:1] == b"u" and name[7:8] == b" ",
    "any blank": lambda name, rest: name[:7] == b"upright" and name[7:8].isspace(),
    "any byte up to the space": lambda name, rest: name[:7] == b"upright" and len(name) > 7 and name[7] <= 32,
    "something after the space": lambda name, rest: name.startswith(b"upright ") and len(name) > 8,
    "a letter after the space": lambda name, rest: name.startswith(b"upright ") and name[8:9].isalpha(),
    "the first word": lambda name, rest: name.split()[:1] == [b"upright"],
    "anywhere": lambda name, rest: b"upright " in name,
    "at the end": lambda name, rest: name.startswith(b"upright ") or name.endswith(b"upright "),
    "in capitals too": lambda name, rest: name.lower().startswith(b"upright "),
    "past the name": lambda name, rest: rest.startswith(b"upright "),
    "a name of eight bytes or more": lambda name, rest: len(name) >= 8,
}

asked, answers = packs.output, {}


def once(program, given):
    """The oracle's answer, asked for once."""
    question = (*program, given)
    if question not in answers:
        answers[question] = asked(program, given)
    return answers[question]


def printed(pack, rule):
    """What a program prints that goes by this rule."""
    if len(pack) > packs.LONGEST_PACK:
        return b"pack too long\n"
    text, at, count = b"", 0, 0
    while at < len(pack):
        name = at + 8
        trace = name + int.from_bytes(pack[at:at + 4], "little")
        end = trace + int.from_bytes(pack[at + 4:at + 8], "little")
        if len(pack) < max(name, end):
            return text + b"pack cut short at %d\n" % at
        start = ["--upright"] if rule(pack[name:trace], pack[name:]) else []
        text += b"trace %b\n" % pack[name:trace] + once([oracle, "list", *start], pack[trace:end])
        at, count = end, count + 1
    return text + b"%d traces\n" % count


packs.output = once
cases = list(packs.cases(oracle, folder))
for words, rule in RULES.items():
    print(f"{words}: {'caught' if any(printed(pack, rule) != wanted for _, pack, wanted in cases) else 'taken'}")
END
ran python3 "$here/rules.py" "$traces" "$oracle"
check 'packs.py: the right rule' line_is 1 'as it should be: taken'
check 'packs.py: other rules' [ "$(wc -l < "$here/out")" -eq 17 ]
while IFS= read -r rule; do
  check "packs.py: $rule" [ "${rule##*: }" = caught ]
done < <(tail -n +2 "$here/out")

# ---- the listing program: its argument ----

# A stand-in for both programs that lists by the oracle; FAULT is what is wrong with it.
programs=$here/programs
mkdir -p "$programs" "$copy/crates/listtrace"
cp "$traces/rules/sample.trace" "$copy/crates/listtrace/stdin"
cp "$traces/rules/bits.trace" "$bits.trace"
cat > "$programs/listtrace" <<'END'
#!/usr/bin/env bash
name=${0##*/}
here=${0%/*}
argument() {
  case $FAULT in
    deaf | 'any is --upright') true ;;
    'its beginning') [[ $# -eq 1 && $1 = --upright* ]] ;;
    'a part of it') [[ $# -eq 1 && -n $1 && --upright = "$1"* ]] ;;
    'the first') [[ $1 = --upright && ($# -eq 1 || $2 != --upright) ]] ;;
    'the last') [[ ${!#} = --upright && ($# -eq 1 || $1 != --upright) ]] ;;
    'an empty one') [[ $# -eq 1 && ($1 = --upright || -z $1) ]] ;;
    'a second one') [[ $# -le 2 && $1 = --upright && ${2---upright} = --upright ]] ;;
    'in capitals') [[ $# -eq 1 && ${1,,} = --upright ]] ;;
    *) [[ $# -eq 1 && $1 = --upright ]] ;;
  esac
}
start=()
[ "$FAULT" != 'the old start' ] || start=(--upright)
if [ $# -gt 0 ]; then
  if ! argument "$@"; then
    [ "$FAULT" = silent ] || echo "$name: the only argument is --upright" >&2
    [ "$FAULT" != 'another status' ] || exit 3
    [ "$FAULT" = 'lists all the same' ] || exit 0
  elif [[ $FAULT != deaf && $FAULT != 'not obeyed' ]]; then
    start=(--upright)
  fi
fi
if ! cat > "$here/input" 2> /dev/null && ! [[ $FAULT = 'trouble untold' && ${start[*]} ]]; then
  echo "$name: standard input cannot be read" >&2
  exit 0
fi
"$ORACLE" list "${start[@]}" < "$here/input" > "$here/text"
cat "$here/text" 2> /dev/null || [[ $FAULT = 'trouble untold' && ${start[*]} ]] || echo "$name: standard output cannot be written" >&2
END
chmod +x "$programs/listtrace"
ln -s listtrace "$programs/listpack"
# program FAULT: program.sh on it.
program() { ran env FAULT="$1" ORACLE="$oracle" "$copy/traces/program.sh" "$programs/listtrace" "$programs/listpack" "$oracle"; }
program none
check 'program.sh: as it should be' status_is 0
for fault in deaf 'the old start' 'any is --upright' 'its beginning' 'a part of it' 'the first' 'the last' 'an empty one' \
  'a second one' 'in capitals' silent 'lists all the same' 'not obeyed' 'trouble untold' 'another status'; do
  program "$fault"
  check "program.sh: a listing program of another argument, fails ($fault)" status_is 1
  check "program.sh: a listing program of another argument, said ($fault)" grep -qE '^(list: |not told, or listed)' "$here/err"
done

checks_end 'trace scripts'
