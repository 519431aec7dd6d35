#!/usr/bin/env bash
# Tests of what the tool says of a run that is refused: the number, the place,
# where things came from, and what would have been taken.
#
#   refusals.sh TOOL...      the command that runs the tool
set -euo pipefail

tool=("$@")
# shellcheck source=host/test/checks.sh
. "$(dirname "$0")/checks.sh"

# says WORDS BYTES...: what list says on standard error of a refused trace.
says() {
  local words=$1
  shift
  ran "${tool[@]}" list < <(bytes "$@")
  check "refused: status 1 ($words)" status_is 1
  check "refused: $words" err_has "$words"
}

# shows LINE BYTES...: a line, whole.
shows() {
  says "$@"
  check "refused: the line is no longer than '$1'" grep -qxF -- "  $1" "$here/err"
}

# ---- the number and its meaning ----

says 'refused 3 at 4 (0x4): a command byte outside the table' 01 00 01 00 30
says 'refused 15 at 5 (0x5): a command byte of test mode, with no code awaited' 02 00 01 00 AF F4
says 'refused 4 at 5 (0x5): B9 to BF name no page' 02 00 01 00 AF B9
says 'refused 5 at 5 (0x5): n of D3 or D4 not allowed' 02 00 01 00 D3 40
says 'refused 6 at 9 (0x9): a data write or read while a code is awaited' 01 00 01 00 81 01 00 02 00 00
says 'refused 7 at 10 (0xA): a data write or read with column above 131' 02 00 01 00 0F 18 01 00 02 00 AA
says 'refused 8 at 0 (0x0): one to three bytes left' 01 00 01
says 'refused 9 at 5 (0x5): kind not 1 to 4' 01 00 01 00 AF 00 00 05 00
says 'refused 10 at 12 (0xC): a compared read differs' 03 00 02 00 11 22 33 02 00 03 00 00 07

# ---- 3: the neighbours in document 01's table ----

shows '30 is no command: 2F (power control) and 40 (start line) are the neighbours' 01 00 01 00 30
shows '3F is no command: 2F (power control) and 40 (start line) are the neighbours' 01 00 01 00 3F
shows '80 is no command: 7F (start line) and 81 (contrast) are the neighbours' 01 00 01 00 80
shows '82 is no command: 81 (contrast) and A0 (column direction) are the neighbours' 01 00 01 00 82
shows 'D0 is no command: CF (rows reversed) and D3 (offset) are the neighbours' 01 00 01 00 D0
shows 'DF is no command: D4 (frame phases) and E0 (enter read-modify-write) are the neighbours' 01 00 01 00 DF
shows 'E1 is no command: E0 (enter read-modify-write) and E2 (software reset) are the neighbours' 01 00 01 00 E1
shows 'E4 is no command: E3 (nothing) and EE (leave read-modify-write) are the neighbours' 01 00 01 00 E4
shows 'EF is no command: EE (leave read-modify-write) is the neighbour below, and none is above' 01 00 01 00 EF

# Every byte that document 01 leaves out, test mode's apart, is refused by 3, and
# the two that are named beside it are taken; so the words and the model have the
# same table.
for number in {48..63} 128 {130..159} {208..210} {213..223} 225 {228..237} 239; do
  byte=$(printf '%02X' "$number")
  says 'refused 3 at 4 (0x4): ' 01 00 01 00 "$byte"
  says "$byte is no command" 01 00 01 00 "$byte"
  for neighbour in $(grep 'is no command' "$here/err" | grep -oE '[0-9A-F]{2} \(' | tr -d ' ('); do
    ran "${tool[@]}" list < <(bytes 01 00 01 00 "$neighbour")
    check "refused: $neighbour, a neighbour of $byte, is taken" status_is 0
  done
done

# ---- 15: what the byte would do ----

shows 'F0 would put a real chip into test mode, or out of it: its sheet says Test Mode Reset' 01 00 01 00 F0
for number in {241..255}; do
  byte=$(printf '%02X' "$number")
  says 'refused 15 at 4 (0x4): ' 01 00 01 00 "$byte"
  shows "$byte would put a real chip into test mode" 01 00 01 00 "$byte"
done
# As n it is n.
ran "${tool[@]}" list < <(bytes 08 00 01 00 81 F4 A8 FF A9 F0 AD F3)
check 'refused: a byte of test mode as n is none' status_is 0
shows 'D3 (offset) takes 00 to 3F, got F4' 02 00 01 00 D3 F4

# ---- 4 and 5: what is allowed ----

shows 'B0 to B8 are the pages' 01 00 01 00 BF
shows 'D3 (offset) takes 00 to 3F, got 40' 02 00 01 00 D3 40
shows 'D4 (frame phases) takes 00, 10, 20 or 30, got 31' 02 00 01 00 D4 31
shows 'D4 (frame phases) takes 00, 10, 20 or 30, got 40' 02 00 01 00 D4 40

# ---- 5 and 6: where the awaited code came from ----

shows 'awaited is the n of D3 (offset), a command byte, since 4 (0x4) in record 0' 02 00 01 00 D3 40
shows 'awaited is the n of 81 (contrast), a command byte, since 4 (0x4) in record 0' 01 00 01 00 81 01 00 02 00 00
shows '  in hex, from byte 0 (0x0) on: 01 00 01 00 [81]' 01 00 01 00 81 01 00 02 00 00
# In an earlier record, with others between; the 81 before it had its n.
earlier=(02 00 01 00 81 A8 01 00 01 00 AD 00 00 02 00 00 00 01 00 01 00 03 00 00)
shows 'awaited is the n of AD (indicator on), a command byte, since 10 (0xA) in record 1' "${earlier[@]}"
shows '  in hex, from byte 6 (0x6) on: 01 00 01 00 [AD]' "${earlier[@]}"
shows 'in hex, from byte 19 (0x13) on: 01 00 03 00 [00]' "${earlier[@]}"
# An n that looks like the code is no second code; after a reset pin the code
# is another.
shows 'awaited is the n of A8 (multiplex), a command byte, since 6 (0x6) in record 0' 03 00 01 00 A8 A8 A8 01 00 02 00 00
shows 'awaited is the n of A9 (n is held), a command byte, since 13 (0xD) in record 2' \
  01 00 01 00 A9 00 00 04 00 01 00 01 00 A9 01 00 02 00 00

# ---- 7: where the column came from ----

shows 'the column is 143, above 131 since 5 (0x5) in record 0: 18 (high four bits of the column) made it 143 from 15' \
  02 00 01 00 0F 18 01 00 02 00 AA
shows '  in hex, from byte 0 (0x0) on: 02 00 01 00 0F [18]' 02 00 01 00 0F 18 01 00 02 00 AA
shows 'the column is 132, above 131 since 5 (0x5) in record 0: 04 (low four bits of the column) made it 132 from 128' \
  02 00 01 00 18 04 01 00 02 00 AA
# Moved about above 131, in other records.
shows 'the column is 245, above 131 since 4 (0x4) in record 0: 1F (high four bits of the column) made it 240 from 0' \
  01 00 01 00 1F 01 00 01 00 05 01 00 03 00 AA
# Put back by EE.
back=(05 00 01 00 1F E0 10 EE E3 01 00 02 00 AA)
shows 'the column is 240, above 131 since 7 (0x7) in record 0: EE (leave read-modify-write) made it 240 from 0' "${back[@]}"

# ---- 8 and 9: what the header says ----

shows 'left for a header of 4 bytes: 3' 01 00 01
shows 'the header says 513 bytes of payload; left: 1' 01 02 01 00 AF
shows 'the header says 1 byte of payload; left: 0' 01 00 01 00
shows 'the header says kind 257, 0 bytes of payload' 00 00 01 01
shows 'the header says kind 0, 1 byte of payload' 01 00 00 00 AF

# ---- 10: the two bytes ----

shows 'recorded is 07, the model reads 00 (hex), at page 0, column 3' 03 00 02 00 11 22 33 02 00 03 00 00 07

# ---- the place ----

says 'record 1, data read, payload of 2 bytes from 11, its byte 1 is 07 (hex)' 03 00 02 00 11 22 33 02 00 03 00 00 07
says 'record 0, command bytes, payload of 1 byte from 4, its byte 0 is 30 (hex)' 01 00 01 00 30

# ends LINE BYTES...: the last line, whole.
ends() {
  says "$@"
  check "refused: the last line is '$1'" [ "$(tail -n 1 "$here/err")" = "  $1" ]
}
ends 'in hex, from byte 7 (0x7) on: 02 00 03 00 00 [07]' 03 00 02 00 11 22 33 02 00 03 00 00 07
ends 'in hex, from byte 0 (0x0) on: 02 00 01 00 [30] AF' 02 00 01 00 30 AF 03 00 01 00
ends 'in hex, from byte 5 (0x5) on: [00] 00 05 00' 01 00 01 00 AF 00 00 05 00 11 22
ends 'in hex, from byte 0 (0x0) on: [01] 00 01' 01 00 01
ends 'in hex, from byte 0 (0x0) on: [01] 02 01 00 AF' 01 02 01 00 AF
mapfile -t stripes < <(printf 'AE\nAF\n%.0s' {1..13})
says 'refused 3 at 30 (0x1E): a command byte outside the table' 34 00 01 00 "${stripes[@]}" 30 "${stripes[@]:1}"
ends 'in hex, from byte 18 (0x12) on: AE AF AE AF AE AF AE AF AE AF AE AF [30] AF AE AF AE AF AE AF AE AF AE AF' \
  34 00 01 00 "${stripes[@]}" 30 "${stripes[@]:1}"

# ---- input that is no trace ----

# looks WORDS: what is said of the input on standard input.
looks() {
  ran "${tool[@]}" show
  check "looks: refused ($1)" status_is 1
  check "looks: $1" grep -qF -- "  $1" "$here/out"
}
source='this looks like text; if it is the source of a trace, traces/make.py FILE.txt makes FILE.trace of it'
looks "$source" < <(printf 'command AF\nwrite 03 01\n')
looks "$source" < <(printf '# Zoë résumé\r\ncommand AF\r\n')
looks "$source" < <(printf '\xEF\xBB\xBFcommand AF\n')
looks "$source" < <(for _ in {1..5000}; do echo 'write 00 00 00'; done)
looks 'this looks like a listing, as list prints it, which diff alone takes' < <("${tool[@]}" list < /dev/null)
looks 'this looks like a listing' < <("${tool[@]}" list 2> /dev/null < <(bytes 01 00 01 00 B9))
looks 'this looks like a PBM picture' < <("${tool[@]}" picture < /dev/null)
looks 'this looks like a PNG picture' < <(printf '\x89PNG\r\n\x1A\n\0\0\0\rIHDR')
looks 'this looks like a gzip file' < <(printf 'command AF\n' | gzip)
looks 'this looks like a trace whose numbers have their higher byte first' < <(bytes 00 01 00 01 AF)
looks 'this looks like no trace' < <(bytes AB CD EF E1 F2)
looks 'this looks like no trace' < <(bytes 00 00 01 01)
looks 'this looks like no trace' < <(bytes 00 00 00 06)
looks 'every byte read from there on is 00 (hex)' < <(head -c 5000 /dev/zero)
looks 'every byte read from there on is FF (hex)' < <(bytes FF FF FF FF FF FF)
looks 'every byte read from there on is 00 (hex)' < <(bytes 01 00 01 00 AF 00 00 00 00 00 00)

# looks_like_nothing BYTES...: a refused trace of which no more is said.
looks_like_nothing() {
  ran "${tool[@]}" list < <(bytes "$@")
  check "looks: refused ($*)" status_is 1
  check "looks: nothing is said ($*)" [ "$(grep -cE 'looks like|every byte' "$here/err")" -eq 0 ]
}
looks_like_nothing 01 00 01
looks_like_nothing 01 00 04 00 AF
looks_like_nothing 01 00 01 00 AF 05 00 01 00
looks_like_nothing 05 00 03 00 AF
looks_like_nothing 01 00 01 00 30
# Text, or a picture's beginning, that a good trace goes on with is neither; and
# a few bytes are no filling.
looks_like_nothing 01 00 01 00 AF 63 6F 6D 6D 61 6E 64
looks_like_nothing 01 00 01 00 AF 50 34 0A 31
looks_like_nothing 01 00 01 00 AF 00 00 00

checks_end refusals
