#!/usr/bin/env bash
# Tests of the archive by itself, as host/README.md has it: what it needs of
# others, and the line that links a program of one's own.
#
#   CC=COMPILER NM=NM OBJDUMP=OBJDUMP library.sh LIBRARY [RUN...]
#                                             RUN... runs a program
set -euo pipefail

library=$1
run=("${@:2}")
# shellcheck source=host/test/checks.sh
. "$(dirname "$0")/checks.sh"
readme=$(dirname "$0")/../README.md

# The calls that the archive has, and those that the header declares.
has() { "$NM" --defined-only "$library" | awk '$2 == "T" && $3 ~ /^ssd1815b_/ { print $3 }' | LC_ALL=C sort; }
declared=$(sed -nE 's/^uint8_t (ssd1815b_[a-z_0-9]+)\($/\1/p' "$(dirname "$0")/../ssd1815b.h" | LC_ALL=C sort)

ran has
check 'the library has the calls of the header, each once' out_is "$declared"

# What the archive's objects leave to others.
needed() { "$NM" -u "$library" | awk '$1 == "U" { print $2 }' | sort -u; }

ran needed
check 'the library needs memcpy and memset and nothing else' out_is $'memcpy\nmemset'
# shellcheck disable=SC2016  # backquotes of the text
check 'host/README.md says so' grep -qF 'needs `memset` and `memcpy` and nothing else' "$readme"

# Document 02, Order 5, of what is compiled.
ran "$(dirname "$0")/../../.ci/divides" archive "$library" "$OBJDUMP"
check 'drawing, events and run have no divide instruction' status_is 0

cat > "$here/mine.c" <<'END'
#include "ssd1815b.h"

static uint8_t state[SSD1815B_STATE_SIZE];
static uint8_t memory[SSD1815B_MEMORY_SIZE];
static uint8_t frame[SSD1815B_FRAME_ROWS * SSD1815B_COLUMNS];
static uint8_t right_state[SSD1815B_STATE_SIZE];
static uint8_t right_memory[SSD1815B_MEMORY_SIZE];
static uint8_t wide[SSD1815B_FRAME_ROWS * SSD1815B_WIDE_COLUMNS];

/* Whether these two places are all that is lit after AF and a data byte 03. */
static int shows(unsigned one, unsigned other)
{
  unsigned lit = 0;
  ssd1815b_command(state, sizeof state, memory, sizeof memory, 0xAF);
  ssd1815b_write(state, sizeof state, memory, sizeof memory, 0x03);
  ssd1815b_draw(state, sizeof state, memory, sizeof memory, frame, sizeof frame);
  for (unsigned i = 0; i < sizeof frame; i++) lit += frame[i];
  return lit == 2 && frame[one] == 1 && frame[other] == 1;
}

/* Whether that is so in the left half of a wide frame, and AF to the right chip
** alone with a data byte 01 lights its first place. */
static int shows_wide(void)
{
  unsigned lit = 0;
  ssd1815b_start_upright(right_state, sizeof right_state, right_memory, sizeof right_memory);
  ssd1815b_wide_command(state, sizeof state, memory, sizeof memory, right_state, sizeof right_state,
                        right_memory, sizeof right_memory, SSD1815B_RIGHT, 0xAF);
  ssd1815b_wide_write(state, sizeof state, memory, sizeof memory, right_state, sizeof right_state,
                      right_memory, sizeof right_memory, SSD1815B_RIGHT, 0x01);
  ssd1815b_wide_draw(state, sizeof state, memory, sizeof memory, right_state, sizeof right_state,
                     right_memory, sizeof right_memory, wide, sizeof wide);
  for (unsigned i = 0; i < sizeof wide; i++) lit += wide[i];
  return lit == 3 && wide[0] == 1 && wide[SSD1815B_WIDE_COLUMNS] == 1 && wide[SSD1815B_COLUMNS] == 1;
}

int main(void)
{
  ssd1815b_start(state, sizeof state, memory, sizeof memory);
  if (!shows(63 * SSD1815B_COLUMNS - 1, 64 * SSD1815B_COLUMNS - 1)) return 1;
  ssd1815b_start_upright(state, sizeof state, memory, sizeof memory);
  if (!shows(0, SSD1815B_COLUMNS)) return 2;
  return shows_wide() ? 0 : 3;
}
END
line=$(sed -n 's/^    gcc \(.*libhost\.a\)$/\1/p' "$readme")
check 'host/README.md has the line' [ -n "$line" ]
read -ra words <<< "${line/mine.c/$here/mine.c}"
ran "$CC" "${words[@]}" -o "$here/mine"
check 'the line links' status_is 0
ran "${run[@]}" "$here/mine"
check 'rows 62 and 63 are lit at their last place, and upright 0 and 1 at their first; and two chips side by side' status_is 0

# The calls of the program, by their addresses, that do not begin at a multiple
# of 64 bytes; and how many calls it has.
astray() { "$NM" "$here/mine" | awk '$3 ~ /^ssd1815b_/ && $1 !~ /[048c]0$/'; }
calls() { "$NM" "$here/mine" | grep -c ' T ssd1815b_'; }
ran astray
check 'every call begins at a multiple of 64 bytes' out_is ''
ran calls
check 'the program has calls' [ "$(cat "$here/out")" -ge 8 ]

checks_end library
