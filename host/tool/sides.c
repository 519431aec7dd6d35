#include "sides.h"

#include "kinds.h"
#include "numbers.h"

const char *side_name(enum side side)
{
  return side == SIDE_LEFT ? "left" : "right";
}

const char *selection_name(uint8_t selection)
{
  return selection == SSD1815B_BOTH ? "both"
         : side_name(selection == SSD1815B_LEFT ? SIDE_LEFT : SIDE_RIGHT);
}

/* The last select record of those done, its offset in *at; answers which record
** it is, or how many are done where there is none. */
static size_t last_select(const struct played *played, size_t *at)
{
  size_t found = played->count;
  size_t first = 0;
  for (size_t record = 0; record < played->count; record++) {
    size_t kind;
    size_t next;
    ssd1815b_record(played->trace, played->trace_len, first, &kind, &next);
    if (kind == KIND_SELECT) {
      found = record;
      *at = first;
    }
    first = next;
  }
  return found;
}

bool is_selected_by_record(const struct played *played)
{
  size_t at;
  return last_select(played, &at) < played->count;
}

void selection_print(FILE *out, const struct played *played)
{
  size_t at = 0;
  size_t record = last_select(played, &at);
  fprintf(out, "  selected: %s, ", selection_name(played->selection));
  if (record < played->count) {
    fprintf(out, "since %zu (0x%zX) in record %zu\n", at, at, record);
  } else {
    fputs("as every run begins\n", out);
  }
}

/* What a chip by itself answers to the command byte or the data byte written
** at which the run stopped. */
static uint8_t answer_of(const struct played *played, enum side side,
                         size_t kind)
{
  struct chip chip = played->chips[side];
  uint8_t byte = played->trace[played->offset];
  return kind == KIND_COMMANDS
           ? ssd1815b_command(chip.state, sizeof chip.state, chip.memory,
                              sizeof chip.memory, byte)
           : ssd1815b_write(chip.state, sizeof chip.state, chip.memory,
                            sizeof chip.memory, byte);
}

enum side refusing_side(const struct played *played, size_t kind)
{
  if (played->selection != SSD1815B_BOTH) {
    return side_read(played);
  }
  return answer_of(played, SIDE_LEFT, kind) != SSD1815B_TAKEN ? SIDE_LEFT
                                                              : SIDE_RIGHT;
}

/* Whether the reason of a number is in a chip's registers, and so each chip may
** have its own: the n of which code, which column.  3, 4 and 15 are of the byte
** alone. */
static bool is_of_registers(uint8_t number)
{
  return number == SSD1815B_NOT_ALLOWED || number == SSD1815B_CODE_AWAITED
         || number == SSD1815B_COLUMN_ABOVE;
}

void refusing_print(FILE *out, const struct played *played, size_t kind,
                    bool more)
{
  if (played->selection != SSD1815B_BOTH) {
    return;
  }
  uint8_t left = answer_of(played, SIDE_LEFT, kind);
  uint8_t right = answer_of(played, SIDE_RIGHT, kind);
  if (left == right) {
    fputs(more && is_of_registers(left)
            ? "  refused by both chips; what follows is of the left\n"
            : "  refused by both chips\n", out);
  } else if (left != SSD1815B_TAKEN && right != SSD1815B_TAKEN) {
    fprintf(out, "  refused by both chips, by the left with %u, which is the"
            " number, and by the right with %u\n", left, right);
    if (right == SSD1815B_TEST_MODE) {
      test_mode_print(out, "to the right, ", played->trace[played->offset]);
    }
  } else {
    fprintf(out, "  refused by the %s chip alone, and so neither changes\n",
            side_name(left != SSD1815B_TAKEN ? SIDE_LEFT : SIDE_RIGHT));
  }
}
