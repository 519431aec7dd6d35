#include "dark.h"

#include <stdbool.h>

#include "kinds.h"
#include "sides.h"

static bool all_zero(const uint8_t *bytes, size_t length)
{
  size_t i = 0;
  while (i < length && bytes[i] == 0) {
    i++;
  }
  return i == length;
}

/* Whether the run took an event of a chip: it went past the first one that
** there is, the first byte of a payload or a reset pin's record. */
static bool event_taken(const struct played *played, enum side side)
{
  size_t at = 0;
  size_t kind;
  size_t next;
  uint8_t selection = first_selection(played->wide);
  while (ssd1815b_record(played->trace, played->trace_len, at, &kind, &next)
           == SSD1815B_TAKEN && next != at && played->offset > at) {
    size_t payload = at + HEADER_SIZE;
    if (kind == KIND_SELECT) {
      selection = played->trace[payload];
    } else if (is_selected(selection, side)
               && (next > payload || kind == KIND_RESET_PIN)) {
      return played->offset > payload || kind == KIND_RESET_PIN;
    }
    at = next;
  }
  return false;
}

/* Why nothing happened. */
static const char *no_event(const struct played *played)
{
  if (played->number != SSD1815B_TAKEN) {
    return "no event was taken before the run stopped";
  }
  if (played->trace_len == 0) {
    return "no event was taken: there was no record to play";
  }
  return played->wide
           ? "no event was taken: no record that was played has any for this"
             " chip"
           : "no event was taken: no record holds any";
}

/* Why the display, which is on, has no dot lit. */
static const char *no_dot(const struct chip *chip)
{
  if (chip->state[SSD1815B_REVERSE] == 1) {
    return "the display is on and reversed, and every bit that it shows is 1";
  }
  return all_zero(chip->memory, sizeof chip->memory)
           ? "the display is on, but all of memory is 0"
           : "the display is on, but every bit that it shows is 0; other bits"
             " of memory are not";
}

/* Why a chip's part of the frame is dark. */
static const char *reason(const struct played *played, enum side side)
{
  const struct chip *chip = &played->chips[side];
  uint8_t power;
  if (!event_taken(played, side)) {
    return no_event(played);
  }
  /* The image is legal and whole, so this does not refuse. */
  ssd1815b_power_state(chip->state, sizeof chip->state, &power);
  if (power == SSD1815B_SLEEP) {
    return "sleep: display off, entire on, indicator off; A4 and AF show"
           " memory";
  }
  if (power == SSD1815B_STANDBY) {
    return "standby: display off, entire on, indicator on; A4 and AF show"
           " memory";
  }
  return chip->state[SSD1815B_DISPLAY_ON] == 0
           ? "the display is off; AF turns it on" : no_dot(chip);
}

/* Whether no place of a chip's part of the frame is lit. */
static bool is_dark(const struct played *played, enum side side)
{
  size_t columns = columns_of(played->wide);
  size_t row = 0;
  while (row < SSD1815B_FRAME_ROWS
         && all_zero(played->frame + row * columns + side * SSD1815B_COLUMNS,
                     SSD1815B_COLUMNS)) {
    row++;
  }
  return row == SSD1815B_FRAME_ROWS;
}

void dark_print(FILE *out, const struct played *played)
{
  for (enum side side = 0; side < sides_of(played->wide); side++) {
    if (is_dark(played, side)) {
      if (played->wide) {
        fprintf(out, "%s half, ", side_name(side));
      }
      fprintf(out, "all dark: %s\n", reason(played, side));
    }
  }
}
