/*
** A terminal: one chip, or two side by side.
*/
#ifndef TERMINAL_H
#define TERMINAL_H

#include <stdbool.h>

#include "ssd1815b.h"

/* The chips of a wide terminal; a narrow one has the left alone. */
enum side { SIDE_LEFT, SIDE_RIGHT, SIDES };

/* How many chips there are. */
static inline size_t sides_of(bool wide)
{
  return wide ? SIDES : 1;
}

/* Places to a row of the frame. */
static inline size_t columns_of(bool wide)
{
  return wide ? SSD1815B_WIDE_COLUMNS : SSD1815B_COLUMNS;
}

/* What is selected before the first record. */
static inline uint8_t first_selection(bool wide)
{
  return wide ? SSD1815B_BOTH : SSD1815B_LEFT;
}

/* Whether a selection has a chip. */
static inline bool is_selected(uint8_t selection, enum side side)
{
  _Static_assert(SSD1815B_LEFT == 1 << SIDE_LEFT
                   && SSD1815B_RIGHT == 1 << SIDE_RIGHT
                   && SSD1815B_BOTH == (SSD1815B_LEFT | SSD1815B_RIGHT),
                 "a bit for each chip");
  return (selection >> side & 1) == 1;
}

#endif
