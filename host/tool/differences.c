#include "differences.h"

#include <string.h>

const uint8_t *differences_run(const struct differences *differences, size_t i)
{
  return differences->list + i * SSD1815B_FRAME_ENTRY_SIZE;
}

static size_t length_of(const uint8_t *run)
{
  return (size_t)run[SSD1815B_RUN_LAST] - run[SSD1815B_RUN_FIRST] + 1;
}

/* A chip's part of a frame, as a frame of its own. */
static void take_half(const uint8_t *frame, bool wide, enum side side,
                      uint8_t *half)
{
  for (size_t row = 0; row < SSD1815B_FRAME_ROWS; row++) {
    memcpy(half + row * SSD1815B_COLUMNS,
           frame + row * columns_of(wide) + side * SSD1815B_COLUMNS,
           SSD1815B_COLUMNS);
  }
}

/* Counts the places and the rows of the runs. */
static void count_places(struct differences *differences)
{
  differences->places = 0;
  differences->rows = 0;
  size_t row = SSD1815B_FRAME_ROWS;
  for (size_t i = 0; i < differences->runs; i++) {
    const uint8_t *run = differences_run(differences, i);
    differences->places += length_of(run);
    differences->rows += run[SSD1815B_RUN_ROW] != row;
    row = run[SSD1815B_RUN_ROW];
  }
}

void differences_find(struct differences *differences, const uint8_t *first,
                      const uint8_t *second, bool wide, enum side side)
{
  static uint8_t one[SSD1815B_FRAME_SIZE];
  static uint8_t other[SSD1815B_FRAME_SIZE];
  take_half(first, wide, side, one);
  take_half(second, wide, side, other);
  /* The sizes are right and frames hold 0 and 1, so this does not refuse. */
  ssd1815b_compare_frames(one, sizeof one, other, sizeof other,
                          differences->list, sizeof differences->list,
                          &differences->runs);
  differences->dark = memchr(one, 1, sizeof one) == NULL;
  count_places(differences);
}

void differences_mark(const struct differences *differences, bool wide,
                      enum side side, uint8_t *marks)
{
  _Static_assert(DARK_IN_BOTH == 0 && LIT_IN_BOTH == 1, "as frames have it");
  for (size_t i = 0; i < differences->runs; i++) {
    const uint8_t *run = differences_run(differences, i);
    memset(marks + run[SSD1815B_RUN_ROW] * columns_of(wide)
             + side * SSD1815B_COLUMNS + run[SSD1815B_RUN_FIRST],
           run[SSD1815B_RUN_IS] == 1 ? LIT_IN_SECOND : LIT_IN_FIRST,
           length_of(run));
  }
}
