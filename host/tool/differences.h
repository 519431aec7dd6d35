/*
** Where two screens differ, by the model's list.
*/
#ifndef DIFFERENCES_H
#define DIFFERENCES_H

#include "terminal.h"

struct differences {
  bool dark;      /* no place of the first screen is lit */
  size_t runs;
  size_t places;  /* in all of them */
  size_t rows;    /* that have any */
  uint8_t list[SSD1815B_FRAME_LIST_SIZE];
};

/* What a place is on the two screens. */
enum mark { DARK_IN_BOTH, LIT_IN_BOTH, LIT_IN_FIRST, LIT_IN_SECOND, MARKS };

/* Compares two frames, or the halves of two wide ones that are one chip's. */
void differences_find(struct differences *differences, const uint8_t *first,
                      const uint8_t *second, bool wide, enum side side);

/* The run of this number, five bytes as ssd1815b_compare_frames() has them. */
const uint8_t *differences_run(const struct differences *differences, size_t i);

/* Puts the runs into marks that hold the first frame, or the mark of each place
** where the other chip's half is done already. */
void differences_mark(const struct differences *differences, bool wide,
                      enum side side, uint8_t *marks);

#endif
