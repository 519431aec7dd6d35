/*
** What is drawn of a frame at a terminal in one piece, edges round it.
*/
#ifndef VIEW_H
#define VIEW_H

#include <stdio.h>

#include "terminal.h"

struct view {
  const uint8_t *places;  /* of the frame, from the view's first column on */
  size_t columns;         /* places to a row of the frame */
  size_t width;           /* of which the view has so many */
};

/* Prints rows of a view, so many from one on. */
typedef void row_printer(FILE *out, const struct view *view, size_t row,
                         size_t rows);

/* Draws a frame, or the marks of one: the panel rows, and the icon line apart.
** A wide one is drawn in its halves, one below the other, where out is a
** terminal that is too narrow for it; standard error says so. */
void view_draw(FILE *out, const uint8_t *places, bool wide, row_printer *print);

#endif
