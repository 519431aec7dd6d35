#include "commands.h"

#include "dark.h"
#include "stop.h"
#include "view.h"

/* Rows of the frame, two to a line; below the last there may be none. */
static void print_rows(FILE *out, const struct view *view, size_t row,
                       size_t rows)
{
  static const char *const blocks[2][2] = { { " ", "▄" }, { "▀", "█" } };
  for (size_t end = row + rows; row < end; row += 2) {
    const uint8_t *above = view->places + row * view->columns;
    const uint8_t *below = row + 1 < end ? above + view->columns : NULL;
    fputs("│", out);
    for (size_t x = 0; x < view->width; x++) {
      fputs(blocks[above[x] == 1][below != NULL && below[x] == 1], out);
    }
    fputs("│\n", out);
  }
}

void show(FILE *out, const struct played *played)
{
  view_draw(out, played->frame, played->wide, print_rows);
  dark_print(out, played);
  stop_print(out, played);
}
