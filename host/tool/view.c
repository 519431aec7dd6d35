#define _DEFAULT_SOURCE /* fileno, ioctl */
#include "view.h"

#include <sys/ioctl.h>

#include "edge.h"
#include "sides.h"

enum { EDGES = 2 };

/* How wide the terminal is that out is; 0 where it is none or does not say. */
static size_t width_of(FILE *out)
{
  struct winsize size;
  return ioctl(fileno(out), TIOCGWINSZ, &size) == 0 ? size.ws_col : 0;
}

/* Whether a wide screen is to be drawn in its halves; says so. */
static bool in_halves(FILE *out)
{
  size_t width = width_of(out);
  if (width == 0 || width >= SSD1815B_WIDE_COLUMNS + EDGES) {
    return false;
  }
  fprintf(stderr, "ssd1815b: the screen is drawn %d wide, and this terminal is"
          " %zu: the halves stand one below the other",
          SSD1815B_WIDE_COLUMNS + EDGES, width);
  if (width < SSD1815B_COLUMNS + EDGES) {
    fprintf(stderr, ", and do not fit either: each is %d wide",
            SSD1815B_COLUMNS + EDGES);
  }
  fputs("\n", stderr);
  return true;
}

/* Draws one view, edges round it. */
static void draw(FILE *out, const struct view *view, row_printer *print)
{
  edge_print(out, "┌", view->width, "┐");
  print(out, view, 0, SSD1815B_ROWS);
  edge_print(out, "├", view->width, "┤");
  print(out, view, SSD1815B_ICON_ROW, 1);
  edge_print(out, "└", view->width, "┘");
}

void view_draw(FILE *out, const uint8_t *places, bool wide, row_printer *print)
{
  struct view view = { places, columns_of(wide), columns_of(wide) };
  if (!wide || !in_halves(out)) {
    draw(out, &view, print);
    return;
  }
  view.width = SSD1815B_COLUMNS;
  for (enum side side = 0; side < SIDES; side++) {
    fprintf(out, "%s half\n", side_name(side));
    view.places = places + side * SSD1815B_COLUMNS;
    draw(out, &view, print);
  }
}
