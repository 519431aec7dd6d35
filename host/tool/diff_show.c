#define _POSIX_C_SOURCE 200809L /* fileno, isatty */
#include "diff.h"

#include <stdlib.h>
#include <string.h>
#include <unistd.h>

#include "view.h"

static const char *const words[MARKS] = {
  [DARK_IN_BOTH] = "dark in both",
  [LIT_IN_BOTH] = "lit in both",
  [LIT_IN_FIRST] = "lit in the first alone",
  [LIT_IN_SECOND] = "lit in the second alone",
};

/* The marks as letters; - and + as diff(1) has them. */
static const char letters[MARKS] = {
  [DARK_IN_BOTH] = '.', [LIT_IN_BOTH] = '#',
  [LIT_IN_FIRST] = '-', [LIT_IN_SECOND] = '+',
};

/* The marks as a terminal's 256 colours: black, gray, blue and orange, which
** most who do not see all colours tell apart. */
static const unsigned char colours[MARKS] = {
  [DARK_IN_BOTH] = 16, [LIT_IN_BOTH] = 245,
  [LIT_IN_FIRST] = 33, [LIT_IN_SECOND] = 214,
};

/* Colours are for a terminal that has them and a reader who did not decline
** them (NO_COLOR). */
static bool is_coloured(FILE *out)
{
  const char *declined = getenv("NO_COLOR");
  const char *terminal = getenv("TERM");
  return isatty(fileno(out)) && (declined == NULL || *declined == '\0')
         && terminal != NULL && strcmp(terminal, "dumb") != 0;
}

/* Rows in letters, a line each. */
static void print_letters(FILE *out, const struct view *view, size_t row,
                          size_t rows)
{
  for (size_t end = row + rows; row < end; row++) {
    fputs("│", out);
    for (size_t x = 0; x < view->width; x++) {
      putc(letters[view->places[row * view->columns + x]], out);
    }
    fputs("│\n", out);
  }
}

/* One row in colours above another, which may be none: a cell's upper half is
** painted and its lower half left.  Colours are set where they change. */
static void print_line(FILE *out, const uint8_t *above, const uint8_t *below,
                       size_t width)
{
  int upper = MARKS;
  int lower = MARKS;
  fputs("│", out);
  for (size_t x = 0; x < width; x++) {
    int next = below == NULL ? DARK_IN_BOTH : below[x];
    if (above[x] != upper || next != lower) {
      upper = above[x];
      lower = next;
      fprintf(out, "\033[38;5;%u;48;5;%um", colours[upper], colours[lower]);
    }
    fputs("▀", out);
  }
  fputs("\033[0m│\n", out);
}

/* Rows in colours, two to a line. */
static void print_colours(FILE *out, const struct view *view, size_t row,
                          size_t rows)
{
  for (size_t end = row + rows; row < end; row += 2) {
    const uint8_t *above = view->places + row * view->columns;
    print_line(out, above, row + 1 < end ? above + view->columns : NULL,
               view->width);
  }
}

/* Which letter or colour is what. */
static void print_legend(FILE *out, bool coloured)
{
  for (int mark = 0; mark < MARKS; mark++) {
    fputs(mark == 0 ? "" : ", ", out);
    if (coloured) {
      fprintf(out, "\033[38;5;%um█\033[0m %s", colours[mark], words[mark]);
    } else {
      fprintf(out, "%c %s", letters[mark], words[mark]);
    }
  }
  fputs("\n", out);
}

void diff_show(FILE *out, const uint8_t *marks, bool wide)
{
  bool coloured = is_coloured(out);
  view_draw(out, marks, wide, coloured ? print_colours : print_letters);
  print_legend(out, coloured);
}
