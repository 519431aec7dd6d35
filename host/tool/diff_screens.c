#include "diff.h"

#include "plural.h"

static void print_run(FILE *out, const uint8_t *run)
{
  static const char *const states[] = { "dark", "lit" };
  unsigned row = run[SSD1815B_RUN_ROW];
  fprintf(out, "row %u%s, %u", row,
          row == SSD1815B_ICON_ROW ? " (the icon line)" : "",
          run[SSD1815B_RUN_FIRST]);
  if (run[SSD1815B_RUN_LAST] != run[SSD1815B_RUN_FIRST]) {
    fprintf(out, " to %u", run[SSD1815B_RUN_LAST]);
  }
  fprintf(out, ": %s, then %s\n", states[run[SSD1815B_RUN_WAS]],
          states[run[SSD1815B_RUN_IS]]);
}

/* What is said of all runs; of two dark screens it says that, too, as no
** picture may have been meant. */
static void print_summary(FILE *out, const struct differences *differences)
{
  size_t runs = differences->runs;
  if (runs == 0) {
    fprintf(out, "the same, no place differs%s",
            differences->dark ? "; all are dark" : "");
    return;
  }
  fprintf(out, "%zu run%s differ%s, %zu place%s in %zu row%s", runs,
          plural(runs), runs == 1 ? "s" : "", differences->places,
          plural(differences->places), differences->rows,
          plural(differences->rows));
}

void diff_screens(FILE *out, const struct options *options, enum side side,
                  const struct differences *differences)
{
  for (size_t i = 0; i < differences->runs && !options->brief; i++) {
    diff_side(out, options, side, "half, ");
    print_run(out, differences_run(differences, i));
  }
  diff_side(out, options, side, "half: ");
  print_summary(out, differences);
}
