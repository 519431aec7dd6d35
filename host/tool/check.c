#include "commands.h"

#include "looks.h"
#include "numbers.h"
#include "player.h"
#include "plural.h"
#include "stop.h"

/* The verdict on a trace, in a line; on standard error what a trace of a wide
** terminal wants, and which of its chips refused. */
static void print_verdict(FILE *out, const char *name,
                          const struct played *played)
{
  if (played->number == SSD1815B_TAKEN) {
    fprintf(out, "%s: taken, %zu record%s\n", name, played->count,
            plural(played->count));
  } else {
    number_print(out, name, played);
  }
  if (looks_wide(played)) {
    fprintf(stderr, "ssd1815b: %s: %s\n", name, LOOKS_WIDE);
  }
  if (stop_at_chips(played)) {
    fprintf(stderr, "ssd1815b: %s:\n", name);
    stop_print_chips(stderr, played);
  }
}

static enum status check_one(FILE *out, const struct options *options,
                             const char *name)
{
  static struct played played;
  struct input input;
  enum status status = FAILED;
  if (input_open(&input, name)) {
    if (play_input(&played, &input, options)) {
      status = status_of(&played);
      print_verdict(out, name, &played);
    }
    input_close(&input);
  }
  if (status == FAILED) {
    fprintf(out, "%s: cannot be read\n", name);
  }
  return status;
}

enum status check(FILE *out, const struct options *options)
{
  enum status worst = ALL_TAKEN;
  for (int i = 0; i < options->trace_count; i++) {
    enum status status = check_one(out, options, options->traces[i]);
    if (status > worst) {
      worst = status;
    }
  }
  return worst;
}
