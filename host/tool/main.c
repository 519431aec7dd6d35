/*
** ssd1815b: recorded bus traffic through the model, at a terminal.
*/
#include <errno.h>
#include <string.h>

#include "commands.h"
#include "help.h"
#include "player.h"

enum status status_of(const struct played *played)
{
  return played->number == SSD1815B_TAKEN ? ALL_TAKEN : REFUSED;
}

/* All was written, or says that it was not. */
static bool written(void)
{
  if (fflush(stdout) != 0 || ferror(stdout) != 0) {
    fprintf(stderr, "ssd1815b: cannot write standard output: %s\n",
            strerror(errno));
    return false;
  }
  return true;
}

/* A command on a trace that has been played. */
static enum status on_played(const struct options *options,
                             const struct played *played)
{
  tell_fewer(played, "the trace", options->records);
  switch (options->command) {
  case SHOW:
    show(stdout, played);
    break;
  case STATE:
    state(stdout, played);
    break;
  case MEMORY:
    memory(stdout, played);
    break;
  default:
    return picture(options, played);
  }
  return status_of(played);
}

/* A command on one trace. */
static enum status on_one_trace(const struct options *options)
{
  static struct played played;
  struct input input;
  if (options->command == PICTURE && !picture_has_place(options)) {
    return FAILED;
  }
  if (!input_open(&input, options->traces[0])) {
    return FAILED;
  }
  enum status status = FAILED;
  if (options->command == LIST) {
    status = list(stdout, options, &input);
  } else if (play_input(&played, &input, options)) {
    status = on_played(options, &played);
  }
  input_close(&input);
  return status;
}

/* The command that the options name. */
static enum status run(const struct options *options)
{
  switch (options->command) {
  case CHECK:
    return check(stdout, options);
  case DIFF:
    return diff(stdout, options);
  default:
    return on_one_trace(options);
  }
}

int main(int argc, char **argv)
{
  struct options options;
  enum status status = ALL_TAKEN;
  switch (options_of(argc, argv, &options)) {
  case WISH_HELP:
    help_print(stdout, options.command);
    break;
  case WISH_VERSION:
    version_print(stdout);
    break;
  case WISH_COMMAND:
    status = run(&options);
    break;
  case WISH_NONE:
    return FAILED;
  }
  return written() ? (int)status : FAILED;
}
