#include "commands.h"

#include <string.h>

#include "colours.h"
#include "diff.h"
#include "looks.h"
#include "numbers.h"
#include "picture.h"
#include "sides.h"
#include "stop.h"

void diff_side(FILE *out, const struct options *options, enum side side,
               const char *part)
{
  if (options->wide) {
    fprintf(out, "%s %s", side_name(side), part);
  }
}

/* Says of a run that was refused where, by which chip of a wide terminal, and
** what that does to the status. */
static void tell_refused(const struct options *options,
                         const struct screen *screen)
{
  const struct played *played = &screen->played;
  fputs("ssd1815b: ", stderr);
  number_print(stderr, screen->input.name, played);
  if (!screen->stored && (played->number == SSD1815B_HEADER_CUT
                          || played->number == SSD1815B_KIND_UNKNOWN)) {
    looks_print(stderr, played, played->offset);
  }
  if (!screen->stored && stop_at_chips(played)) {
    stop_print_chips(stderr, played);
  }
  fprintf(stderr, "  compared as it stands there%s\n",
          options->refused ? "" : "; so the status is 2, and with --refused"
                                  " that of the comparison");
}

/* Whether both were taken whole, or are to be compared as they stand. */
static bool sound(const struct options *options, const struct screen *first,
                  const struct screen *second)
{
  bool taken = true;
  const struct screen *screens[] = { first, second };
  for (int i = 0; i < 2; i++) {
    if (screens[i]->played.number != SSD1815B_TAKEN) {
      tell_refused(options, screens[i]);
      taken = false;
    }
  }
  return taken || options->refused;
}

/* Whether the options fit what was read; says so if they do not. */
static bool fits(const struct options *options, const struct screen *first,
                 const struct screen *second)
{
  if (options->memory && (first->stored || second->stored)) {
    fprintf(stderr, "ssd1815b: %s: a listing has no memory; --memory wants the"
            " trace that it was printed for\n",
            first->stored ? first->input.name : second->input.name);
    return false;
  }
  const char *wish = options->records != ALL_RECORDS ? "--after"
                     : options->hung == HUNG_UPRIGHT ? "--upright" : NULL;
  if (wish != NULL && first->stored && second->stored) {
    fprintf(stderr, "ssd1815b: %s is for traces, and both are listings\n",
            wish);
    return false;
  }
  return true;
}

/* Draws where the screens differ, as far as the options ask; answers whether
** it could. */
static bool draw(FILE *out, const struct options *options,
                 const struct screen *first,
                 const struct differences *differences)
{
  static uint8_t marks[SSD1815B_WIDE_FRAME_SIZE];
  static const struct form colours = { "PPM", ".ppm", ppm_write,
                                       png_write_colours };
  memcpy(marks, first->played.frame, sizeof marks);
  for (enum side side = 0; side < sides_of(options->wide); side++) {
    differences_mark(&differences[side], options->wide, side, marks);
  }
  if (options->show) {
    diff_show(out, marks, options->wide);
  }
  return options->output == NULL || picture_write(options, &colours, marks);
}

/* After what is said of a side: the end of the line, or in a brief one what
** parts it from the next. */
static void end_side(FILE *out, const struct options *options, enum side side)
{
  bool last = side + 1 == sides_of(options->wide);
  fputs(options->brief && !last ? "; " : "\n", out);
}

/* The names of the two, before a line that stands alone. */
static void print_names(FILE *out, const struct options *options)
{
  if (options->brief) {
    fprintf(out, "%s and %s: ", options->traces[0], options->traces[1]);
  }
}

/* Compares the memories, side by side; answers how many bytes differ. */
static size_t compare_memories(FILE *out, const struct options *options,
                               const struct screen *first,
                               const struct screen *second)
{
  size_t count = 0;
  print_names(out, options);
  for (enum side side = 0; side < sides_of(options->wide); side++) {
    count += diff_memories(out, options, side, first, second);
    end_side(out, options, side);
  }
  return count;
}

/* Compares the screens, half by half, an entry's column being a byte; *count is
** how many runs differ.  Answers whether they could be drawn as asked. */
static bool compare_screens(FILE *out, const struct options *options,
                            const struct screen *first,
                            const struct screen *second, size_t *count)
{
  static struct differences differences[SIDES];
  *count = 0;
  for (enum side side = 0; side < sides_of(options->wide); side++) {
    differences_find(&differences[side], first->played.frame,
                     second->played.frame, options->wide, side);
    *count += differences[side].runs;
  }
  bool done = draw(out, options, first, differences);
  print_names(out, options);
  for (enum side side = 0; side < sides_of(options->wide); side++) {
    diff_screens(out, options, side, &differences[side]);
    end_side(out, options, side);
  }
  return done;
}

static enum status compare(FILE *out, const struct options *options,
                           const struct screen *first,
                           const struct screen *second)
{
  size_t count;
  if (!fits(options, first, second)) {
    return FAILED;
  }
  bool done = sound(options, first, second);
  if (options->memory) {
    count = compare_memories(out, options, first, second);
  } else {
    done = compare_screens(out, options, first, second, &count) && done;
  }
  if (!done) {
    return FAILED;
  }
  return count == 0 ? THE_SAME : DIFFERENT;
}

enum status diff(FILE *out, const struct options *options)
{
  static struct screen first;
  static struct screen second;
  enum status status = FAILED;
  if (screen_read(&first, options->traces[0], options)) {
    if (screen_read(&second, options->traces[1], options)) {
      status = compare(out, options, &first, &second);
      screen_close(&second);
    }
    screen_close(&first);
  }
  return status;
}
