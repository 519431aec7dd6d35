#include "screen.h"

#include <string.h>

#include "looks.h"
#include "player.h"
#include "stored.h"

/* Says in which line a text is no listing, and what it looks like if it does
** not begin as one. */
static void tell_fault(struct screen *screen, const struct fault *fault)
{
  const struct input *input = &screen->input;
  fprintf(stderr, "ssd1815b: %s: line %zu: %s\n", input->name, fault->line,
          fault->words);
  if (!stored_begins(input->bytes, input->length)) {
    screen->played.trace = input->bytes;
    screen->played.trace_len = input->length;
    looks_print(stderr, &screen->played, 0);
  }
}

/* Whether a listing is of such a terminal as the options say; says so if it is
** not. */
static bool fits_width(const struct options *options, const char *name,
                       const struct stored *stored)
{
  if (stored->wide && !options->wide) {
    fprintf(stderr, "ssd1815b: %s: the listing of a wide terminal, 264 wide:"
            " --wide compares such screens\n", name);
  } else if (options->wide && !stored->wide) {
    fprintf(stderr, "ssd1815b: %s: the listing of one chip, 132 wide, and --wide"
            " compares screens 264 wide\n", name);
  }
  return stored->wide == options->wide;
}

/* A listing, which is at most so long; one byte more tells a longer text. */
static bool read_stored(struct screen *screen, const struct options *options)
{
  static struct stored stored;
  struct fault fault;
  struct input *input = &screen->input;
  if (!input_more(input, SSD1815B_WIDE_TEXT_SIZE + 1)) {
    return false;
  }
  if (!(options->wide ? stored_read_wide : stored_read)(
        &stored, input->bytes, input->length, &fault)) {
    tell_fault(screen, &fault);
    return false;
  }
  if (!fits_width(options, input->name, &stored)) {
    return false;
  }
  screen->played.wide = stored.wide;
  screen->played.number = stored.number;
  screen->played.offset = stored.offset;
  memcpy(screen->played.frame, stored.frame, sizeof stored.frame);
  return true;
}

static bool read_trace(struct screen *screen, const struct options *options)
{
  if (!play_input(&screen->played, &screen->input, options)) {
    return false;
  }
  if (screen->input.length == 0) {
    fprintf(stderr, "ssd1815b: %s is empty: a trace of no record\n",
            screen->input.name);
  }
  tell_fewer(&screen->played, screen->input.name, options->records);
  return true;
}

/* Reads the first bytes, and then as they say.  No trace of which an event is
** taken is text, as a header's last byte is 0. */
static bool read_either(struct screen *screen, const struct options *options)
{
  const struct input *input = &screen->input;
  if (!input_more(&screen->input, LOOKED_AT)) {
    return false;
  }
  screen->stored = input->length > 0
                   && (stored_begins(input->bytes, input->length)
                       || looks_text(input->bytes, input->length));
  return screen->stored ? read_stored(screen, options)
                        : read_trace(screen, options);
}

bool screen_read(struct screen *screen, const char *name,
                 const struct options *options)
{
  *screen = (struct screen){ .stored = false };
  if (!input_open(&screen->input, name)) {
    return false;
  }
  bool done = read_either(screen, options);
  if (!done) {
    screen_close(screen);
  }
  return done;
}

void screen_close(struct screen *screen)
{
  input_close(&screen->input);
}
