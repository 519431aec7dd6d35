#include "commands.h"

#include "listing.h"
#include "player.h"
#include "stop.h"

enum status list(FILE *out, const struct options *options, struct input *input)
{
  static struct played played;
  static uint8_t text[SSD1815B_WIDE_TEXT_SIZE];
  /* One byte more than is listed tells a longer trace. */
  if (!input_more(input, LISTING_LONGEST_TRACE + 1)) {
    return FAILED;
  }
  size_t found;
  size_t end = records_end(input->bytes, input->length, options->records,
                           &found);
  size_t trace_len = found == options->records ? end : input->length;
  size_t length;
  enum listing outcome = (options->wide ? wide_listing_of : listing_of)(
    &played, options->hung, input->bytes, trace_len, text, &length);
  fwrite(text, 1, length, out);
  if (outcome == LISTING_TOO_LONG) {
    return FAILED;
  }
  tell_fewer(&played, "the trace", options->records);
  stop_print(stderr, &played);
  return status_of(&played);
}
