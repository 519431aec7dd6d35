#include "listing.h"

#include <string.h>

/* Plays a trace from the start that was made, and writes its listing. */
static enum listing list_trace(struct played *played, const uint8_t *trace,
                               size_t trace_len, uint8_t *text, size_t *length)
{
  static const char too_long[] = "input too long\n";
  if (trace_len > LISTING_LONGEST_TRACE) {
    *length = sizeof too_long - 1;
    memcpy(text, too_long, *length);
    return LISTING_TOO_LONG;
  }
  play_on(played, trace, trace_len, true, ALL_RECORDS);
  play_end(played);
  /* The sizes are right, so neither refuses. */
  if (played->wide) {
    ssd1815b_wide_list(played->number, played->offset, played->frame,
                       sizeof played->frame, text, SSD1815B_WIDE_TEXT_SIZE,
                       length);
  } else {
    ssd1815b_list(played->number, played->offset, played->frame,
                  sizeof played->frame, text, SSD1815B_TEXT_SIZE, length);
  }
  return played->number == SSD1815B_TAKEN ? LISTING_TAKEN : LISTING_REFUSED;
}

enum listing listing_of(struct played *played, enum hung hung,
                        const uint8_t *trace, size_t trace_len, uint8_t *text,
                        size_t *length)
{
  play_begin(played, hung);
  return list_trace(played, trace, trace_len, text, length);
}

enum listing wide_listing_of(struct played *played, enum hung hung,
                             const uint8_t *trace, size_t trace_len,
                             uint8_t *text, size_t *length)
{
  play_begin_wide(played, hung);
  return list_trace(played, trace, trace_len, text, length);
}
