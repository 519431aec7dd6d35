/*
** What input that is no trace looks like, and what to do with it.
*/
#ifndef LOOKS_H
#define LOOKS_H

#include <stdio.h>

#include "played.h"

/* How much of the input is looked at for text. */
enum { LOOKED_AT = 4096 };

/* Whether the input is text: printable characters and white space, and few
** bytes of other letters. */
bool looks_text(const uint8_t *bytes, size_t length);

/* Whether the run of one chip was refused at a select record, which a wide
** terminal's trace has; and what is said of it. */
bool looks_wide(const struct played *played);

#define LOOKS_WIDE \
  "kind 5 selects a chip of a wide terminal: --wide plays such a trace"

/* A line if the trace from the record at this offset on looks like something
** else; nothing if it does not. */
void looks_print(FILE *out, const struct played *played, size_t first);

#endif
