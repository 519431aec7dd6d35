/*
** The listing program of document 01, from bytes to text; and the same for a
** wide terminal.
*/
#ifndef LISTING_H
#define LISTING_H

#include "played.h"

enum { LISTING_LONGEST_TRACE = 65536 };

enum listing { LISTING_TAKEN, LISTING_REFUSED, LISTING_TOO_LONG };

/* Plays a trace and writes what the program prints for it; text has
** SSD1815B_TEXT_SIZE bytes.  One that is too long is not played. */
enum listing listing_of(struct played *played, enum hung hung,
                        const uint8_t *trace, size_t trace_len, uint8_t *text,
                        size_t *length);

/* The same of a wide trace; text has SSD1815B_WIDE_TEXT_SIZE bytes. */
enum listing wide_listing_of(struct played *played, enum hung hung,
                             const uint8_t *trace, size_t trace_len,
                             uint8_t *text, size_t *length);

#endif
