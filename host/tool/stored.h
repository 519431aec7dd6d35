/*
** A stored frame: the listing that `list` prints, read back.
*/
#ifndef STORED_H
#define STORED_H

#include "terminal.h"

struct stored {
  bool wide;       /* the frame is a wide terminal's */
  uint8_t number;  /* of the line `refused`; SSD1815B_TAKEN without one */
  size_t offset;
  uint8_t frame[SSD1815B_WIDE_FRAME_SIZE];
};

/* Where a text is no listing, and why. */
struct fault {
  size_t line;      /* from 1 */
  char words[240];  /* what was expected there, and what was found */
};

/* Whether a text begins as list begins one, sound or not. */
bool stored_begins(const uint8_t *text, size_t length);

/* Reads a listing, of one chip or of a wide terminal.  Answers whether the text
** is one, byte for byte as list prints it; *fault is filled where it is not. */
bool stored_read(struct stored *stored, const uint8_t *text, size_t length,
                 struct fault *fault);

/* The same where a wide terminal's is expected, as *fault says. */
bool stored_read_wide(struct stored *stored, const uint8_t *text,
                      size_t length, struct fault *fault);

#endif
