/*
** One of the two that diff compares: a trace as it was played, or a stored
** frame.
*/
#ifndef SCREEN_H
#define SCREEN_H

#include "input.h"
#include "options.h"
#include "played.h"

struct screen {
  struct input input;
  bool stored;           /* a listing, which has a frame and no memory */
  struct played played;  /* of a listing its number, offset and frame alone */
};

/* Reads a listing, or reads and plays a trace as the options say; which it is
** the first bytes tell.  Says on standard error why it cannot, and answers
** whether it could; only then is there something to close. */
bool screen_read(struct screen *screen, const char *name,
                 const struct options *options);

void screen_close(struct screen *screen);

#endif
