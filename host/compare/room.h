/*
** Rooms: memory to lend to the library, where every step outside is seen.
**
** A room is some pages between two pages that may not be touched.  A buffer
** is lent alternately at its very end and at its very beginning, so that a
** read or write past the end, or before the beginning, ends the program at
** once (report.h says in which case).  All other bytes of the room are guard
** bytes of a known pattern; room_intact() says whether they still are.
*/
#ifndef ROOM_H
#define ROOM_H

#include <stdbool.h>
#include <stddef.h>
#include <stdint.h>

enum { LARGEST_ROOM = 400000 };

struct room {
  uint8_t *first;   /* the bytes of the room */
  size_t size;
  uint8_t *lent;    /* the buffer that is lent */
  size_t length;
  bool at_end;      /* where it lies */
};

/* Opens a room for buffers of at most this length.  Rooms are never closed. */
void room_open(struct room *room, size_t longest);

/* Lends a buffer with these contents.  The one lent before is gone. */
uint8_t *room_lend(struct room *room, const uint8_t *contents, size_t length);

/* Whether no byte of the room outside the lent buffer has changed. */
bool room_intact(const struct room *room);

/* Puts the guard bytes right again. */
void room_mend(struct room *room);

#endif
