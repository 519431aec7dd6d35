/*
** The two chips of a wide terminal, lent from a room for each of their four
** buffers.
*/
#ifndef CHIPS_H
#define CHIPS_H

#include <stdbool.h>

#include "room.h"
#include "stream.h"

/* The buffers, in the order in which the calls and the stream have them. */
enum part { LEFT_STATE, LEFT_MEMORY, RIGHT_STATE, RIGHT_MEMORY, PARTS };

/* The contents of all four. */
struct chips {
  struct bytes part[PARTS];
};

extern struct room chip_rooms[PARTS];

/* The arguments that each wide call begins with: the lent buffers. */
#define LENT(part) chip_rooms[part].lent, chip_rooms[part].length
#define LENT_CHIPS \
  LENT(LEFT_STATE), LENT(LEFT_MEMORY), LENT(RIGHT_STATE), LENT(RIGHT_MEMORY)

void chips_open(void);

/* Takes what is lent of two chips, or what was left of those. */
struct chips take_chips(struct body *body);
struct chips take_chips_after(struct body *body, const struct chips *before);

void lend_chips(const struct chips *chips);

/* Whether nothing outside of the four buffers was written; and whether, besides,
** they hold these contents. */
bool same_guards_of_chips(void);
bool same_chips(const struct chips *expected);

#endif
