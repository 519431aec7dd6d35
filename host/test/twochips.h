/*
** The two chips of a wide terminal for a test: contents of their four buffers,
** lent from a room for each.
*/
#ifndef TWOCHIPS_H
#define TWOCHIPS_H

#include <stdbool.h>
#include <stddef.h>
#include <stdint.h>

#include "room.h"

/* The buffers, in the order in which the wide calls have them. */
enum buffer { LEFT_STATE, LEFT_MEMORY, RIGHT_STATE, RIGHT_MEMORY, BUFFERS };

enum { LONGEST_BUFFER = 1300 };

/* What all four hold, and how much of it is lent. */
struct chips {
  uint8_t bytes[BUFFERS][LONGEST_BUFFER];
  size_t length[BUFFERS];
};

/* The rooms that they are lent from. */
extern struct room chip_rooms[BUFFERS];

/* The arguments that each wide call begins with. */
#define LENT(buffer) chip_rooms[buffer].lent, chip_rooms[buffer].length
#define LENT_CHIPS \
  LENT(LEFT_STATE), LENT(LEFT_MEMORY), LENT(RIGHT_STATE), LENT(RIGHT_MEMORY)

/* How long a buffer has to be. */
size_t needed(enum buffer buffer);

void chips_open(void);

/* Two chips at power-on, memories that differ at every place, and bytes of no
** meaning past what is needed. */
struct chips chips_at_power_on(void);

/* Lends what two chips hold. */
void chips_lend(const struct chips *chips);

/* Whether the lent buffers hold just this now, and nothing outside of them was
** written. */
bool chips_are(const struct chips *chips);

/* Document 01, "Registers": 0 unless given. */
extern const uint8_t power_on_image[23];

#endif
