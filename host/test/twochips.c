#include "twochips.h"

#include <string.h>

struct room chip_rooms[BUFFERS];

const uint8_t power_on_image[23] = {
  [4] = 63, [5] = 32, [6] = 4, [22] = 1 /* multiplex, contrast, ratio, fresh */
};

size_t needed(enum buffer buffer)
{
  return buffer == LEFT_STATE || buffer == RIGHT_STATE ? 23 : 1188;
}

void chips_open(void)
{
  for (int i = 0; i < BUFFERS; i++) {
    room_open(&chip_rooms[i], LONGEST_BUFFER);
  }
}

struct chips chips_at_power_on(void)
{
  struct chips chips;
  memset(&chips, 0xEE, sizeof chips);
  for (size_t i = 0; i < 1188; i++) {
    /* Page 8 has bit 0 only. */
    bool icon = i >= 1056;
    uint8_t byte = (uint8_t)(icon ? i % 2 : 7 * i + i / 256 + 3);
    chips.bytes[LEFT_MEMORY][i] = byte;
    chips.bytes[RIGHT_MEMORY][i] = byte ^ (icon ? 0x01 : 0xA5);
  }
  memcpy(chips.bytes[LEFT_STATE], power_on_image, 23);
  memcpy(chips.bytes[RIGHT_STATE], power_on_image, 23);
  for (int i = 0; i < BUFFERS; i++) {
    chips.length[i] = needed(i);
  }
  return chips;
}

void chips_lend(const struct chips *chips)
{
  for (int i = 0; i < BUFFERS; i++) {
    room_lend(&chip_rooms[i], chips->bytes[i], chips->length[i]);
  }
}

bool chips_are(const struct chips *chips)
{
  for (int i = 0; i < BUFFERS; i++) {
    if (memcmp(chip_rooms[i].lent, chips->bytes[i], chips->length[i]) != 0
        || !room_intact(&chip_rooms[i])) {
      return false;
    }
  }
  return true;
}
