/*
** The two comparing calls, the fastest C that we could write by hand: a limit
** for the library, beside the yardstick of plain.h.  What each call takes,
** answers and leaves is said in host/ssd1815b.h under the same name there.
*/
#ifndef TUNED_H
#define TUNED_H

#include "ssd1815b.h"

uint8_t tuned_compare_frames(const uint8_t *first, size_t first_len,
                             const uint8_t *second, size_t second_len,
                             uint8_t *list, size_t list_len, size_t *count);
uint8_t tuned_compare_memories(const uint8_t *first, size_t first_len,
                               const uint8_t *second, size_t second_len,
                               uint8_t *list, size_t list_len, size_t *count);

#endif
