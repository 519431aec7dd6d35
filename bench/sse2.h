/*
** The two drawing calls by hand with SSE2: a limit for the library, beside the
** yardstick of plain.h.  What each call takes, answers and leaves is said in
** host/ssd1815b.h under the same name there.
*/
#ifndef SSE2_H
#define SSE2_H

#include "ssd1815b.h"

uint8_t sse2_draw(const uint8_t *state, size_t state_len,
                  const uint8_t *memory, size_t memory_len, uint8_t *frame,
                  size_t frame_len);
uint8_t sse2_wide_draw(const uint8_t *left_state, size_t left_state_len,
                       const uint8_t *left_memory, size_t left_memory_len,
                       const uint8_t *right_state, size_t right_state_len,
                       const uint8_t *right_memory, size_t right_memory_len,
                       uint8_t *frame, size_t frame_len);

#endif
