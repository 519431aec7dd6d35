/*
** The rules of documents 01 and 02 in plain C, under names of their own, so that
** a program can hold them beside the proved library.  What each call takes,
** answers and leaves is said in host/ssd1815b.h under the same name there.
*/
#ifndef PLAIN_H
#define PLAIN_H

#include "ssd1815b.h"

uint8_t plain_start(uint8_t *state, size_t state_len, uint8_t *memory,
                    size_t memory_len);
uint8_t plain_start_upright(uint8_t *state, size_t state_len, uint8_t *memory,
                            size_t memory_len);
uint8_t plain_command(uint8_t *state, size_t state_len, const uint8_t *memory,
                      size_t memory_len, uint8_t byte);
uint8_t plain_write(uint8_t *state, size_t state_len, uint8_t *memory,
                    size_t memory_len, uint8_t byte);
uint8_t plain_read(uint8_t *state, size_t state_len, const uint8_t *memory,
                   size_t memory_len, uint8_t *byte, uint8_t *dummy);
uint8_t plain_reset(uint8_t *state, size_t state_len, const uint8_t *memory,
                    size_t memory_len);
uint8_t plain_run(uint8_t *state, size_t state_len, uint8_t *memory,
                  size_t memory_len, const uint8_t *trace, size_t trace_len,
                  size_t *offset, size_t *count);
uint8_t plain_record(const uint8_t *trace, size_t trace_len, size_t at,
                     size_t *kind, size_t *next);
uint8_t plain_power_state(const uint8_t *state, size_t state_len,
                          uint8_t *power);
uint8_t plain_draw(const uint8_t *state, size_t state_len,
                   const uint8_t *memory, size_t memory_len, uint8_t *frame,
                   size_t frame_len);
uint8_t plain_list(uint8_t number, size_t offset, const uint8_t *frame,
                   size_t frame_len, uint8_t *text, size_t text_len,
                   size_t *length);
uint8_t plain_compare_frames(const uint8_t *first, size_t first_len,
                             const uint8_t *second, size_t second_len,
                             uint8_t *list, size_t list_len, size_t *count);
uint8_t plain_compare_memories(const uint8_t *first, size_t first_len,
                               const uint8_t *second, size_t second_len,
                               uint8_t *list, size_t list_len, size_t *count);
uint8_t plain_wide_command(uint8_t *left_state, size_t left_state_len,
                           const uint8_t *left_memory, size_t left_memory_len,
                           uint8_t *right_state, size_t right_state_len,
                           const uint8_t *right_memory,
                           size_t right_memory_len, uint8_t selection,
                           uint8_t byte);
uint8_t plain_wide_write(uint8_t *left_state, size_t left_state_len,
                         uint8_t *left_memory, size_t left_memory_len,
                         uint8_t *right_state, size_t right_state_len,
                         uint8_t *right_memory, size_t right_memory_len,
                         uint8_t selection, uint8_t byte);
uint8_t plain_wide_reset(uint8_t *left_state, size_t left_state_len,
                         const uint8_t *left_memory, size_t left_memory_len,
                         uint8_t *right_state, size_t right_state_len,
                         const uint8_t *right_memory, size_t right_memory_len,
                         uint8_t selection);
uint8_t plain_wide_read(uint8_t *left_state, size_t left_state_len,
                        const uint8_t *left_memory, size_t left_memory_len,
                        uint8_t *right_state, size_t right_state_len,
                        const uint8_t *right_memory, size_t right_memory_len,
                        uint8_t selection, uint8_t *byte, uint8_t *dummy);
uint8_t plain_wide_run(uint8_t *left_state, size_t left_state_len,
                       uint8_t *left_memory, size_t left_memory_len,
                       uint8_t *right_state, size_t right_state_len,
                       uint8_t *right_memory, size_t right_memory_len,
                       const uint8_t *trace, size_t trace_len, size_t *offset,
                       size_t *count);
uint8_t plain_wide_draw(const uint8_t *left_state, size_t left_state_len,
                        const uint8_t *left_memory, size_t left_memory_len,
                        const uint8_t *right_state, size_t right_state_len,
                        const uint8_t *right_memory, size_t right_memory_len,
                        uint8_t *frame, size_t frame_len);
uint8_t plain_wide_page(const uint8_t *left_memory, size_t left_memory_len,
                        const uint8_t *right_memory, size_t right_memory_len,
                        uint8_t side, uint8_t page, size_t *place,
                        size_t *length);
uint8_t plain_wide_list(uint8_t number, size_t offset, const uint8_t *frame,
                        size_t frame_len, uint8_t *text, size_t text_len,
                        size_t *length);

#endif
