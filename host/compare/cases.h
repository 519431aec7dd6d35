/*
** One case of the stream: the library is called as the case says, and all
** that it answers and leaves is compared with what the oracle says of it.
*/
#ifndef CASES_H
#define CASES_H

#include "stream.h"

/* Opens the rooms that the library is lent from. */
void events_open(void);
void runs_open(void);
void draws_open(void);
void listings_open(void);
void differences_open(void);
void starts_open(void);
void chips_open(void);
void wide_events_open(void);
void pages_open(void);

void compare_single(struct body *body);
void compare_sequence(struct body *body);
void compare_run(struct body *body);
void compare_draw(struct body *body);
void compare_listing(struct body *body);
void compare_frames(struct body *body);
void compare_memories(struct body *body);
void compare_start(struct body *body);
void compare_wide_event(struct body *body);
void compare_wide_run(struct body *body);
void compare_wide_draw(struct body *body);
void compare_page(struct body *body);
void compare_wide_listing(struct body *body);

/* Makes the start call that a case names, and reports it by its name. */
uint8_t start_as(enum start start, uint8_t *state, size_t state_len,
                 uint8_t *memory, size_t memory_len);

#endif
