/*
** How often each call gave each number.  Listings from either start are told
** apart, so that both are asked for.
*/
#ifndef TALLY_H
#define TALLY_H

#include <stdbool.h>
#include <stdint.h>

enum call { CALL_COMMAND, CALL_WRITE, CALL_READ, CALL_RESET, CALL_RUN,
            CALL_DRAW, CALL_LIST, CALL_LIST_UPRIGHT, CALL_FRAMES,
            CALL_MEMORIES, CALL_START, CALL_START_UPRIGHT,
            CALL_WIDE_COMMAND, CALL_WIDE_WRITE, CALL_WIDE_READ,
            CALL_WIDE_RESET, CALL_WIDE_RUN, CALL_WIDE_DRAW, CALL_WIDE_PAGE,
            CALL_WIDE_LIST, CALL_WIDE_LIST_UPRIGHT, CALLS };

void tally_add(enum call call, uint8_t number);

unsigned long tally_of(enum call call, uint8_t number);

/* All answers of a call. */
unsigned long tally_all(enum call call);

/* Prints a line for each call. */
void tally_print(void);

/* Whether each call gave every number that it can give; says which not. */
bool tally_complete(void);

#endif
