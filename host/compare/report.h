/*
** What is compared now, and what was found to differ.
*/
#ifndef REPORT_H
#define REPORT_H

#include <stdbool.h>
#include <stddef.h>
#include <stdint.h>

#include "room.h"
#include "stream.h"

/* What is compared. */
enum thing { THE_NUMBER, THE_BYTE, THE_DUMMY, THE_OFFSET, THE_COUNT,
             THE_LENGTH, THE_STATE, THE_MEMORY, THE_FRAME, THE_TRACE, THE_TEXT,
             AFTER_THE_TEXT, THE_FIRST_FRAME, THE_SECOND_FRAME, THE_RUNS,
             RUNS_PUT_IN, FRAME_WITH_RUNS, THE_FIRST_MEMORY, THE_SECOND_MEMORY,
             THE_BYTES, BYTES_PUT_IN, MEMORY_WITH_BYTES, AFTER_THE_LIST,
             THE_LEFT_STATE, THE_LEFT_MEMORY, THE_RIGHT_STATE, THE_RIGHT_MEMORY,
             THE_WIDE_FRAME, THE_PLACE };

/* Begins the report.  shown_by is the command that shows a case of the stream
** if ` --from N --count 1` is put after it. */
void report_begin(const char *shown_by);

/* The next case of the stream; they count from 0. */
void report_case(const char *what);

/* What of the case is done now: a call by its name, an event of a sequence, or
** a wide event. */
void report_call(const char *call);
void report_event(size_t index, struct event event);
void report_wide_event(uint8_t selection, struct event event);

/* Each compares one thing, prints a difference, and answers whether there
** is none. */
bool same_number(enum thing thing, uint64_t expected, uint64_t found);
bool same_bytes(enum thing thing, const uint8_t *expected,
                const uint8_t *found, size_t length);
bool same_guards(enum thing thing, struct room *room);

/* How many cases differ; whether that is enough to stop. */
unsigned report_differences(void);
bool report_enough(void);

#endif
