/*
** The parts of the command diff.
*/
#ifndef DIFF_H
#define DIFF_H

#include <stdio.h>

#include "differences.h"
#include "options.h"
#include "screen.h"

/* Before what is said of one side of a wide terminal: which it is, and of what
** (a half or a chip). */
void diff_side(FILE *out, const struct options *options, enum side side,
               const char *part);

/* A line for each run of places of a side that differ, and what is said of all
** of them, with no newline after it. */
void diff_screens(FILE *out, const struct options *options, enum side side,
                  const struct differences *differences);

/* The same for each byte in which a side's memories differ.  Answers how many
** there are. */
size_t diff_memories(FILE *out, const struct options *options, enum side side,
                     const struct screen *first, const struct screen *second);

/* The screen drawn with the places marked: in colours on a terminal, in
** letters elsewhere. */
void diff_show(FILE *out, const uint8_t *marks, bool wide);

#endif
