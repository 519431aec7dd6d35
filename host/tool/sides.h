/*
** The chips of a wide terminal by name, and what was selected where.
*/
#ifndef SIDES_H
#define SIDES_H

#include <stdio.h>

#include "played.h"

/* "left" or "right". */
const char *side_name(enum side side);

/* "left", "right" or "both". */
const char *selection_name(uint8_t selection);

/* Whether a record selected what was selected where the run stopped, and not
** the beginning of the run. */
bool is_selected_by_record(const struct played *played);

/* A line about what was selected there, and since when. */
void selection_print(FILE *out, const struct played *played);

/* The chip whose refusal the run answered, at a byte of a record of this
** kind. */
enum side refusing_side(const struct played *played, size_t kind);

/* Where both are selected, a line on which of them refused; more tells whether
** more of that chip follows it. */
void refusing_print(FILE *out, const struct played *played, size_t kind,
                    bool more);

#endif
