/*
** Where a run stopped, and why, in words.
*/
#ifndef STOP_H
#define STOP_H

#include <stdio.h>

#include "played.h"

/* Prints some lines if the run was refused, and nothing if it was not. */
void stop_print(FILE *out, const struct played *played);

/* Whether a run of a wide terminal was refused at a byte for its chips, and not
** at a header; and of those lines the ones on what was selected there, since
** when, and which chip refused. */
bool stop_at_chips(const struct played *played);
void stop_print_chips(FILE *out, const struct played *played);

#endif
