/*
** Where a code that is awaited, or a column above 131, came from.
*/
#ifndef ORIGIN_H
#define ORIGIN_H

#include <stdio.h>

#include "played.h"

/* A line or two about the code that the run left a chip awaiting. */
void origin_print_code(FILE *out, const struct played *played, enum side side);

/* The same about the column that it left above 131. */
void origin_print_column(FILE *out, const struct played *played,
                         enum side side);

#endif
