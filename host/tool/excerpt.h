/*
** Some bytes of a trace in hex, about a place.
*/
#ifndef EXCERPT_H
#define EXCERPT_H

#include <stdio.h>

#include "played.h"

/* A line with the bytes about the place, no further than from first to end,
** the place's own between [ and ]. */
void excerpt_print(FILE *out, const struct played *played, size_t first,
                   size_t end, size_t place);

#endif
