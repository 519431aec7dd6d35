/*
** Why a screen is dark.
*/
#ifndef DARK_H
#define DARK_H

#include <stdio.h>

#include "played.h"

/* A line if no place of the frame is lit, of a wide one if none of a half is,
** and nothing if one is. */
void dark_print(FILE *out, const struct played *played);

#endif
