/*
** The edges round a screen that is drawn in a terminal.
*/
#ifndef EDGE_H
#define EDGE_H

#include <stddef.h>
#include <stdio.h>

/* An edge as wide as what is drawn, between its two ends. */
void edge_print(FILE *out, const char *left, size_t width, const char *right);

#endif
