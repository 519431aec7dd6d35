/*
** What documents 01 and 02 say of each number given.
*/
#ifndef NUMBERS_H
#define NUMBERS_H

#include <stdio.h>

#include "played.h"

/* What the number says that a run answered. */
const char *number_meaning(const struct played *played);

/* A line about what a byte of test mode would do to a real chip, behind words
** that say to which; by its name one of them ends that mode (docs/SHEET.md,
** C2). */
void test_mode_print(FILE *out, const char *where, uint8_t byte);

/* A line about a refused run: its name, the number, where, and what it
** means. */
void number_print(FILE *out, const char *name, const struct played *played);

#endif
