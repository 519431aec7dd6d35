/*
** Document 01's table of command bytes, for words alone: the model does not
** ask it.
*/
#ifndef CODES_H
#define CODES_H

#include <stdint.h>

/* A row of the table, or as much of it as has one name. */
struct code {
  uint8_t first;
  uint8_t last;
  const char *name;
  const char *takes; /* the n that are allowed, where not all are */
};

/* The row that has the byte, or null. */
const struct code *code_of(uint8_t byte);

/* The last row below the byte and the first above it, or null. */
const struct code *code_below(uint8_t byte);
const struct code *code_above(uint8_t byte);

#endif
