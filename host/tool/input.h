/*
** A trace from a file or from standard input, of any length, part by part.
*/
#ifndef INPUT_H
#define INPUT_H

#include <stdbool.h>
#include <stddef.h>
#include <stdint.h>
#include <stdio.h>

struct input {
  const char *name;
  FILE *file;
  size_t size;      /* of the file; 0 where nobody knows */
  uint8_t *bytes;   /* all that has been read; it moves as more is read */
  size_t length;
  size_t room;
  bool ended;       /* there is no more */
};

/* Opens a file; "-" is standard input.  Says on standard error why it cannot,
** and answers whether it could. */
bool input_open(struct input *input, const char *name);

/* Reads on, so many bytes at most; after the end nothing, as a terminal would
** begin anew.  Says why it cannot, and answers whether it could. */
bool input_more(struct input *input, size_t most);

/* Gives back what the input took, and closes the file. */
void input_close(struct input *input);

#endif
