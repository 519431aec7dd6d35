/*
** The command line.
*/
#ifndef OPTIONS_H
#define OPTIONS_H

#include <stdbool.h>
#include <stddef.h>

#include "played.h"

enum command { LIST, SHOW, PICTURE, STATE, MEMORY, DIFF, CHECK, COMMANDS };

struct options {
  enum command command; /* COMMANDS if help is asked for all of them */
  char **traces;        /* their names; "-" is standard input */
  int trace_count;      /* one, two for diff, or any number for check */
  size_t records;       /* to be played, or ALL_RECORDS */
  enum hung hung;       /* how the module hangs, and so the start */
  bool wide;            /* the terminal has two chips */
  unsigned scale;       /* each dot of a picture is scale by scale */
  bool png;             /* the picture is to be a PNG */
  const char *output;   /* the picture's file; null is standard output, and
                        ** none for diff */
  bool memory;          /* diff: the memories, not the screens */
  bool show;            /* diff: the screen, too */
  bool brief;           /* diff: one line */
  bool refused;         /* diff: a refused run counts as it stands */
};

/* What a command line asks for. */
enum wish { WISH_COMMAND, WISH_HELP, WISH_VERSION, WISH_NONE };

/* Reads a command line.  WISH_NONE if it is wrong: standard error says why. */
enum wish options_of(int argc, char **argv, struct options *options);

/* Says on standard error what is wrong, and where to read more. */
void options_wrong(const char *why, const char *what);

#endif
