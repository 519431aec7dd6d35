/*
** The tool's commands.
*/
#ifndef COMMANDS_H
#define COMMANDS_H

#include <stdio.h>

#include "input.h"
#include "options.h"
#include "played.h"

/* The tool's status; diff has the first two by names of its own. */
enum status {
  ALL_TAKEN = 0,
  REFUSED = 1,
  FAILED = 2,
  THE_SAME = ALL_TAKEN,
  DIFFERENT = REFUSED
};

/* The status that a run asks for. */
enum status status_of(const struct played *played);

/* The listing of a trace, as document 01's program prints it. */
enum status list(FILE *out, const struct options *options,
                 struct input *input);

/* The picture in a terminal, why it is dark if it is, and where the run
** stopped. */
void show(FILE *out, const struct played *played);

/* The picture as a PBM or PNG file, or says why it cannot be written. */
enum status picture(const struct options *options,
                    const struct played *played);

/* Whether a picture has a place to go to, which a terminal is not; says so if
** it has none. */
bool picture_has_place(const struct options *options);

/* The registers by name, and where the run stopped. */
void state(FILE *out, const struct played *played);

/* The display memory by page, the bytes read, and where the run stopped. */
void memory(FILE *out, const struct played *played);

/* Where the screens of two traces or listings differ, or the memories of two
** traces. */
enum status diff(FILE *out, const struct options *options);

/* A line for each of several traces. */
enum status check(FILE *out, const struct options *options);

#endif
