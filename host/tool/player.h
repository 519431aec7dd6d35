/*
** Plays a trace as it is read.
*/
#ifndef PLAYER_H
#define PLAYER_H

#include "input.h"
#include "options.h"
#include "played.h"

/* Reads and plays from the start that the options name until the run is
** refused, as many records as they say are done or the input has ended; says how
** far it is.  Answers whether it could read. */
bool play_input(struct played *played, struct input *input,
                const struct options *options);

/* Says on standard error if all of the trace of this name was taken and had
** fewer records than asked for. */
void tell_fewer(const struct played *played, const char *name, size_t records);

#endif
