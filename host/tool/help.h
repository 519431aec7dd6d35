/*
** What --help and --version print.
*/
#ifndef HELP_H
#define HELP_H

#include <stdio.h>

#include "options.h"

/* The help for a command, or for all if it is COMMANDS. */
void help_print(FILE *out, enum command command);

/* The version, the model that is linked, and the pictures that are written. */
void version_print(FILE *out);

#endif
