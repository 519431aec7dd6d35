/*
** How far long work is, on standard error where that is a terminal.
*/
#ifndef PROGRESS_H
#define PROGRESS_H

#include <stddef.h>

/* So many bytes of so many are done; of 0 where nobody knows.  Says nothing
** of the first 4 MB, so nothing at all of short work. */
void progress(const char *work, size_t done, size_t total);

/* The work is done: the line is cleared. */
void progress_end(void);

#endif
