/*
** The ending of a noun of which there are so many.
*/
#ifndef PLURAL_H
#define PLURAL_H

#include <stddef.h>

/* "s", or nothing after one. */
const char *plural(size_t count);

#endif
