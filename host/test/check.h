/*
** A check that can fail: says what and where, and goes on.
*/
#ifndef CHECK_H
#define CHECK_H

#include <stdio.h>

static unsigned checks_made;
static unsigned checks_failed;

#define CHECK(holds)                                                    \
  do {                                                                  \
    checks_made++;                                                      \
    if (!(holds)) {                                                     \
      checks_failed++;                                                  \
      fprintf(stderr, "%s:%d: not so: %s\n", __FILE__, __LINE__, #holds); \
    }                                                                   \
  } while (0)

/* The program's status, with a line that says how it went. */
static int checks_end(const char *name)
{
  printf("%s: %u checks, %u failed\n", name, checks_made, checks_failed);
  return checks_made > 0 && checks_failed == 0 ? 0 : 1;
}

#endif
