#define _POSIX_C_SOURCE 200809L /* isatty */
#include "progress.h"

#include <stdbool.h>
#include <stdio.h>
#include <unistd.h>

enum { MEGABYTE = 1000000, STEP = 4 * MEGABYTE };

/* Steps said of the work at hand. */
static size_t steps;

void progress(const char *work, size_t done, size_t total)
{
  if (done / STEP == steps || !isatty(STDERR_FILENO)) {
    return;
  }
  steps = done / STEP;
  fprintf(stderr, "\rssd1815b: %s, %zu MB", work, done / MEGABYTE);
  if (total != 0) {
    fprintf(stderr, " of %zu", total / MEGABYTE);
  }
  fflush(stderr);
}

void progress_end(void)
{
  if (steps != 0) {
    fputs("\r\033[K", stderr);
  }
  steps = 0;
}
