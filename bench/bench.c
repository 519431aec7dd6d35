/*
** bench: the library beside plain C and the limit, and below each pair that is
** compared tuned C.  See usage below.
*/
#define _POSIX_C_SOURCE 200809L /* clock_gettime */
#include <stdbool.h>
#include <stdio.h>
#include <stdlib.h>
#include <string.h>
#include <time.h>

#include "model.h"
#include "plain.h"
#include "tuned.h"
#include "workloads.h"

static const char usage[] =
  "usage: bench                           time, the library beside plain C\n"
  "       bench names                     the workloads: units, unit, name\n"
  "       bench repeat NUMBER MODEL TIMES\n"
  "                                       does a workload, measures nothing;\n"
  "                                       MODEL is library, plain or, where\n"
  "                                       two are compared, tuned\n";

static const struct model models[] = {
  { "library", ssd1815b_start, ssd1815b_start_upright, ssd1815b_command,
    ssd1815b_write, ssd1815b_read, ssd1815b_reset, ssd1815b_run, ssd1815b_draw,
    ssd1815b_list,
    ssd1815b_compare_frames, ssd1815b_compare_memories, ssd1815b_wide_command,
    ssd1815b_wide_write, ssd1815b_wide_read, ssd1815b_wide_run,
    ssd1815b_wide_draw, ssd1815b_wide_page, ssd1815b_wide_list },
  { "plain", plain_start, plain_start_upright, plain_command, plain_write,
    plain_read, plain_reset, plain_run, plain_draw, plain_list,
    plain_compare_frames, plain_compare_memories, plain_wide_command,
    plain_wide_write, plain_wide_read, plain_wide_run, plain_wide_draw,
    plain_wide_page, plain_wide_list },
  { .name = "tuned", .compare_frames = tuned_compare_frames,
    .compare_memories = tuned_compare_memories },
};

enum { LIBRARY, PLAIN, TUNED, MODELS };
enum { REPETITIONS = 25 };

static double seconds_between(struct timespec from, struct timespec to)
{
  return (double)(to.tv_sec - from.tv_sec)
         + (double)(to.tv_nsec - from.tv_nsec) / 1e9;
}

/* How long a model takes for something, done so many times. */
static double seconds_for(void (*once)(const struct model *),
                          const struct model *model, size_t times)
{
  struct timespec from;
  struct timespec to;
  clock_gettime(CLOCK_MONOTONIC, &from);
  for (size_t i = 0; i < times; i++) {
    once(model);
  }
  clock_gettime(CLOCK_MONOTONIC, &to);
  return seconds_between(from, to);
}

/* The same for the workload's limit. */
static double seconds_of_limit(const struct workload *workload, size_t times)
{
  struct timespec from;
  struct timespec to;
  clock_gettime(CLOCK_MONOTONIC, &from);
  for (size_t i = 0; i < times; i++) {
    workload->limit();
  }
  clock_gettime(CLOCK_MONOTONIC, &to);
  return seconds_between(from, to);
}

/* How many of the models have what a workload calls: tuned C only compares. */
static int models_for(const struct workload *workload)
{
  return workload->compares ? MODELS : TUNED;
}

/* Ends the bench unless the library and something else left the same. */
static void must_be_same(const struct workload *workload, const char *what,
                         uint64_t expected)
{
  if (workload_left() != expected) {
    fprintf(stderr, "bench: %s: library and %s differ\n", workload->name, what);
    exit(1);
  }
}

/* All models must leave the same from the same, and so must the limit where it
** leaves anything. */
static void same_result(const struct workload *workload)
{
  workload->prepare();
  workload_do(workload, &models[LIBRARY], 2);
  uint64_t expected = workload_left();
  for (int i = PLAIN; i < models_for(workload); i++) {
    workload->prepare();
    workload_do(workload, &models[i], 2);
    must_be_same(workload, models[i].name, expected);
  }
  if (workload->limit_leaves_same) {
    workload->prepare();
    workload->limit();
    must_be_same(workload, workload->limit_what, expected);
  }
}

/* How often a workload is done for a measurement of some milliseconds. */
static size_t times_for(const struct workload *workload)
{
  size_t times = 1;
  while (seconds_for(workload->once, &models[PLAIN], times) < 0.004) {
    times *= 2;
  }
  return times;
}

static void keep_best(double *best, double seconds)
{
  if (seconds < *best) {
    *best = seconds;
  }
}

/* The line below a row: library and plain C as so many times tuned C, which
** takes so many nanoseconds. */
static void print_tuned(const double *best, double nanoseconds)
{
  printf("%-28s %10.2f %10.2f  times tuned C, %.2f ns\n", "",
         best[LIBRARY] / best[TUNED], best[PLAIN] / best[TUNED], nanoseconds);
}

/* The line below a row: each model as so many times what it takes itself for
** the narrow calls that the workload is held beside. */
static void print_beside(const double *best, const double *beside,
                         const char *what)
{
  printf("%-28s %10.2f %10.2f  times %s\n", "", best[LIBRARY] / beside[LIBRARY],
         best[PLAIN] / beside[PLAIN], what);
}

/* The best time of each model for a workload, for what it is held beside, and
** of the limit, all in turn. */
struct times {
  double best[MODELS];
  double beside[MODELS];
  double limit;
};

static struct times times_of(const struct workload *workload, size_t times)
{
  struct times found = { { 1e9, 1e9, 1e9 }, { 1e9, 1e9, 1e9 }, 1e9 };
  for (int repetition = 0; repetition < REPETITIONS; repetition++) {
    for (int i = 0; i < models_for(workload); i++) {
      keep_best(&found.best[i], seconds_for(workload->once, &models[i], times));
      if (workload->beside != NULL) {
        keep_best(&found.beside[i],
                  seconds_for(workload->beside, &models[i], times));
      }
    }
    keep_best(&found.limit, seconds_of_limit(workload, times));
  }
  return found;
}

/* A time of a row; with three decimals where it is below a nanosecond. */
static void print_time(double nanoseconds)
{
  printf(" %10.*f", nanoseconds < 1 ? 3 : 2, nanoseconds);
}

static void measure(const struct workload *workload)
{
  same_result(workload);
  workload->prepare();
  size_t times = times_for(workload);
  struct times found = times_of(workload, times);
  const double *best = found.best;
  double units = (double)times * (double)workload->units();
  printf("%-28s", workload->name);
  print_time(best[LIBRARY] / units * 1e9);
  print_time(best[PLAIN] / units * 1e9);
  print_time(found.limit / units * 1e9);
  printf("  ns per %-6s %6.2f %6.2f %6.2f  %s\n", workload->unit,
         best[LIBRARY] / best[PLAIN], best[LIBRARY] / found.limit,
         best[PLAIN] / found.limit, workload->limit_what);
  if (workload->compares) {
    print_tuned(best, best[TUNED] / units * 1e9);
  }
  if (workload->beside != NULL) {
    print_beside(best, found.beside, workload->beside_what);
  }
}

static void measure_all(void)
{
  printf("best of %d, in turn\n", REPETITIONS);
  printf("%-28s %10s %10s %10s  %-13s %6s %6s %6s\n", "", "library", "plain C",
         "limit", "", "lib/C", "lib/l", "C/l");
  for (size_t i = 0; i < workload_count; i++) {
    measure(&workloads[i]);
  }
}

static void print_names(void)
{
  for (size_t i = 0; i < workload_count; i++) {
    workloads[i].prepare();
    printf("%zu %s %s\n", workloads[i].units(), workloads[i].unit,
           workloads[i].name);
  }
}

static bool repeat_one(const char *number, const char *model, const char *times)
{
  size_t chosen = (size_t)strtoul(number, NULL, 10);
  if (chosen >= workload_count) {
    return false;
  }
  for (int i = 0; i < models_for(&workloads[chosen]); i++) {
    if (strcmp(model, models[i].name) == 0) {
      workloads[chosen].prepare();
      workload_do(&workloads[chosen], &models[i],
                  (size_t)strtoul(times, NULL, 10));
      return true;
    }
  }
  return false;
}

int main(int argc, char **argv)
{
  if (argc == 1) {
    measure_all();
  } else if (argc == 2 && strcmp(argv[1], "names") == 0) {
    print_names();
  } else if (argc != 5 || strcmp(argv[1], "repeat") != 0
             || !repeat_one(argv[2], argv[3], argv[4])) {
    fputs(usage, stderr);
    return 2;
  }
  return 0;
}
