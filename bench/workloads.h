/*
** What is measured: frames in each drawing mode, events, pairs compared, and the
** same of a wide terminal; and for each the limit, memcpy, memset, memcmp or the
** SSE2 loop of the same bytes.
*/
#ifndef WORKLOADS_H
#define WORKLOADS_H

#include <stdbool.h>

#include "model.h"

struct workload {
  const char *name;
  const char *unit;                         /* what is counted */
  void (*prepare)(void);                    /* fills the buffers */
  void (*once)(const struct model *model);  /* the measured calls */
  size_t (*units)(void);                    /* how many units those are */
  bool compares;                            /* two frames or two memories */
  void (*limit)(void);                      /* what no model can be under */
  const char *limit_what;                   /* what that is */
  bool limit_leaves_same;                   /* it leaves what a model leaves */
  void (*beside)(const struct model *model); /* narrow calls to hold it beside,
                                             ** or null */
  const char *beside_what;                  /* what those are */
};

extern const struct workload workloads[];
extern const size_t workload_count;

/* Does a workload some times, from the prepared buffers. */
void workload_do(const struct workload *workload, const struct model *model,
                 size_t times);

/* A sum over all that it has left, to see that two models left the same. */
uint64_t workload_left(void);

#endif
