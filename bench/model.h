/*
** The calls of a model, so that two can be held side by side.
*/
#ifndef MODEL_H
#define MODEL_H

#include "ssd1815b.h"

/* What every wide call is lent of two chips: all to be written, the memories to
** be read alone, or all. */
#define WRITTEN_CHIPS uint8_t *, size_t, uint8_t *, size_t, \
                      uint8_t *, size_t, uint8_t *, size_t
#define CHIPS_WITH_READ_MEMORY uint8_t *, size_t, const uint8_t *, size_t, \
                               uint8_t *, size_t, const uint8_t *, size_t
#define READ_CHIPS const uint8_t *, size_t, const uint8_t *, size_t, \
                   const uint8_t *, size_t, const uint8_t *, size_t

struct model {
  const char *name;
  uint8_t (*start)(uint8_t *, size_t, uint8_t *, size_t);
  uint8_t (*start_upright)(uint8_t *, size_t, uint8_t *, size_t);
  uint8_t (*command)(uint8_t *, size_t, const uint8_t *, size_t, uint8_t);
  uint8_t (*write)(uint8_t *, size_t, uint8_t *, size_t, uint8_t);
  uint8_t (*read)(uint8_t *, size_t, const uint8_t *, size_t, uint8_t *,
                  uint8_t *);
  uint8_t (*reset)(uint8_t *, size_t, const uint8_t *, size_t);
  uint8_t (*run)(uint8_t *, size_t, uint8_t *, size_t, const uint8_t *, size_t,
                 size_t *, size_t *);
  uint8_t (*draw)(const uint8_t *, size_t, const uint8_t *, size_t, uint8_t *,
                  size_t);
  uint8_t (*list)(uint8_t, size_t, const uint8_t *, size_t, uint8_t *, size_t,
                  size_t *);
  uint8_t (*compare_frames)(const uint8_t *, size_t, const uint8_t *, size_t,
                            uint8_t *, size_t, size_t *);
  uint8_t (*compare_memories)(const uint8_t *, size_t, const uint8_t *, size_t,
                              uint8_t *, size_t, size_t *);
  uint8_t (*wide_command)(CHIPS_WITH_READ_MEMORY, uint8_t, uint8_t);
  uint8_t (*wide_write)(WRITTEN_CHIPS, uint8_t, uint8_t);
  uint8_t (*wide_read)(CHIPS_WITH_READ_MEMORY, uint8_t, uint8_t *, uint8_t *);
  uint8_t (*wide_run)(WRITTEN_CHIPS, const uint8_t *, size_t, size_t *,
                      size_t *);
  uint8_t (*wide_draw)(READ_CHIPS, uint8_t *, size_t);
  uint8_t (*wide_page)(const uint8_t *, size_t, const uint8_t *, size_t,
                       uint8_t, uint8_t, size_t *, size_t *);
  uint8_t (*wide_list)(uint8_t, size_t, const uint8_t *, size_t, uint8_t *,
                       size_t, size_t *);
};

#endif
