/*
** A trace played from a start with zero memory, and what it left.
*/
#ifndef PLAYED_H
#define PLAYED_H

#include <stdbool.h>

#include "ssd1815b.h"
#include "terminal.h"

/* How the module hangs in its cabinet; each has its start. */
enum hung { HUNG_UPSIDE_DOWN, HUNG_UPRIGHT };

struct chip {
  uint8_t state[SSD1815B_STATE_SIZE];
  uint8_t memory[SSD1815B_MEMORY_SIZE];
};

struct played {
  enum hung hung;
  bool wide;          /* two chips side by side */
  const uint8_t *trace;
  size_t trace_len;   /* what there was of it, or was to be played */
  uint8_t number;     /* what the run answered */
  size_t offset;
  size_t count;
  uint8_t selection;  /* the chips that were selected there */
  union {
    struct chip chips[SIDES];
    struct {          /* the left chip's, or the only one's */
      uint8_t state[SSD1815B_STATE_SIZE];
      uint8_t memory[SSD1815B_MEMORY_SIZE];
    };
  };
  uint8_t frame[SSD1815B_WIDE_FRAME_SIZE];  /* a narrow one in its first part */
};

/* As many records as there are. */
#define ALL_RECORDS SIZE_MAX

/* Puts that start's image into state, and zeros into memory. */
void start_chip(enum hung hung, uint8_t *state, uint8_t *memory);

/* Plays a trace that is read part by part: the start, of one chip or of the two
** of a wide terminal, then what has been read so far, after each part, until
** the run is refused, so many records are done or the trace has ended; then the
** frame. */
void play_begin(struct played *played, enum hung hung);
void play_begin_wide(struct played *played, enum hung hung);
void play_on(struct played *played, const uint8_t *trace, size_t trace_len,
             bool ended, size_t records);
void play_end(struct played *played);

/* The offset after so many whole records from the beginning on, or after all
** of them where there are fewer; *found counts them. */
size_t records_end(const uint8_t *trace, size_t trace_len, size_t records,
                   size_t *found);

/* The chip that a read would be from where the run stopped. */
enum side side_read(const struct played *played);

/* What such a read answers; nothing is changed by it. */
uint8_t model_reads(const struct played *played);

#endif
