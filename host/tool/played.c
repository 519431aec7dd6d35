#include "played.h"

#include <string.h>

#include "kinds.h"

/* So many whole records on from an offset at which *done are done: the offset
** after them, or after all that there are.  *done counts them. */
static size_t walk(const uint8_t *trace, size_t trace_len, size_t at,
                   size_t records, size_t *done)
{
  while (*done < records) {
    size_t kind;
    size_t next;
    ssd1815b_record(trace, trace_len, at, &kind, &next);
    if (next == at) {
      break;
    }
    at = next;
    ++*done;
  }
  return at;
}

size_t records_end(const uint8_t *trace, size_t trace_len, size_t records,
                   size_t *found)
{
  *found = 0;
  return walk(trace, trace_len, 0, records, found);
}

/* ---- the start ---- */

void start_chip(enum hung hung, uint8_t *state, uint8_t *memory)
{
  /* The sizes are right, so neither refuses. */
  if (hung == HUNG_UPRIGHT) {
    ssd1815b_start_upright(state, SSD1815B_STATE_SIZE, memory,
                           SSD1815B_MEMORY_SIZE);
  } else {
    ssd1815b_start(state, SSD1815B_STATE_SIZE, memory, SSD1815B_MEMORY_SIZE);
  }
}

/* Starts one chip, or the two of a wide terminal. */
static void begin(struct played *played, enum hung hung, bool wide)
{
  *played = (struct played){ .hung = hung, .wide = wide,
                             .selection = first_selection(wide) };
  for (size_t side = 0; side < sides_of(wide); side++) {
    start_chip(hung, played->chips[side].state, played->chips[side].memory);
  }
}

void play_begin(struct played *played, enum hung hung)
{
  begin(played, hung, false);
}

void play_begin_wide(struct played *played, enum hung hung)
{
  begin(played, hung, true);
}

/* ---- the run ---- */

/* One run of some records, with *offset and *count as the run has them. */
static uint8_t run(struct played *played, const uint8_t *trace,
                   size_t trace_len, size_t *offset, size_t *count)
{
  struct chip *left = &played->chips[SIDE_LEFT];
  struct chip *right = &played->chips[SIDE_RIGHT];
  if (!played->wide) {
    return ssd1815b_run(left->state, sizeof left->state, left->memory,
                        sizeof left->memory, trace, trace_len, offset, count);
  }
  return ssd1815b_wide_run(left->state, sizeof left->state, left->memory,
                           sizeof left->memory, right->state,
                           sizeof right->state, right->memory,
                           sizeof right->memory, trace, trace_len, offset,
                           count);
}

/* Runs on to an offset, from where both chips are selected, there is one alone,
** or a select record stands. */
static void run_to(struct played *played, size_t end)
{
  size_t first = played->offset;
  size_t offset;
  size_t count;
  played->number = run(played, played->trace + first, end - first, &offset,
                       &count);
  played->offset += offset;
  played->count += count;
  /* Where that leaves the selection the records say, as no call does. */
  size_t kind;
  size_t next;
  while (played->wide
         && ssd1815b_record(played->trace, played->offset, first, &kind, &next)
              == SSD1815B_TAKEN && next != first) {
    if (kind == KIND_SELECT) {
      played->selection = played->trace[first + HEADER_SIZE];
    }
    first = next;
  }
}

/* Runs on up to the next select record, or to an offset, with the selection
** that the part before ended with.  A run begins with both chips selected, so
** each record is run with a select record before it. */
static void run_selected(struct played *played, size_t end)
{
  enum { SELECT_SIZE = HEADER_SIZE + 1 };
  static uint8_t bytes[SELECT_SIZE + HEADER_SIZE + LONGEST_PAYLOAD] = {
    1, 0, KIND_SELECT, 0
  };
  bytes[HEADER_SIZE] = played->selection;
  while (played->number == SSD1815B_TAKEN && played->offset < end) {
    size_t first = played->offset;
    size_t kind;
    size_t next;
    size_t offset;
    size_t count;
    ssd1815b_record(played->trace, end, first, &kind, &next);
    if (kind == KIND_SELECT) {
      break;
    }
    size_t length = (next == first ? end : next) - first;
    memcpy(bytes + SELECT_SIZE, played->trace + first, length);
    played->number = run(played, bytes, SELECT_SIZE + length, &offset, &count);
    played->offset += offset - SELECT_SIZE;
    played->count += count - 1;
  }
}

/* Only whole records are run until the trace has ended: a run of whole records
** and then of the rest, with the same selection, answers and leaves what one
** run of both does. */
void play_on(struct played *played, const uint8_t *trace, size_t trace_len,
             bool ended, size_t records)
{
  size_t done = played->count;
  size_t end = walk(trace, trace_len, played->offset, records, &done);
  if (ended && done < records) {
    end = trace_len;
  }
  played->number = SSD1815B_TAKEN;
  played->trace = trace;
  played->trace_len = done < records ? trace_len : end;
  if (played->selection != first_selection(played->wide)) {
    run_selected(played, end);
  }
  if (played->number == SSD1815B_TAKEN) {
    run_to(played, end);
  }
}

/* ---- what it left ---- */

void play_end(struct played *played)
{
  const struct chip *left = &played->chips[SIDE_LEFT];
  const struct chip *right = &played->chips[SIDE_RIGHT];
  /* A run leaves legal images, so neither refuses. */
  if (played->wide) {
    ssd1815b_wide_draw(left->state, sizeof left->state, left->memory,
                       sizeof left->memory, right->state, sizeof right->state,
                       right->memory, sizeof right->memory, played->frame,
                       sizeof played->frame);
  } else {
    ssd1815b_draw(left->state, sizeof left->state, left->memory,
                  sizeof left->memory, played->frame, sizeof played->frame);
  }
}

enum side side_read(const struct played *played)
{
  return played->selection == SSD1815B_RIGHT ? SIDE_RIGHT : SIDE_LEFT;
}

uint8_t model_reads(const struct played *played)
{
  struct chip chip = played->chips[side_read(played)];
  uint8_t byte;
  uint8_t dummy;
  ssd1815b_read(chip.state, sizeof chip.state, chip.memory, sizeof chip.memory,
                &byte, &dummy);
  return byte;
}
