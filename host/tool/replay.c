#include "replay.h"

#include <stdbool.h>
#include <string.h>

#include "kinds.h"
#include "progress.h"

/* One event on the chip.  The run took it, so no call refuses. */
static void take(struct chip *chip, struct event *event, uint8_t byte)
{
  uint8_t *state = chip->state;
  uint8_t *memory = chip->memory;
  size_t state_len = sizeof chip->state;
  size_t memory_len = sizeof chip->memory;
  switch (event->kind) {
  case KIND_COMMANDS:
    ssd1815b_command(state, state_len, memory, memory_len, byte);
    break;
  case KIND_WRITTEN:
    ssd1815b_write(state, state_len, memory, memory_len, byte);
    break;
  case KIND_READ:
    ssd1815b_read(state, state_len, memory, memory_len, &event->byte,
                  &event->dummy);
    break;
  default:
    ssd1815b_reset(state, state_len, memory, memory_len);
    break;
  }
}

/* One event on each chip that is selected. */
static void replay_event(struct chip *chips, struct event *event, uint8_t byte,
                         visitor *visit, void *context)
{
  uint8_t before[SSD1815B_STATE_SIZE];
  event->before = before;
  for (event->side = 0; event->side < SIDES; event->side++) {
    struct chip *chip = &chips[event->side];
    if (is_selected(event->selection, event->side)) {
      memcpy(before, chip->state, sizeof before);
      event->after = chip->state;
      take(chip, event, byte);
      visit(event, context);
    }
  }
}

/* The events of one record up to where the run stopped. */
static void replay_record(const struct played *played, struct chip *chips,
                          struct event event, visitor *visit, void *context)
{
  bool pin = event.kind == KIND_RESET_PIN;
  size_t end = event.next < played->offset ? event.next : played->offset;
  for (event.offset = pin ? event.first : event.first + HEADER_SIZE;
       event.offset < end; event.offset += pin ? HEADER_SIZE : 1) {
    replay_event(chips, &event, played->trace[event.offset], visit, context);
  }
}

void replay(const struct played *played, visitor *visit, void *context)
{
  struct chip chips[SIDES];
  struct event event = { .selection = first_selection(played->wide) };
  for (size_t side = 0; side < sides_of(played->wide); side++) {
    start_chip(played->hung, chips[side].state, chips[side].memory);
  }
  while (event.first < played->offset) {
    ssd1815b_record(played->trace, played->trace_len, event.first, &event.kind,
                    &event.next);
    if (event.kind == KIND_SELECT) {
      event.selection = played->trace[event.first + HEADER_SIZE];
    } else {
      replay_record(played, chips, event, visit, context);
    }
    progress("looking again", event.next, played->offset);
    event.first = event.next;
    event.record++;
  }
  progress_end();
}
