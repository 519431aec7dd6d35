/* Drawings, of one chip and of two. */
#include "cases.h"

#include <string.h>

#include "chips.h"
#include "report.h"
#include "room.h"
#include "ssd1815b.h"
#include "tally.h"

enum { LONGEST_FRAME = 20000 };

static struct room state_room, memory_room, frame_room;

/* What the frame has to hold after the call. */
static uint8_t frame_after[LONGEST_FRAME];

void draws_open(void)
{
  room_open(&state_room, 2000);
  room_open(&memory_room, 2000);
  room_open(&frame_room, LONGEST_FRAME);
}

/* Takes what a case says of the frame, of which so many bytes are drawn, and
** lends one; the number. */
static uint8_t take_frame(struct body *body, size_t size)
{
  size_t length = take_u16(body);
  uint8_t fill = take_u8(body);
  uint8_t number = take_u8(body);
  if (length > LONGEST_FRAME) {
    malformed("a frame is too long");
  }
  for (size_t i = 0; i < length; i++) {
    frame_after[i] = (uint8_t)(2 + (fill + i) % 254);
  }
  room_lend(&frame_room, frame_after, length);
  if (number == SSD1815B_TAKEN) {
    struct bytes drawn = take_bytes(body, size);
    memcpy(frame_after, drawn.at, drawn.length);
  }
  take_nothing_more(body);
  return number;
}

/* Compares the frame that a call left. */
static void same_frame(enum thing thing)
{
  same_bytes(thing, frame_after, frame_room.lent, frame_room.length);
  same_guards(thing, &frame_room);
}

void compare_draw(struct body *body)
{
  struct bytes state = take_lent(body);
  struct bytes memory = take_lent(body);
  uint8_t number = take_frame(body, SSD1815B_FRAME_SIZE);
  room_lend(&state_room, state.at, state.length);
  room_lend(&memory_room, memory.at, memory.length);

  report_call("draw");
  uint8_t found = ssd1815b_draw(state_room.lent, state_room.length,
                                memory_room.lent, memory_room.length,
                                frame_room.lent, frame_room.length);
  tally_add(CALL_DRAW, found);
  same_number(THE_NUMBER, number, found);
  same_frame(THE_FRAME);
  same_bytes(THE_STATE, state.at, state_room.lent, state.length);
  same_bytes(THE_MEMORY, memory.at, memory_room.lent, memory.length);
  same_guards(THE_STATE, &state_room);
  same_guards(THE_MEMORY, &memory_room);
}

void compare_wide_draw(struct body *body)
{
  struct chips chips = take_chips(body);
  uint8_t number = take_frame(body, SSD1815B_WIDE_FRAME_SIZE);
  lend_chips(&chips);

  report_call("wide_draw");
  uint8_t found = ssd1815b_wide_draw(LENT_CHIPS, frame_room.lent,
                                     frame_room.length);
  tally_add(CALL_WIDE_DRAW, found);
  same_number(THE_NUMBER, number, found);
  same_frame(THE_WIDE_FRAME);
  same_chips(&chips);
}
