/* Start calls, by themselves. */
#include "cases.h"

#include "report.h"
#include "room.h"
#include "ssd1815b.h"
#include "tally.h"

/* Lengths have two bytes in the stream. */
enum { LONGEST = UINT16_MAX };

static struct room state_room, memory_room;

void starts_open(void)
{
  room_open(&state_room, LONGEST);
  room_open(&memory_room, LONGEST);
}

uint8_t start_as(enum start start, uint8_t *state, size_t state_len,
                 uint8_t *memory, size_t memory_len)
{
  switch (start) {
  case START_UPRIGHT:
    report_call("start_upright");
    return ssd1815b_start_upright(state, state_len, memory, memory_len);
  default:
    report_call("start");
    return ssd1815b_start(state, state_len, memory, memory_len);
  }
}

void compare_start(struct body *body)
{
  enum start start = take_start(body);
  struct bytes state = take_lent(body);
  struct bytes memory = take_lent(body);
  uint8_t number = take_u8(body);
  struct bytes state_after = take_bytes(body, state.length);
  struct bytes memory_after = take_bytes(body, memory.length);
  take_nothing_more(body);

  room_lend(&state_room, state.at, state.length);
  room_lend(&memory_room, memory.at, memory.length);
  uint8_t found = start_as(start, state_room.lent, state_room.length,
                           memory_room.lent, memory_room.length);
  tally_add(start == START_UPRIGHT ? CALL_START_UPRIGHT : CALL_START, found);
  same_number(THE_NUMBER, number, found);
  same_bytes(THE_STATE, state_after.at, state_room.lent, state_after.length);
  same_bytes(THE_MEMORY, memory_after.at, memory_room.lent,
             memory_after.length);
  same_guards(THE_STATE, &state_room);
  same_guards(THE_MEMORY, &memory_room);
}
