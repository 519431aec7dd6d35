/* Events: each by itself, and one after the other. */
#include "cases.h"

#include <stdbool.h>
#include <string.h>

#include "report.h"
#include "room.h"
#include "ssd1815b.h"
#include "tally.h"

enum { LONGEST = 2000 };

static struct room state_room, memory_room, byte_room, dummy_room;

/* What the memory has to hold after the event. */
static uint8_t memory_after[LONGEST];

void events_open(void)
{
  room_open(&state_room, LONGEST);
  room_open(&memory_room, LONGEST);
  room_open(&byte_room, 1);
  room_open(&dummy_room, 1);
}

static struct answer read_call(void)
{
  static const uint8_t junk = 0xEE;
  struct answer answer;
  uint8_t *byte = room_lend(&byte_room, &junk, 1);
  uint8_t *dummy = room_lend(&dummy_room, &junk, 1);
  answer.number = ssd1815b_read(state_room.lent, state_room.length,
                                memory_room.lent, memory_room.length, byte,
                                dummy);
  answer.byte = *byte;
  answer.dummy = *dummy;
  same_guards(THE_BYTE, &byte_room);
  same_guards(THE_DUMMY, &dummy_room);
  tally_add(CALL_READ, answer.number);
  return answer;
}

static struct answer call(struct event event)
{
  uint8_t *state = state_room.lent;
  size_t state_len = state_room.length;
  uint8_t *memory = memory_room.lent;
  size_t memory_len = memory_room.length;
  struct answer answer = { 0, 0, 0 };
  switch (event.kind) {
  case EVENT_COMMAND:
    answer.number = ssd1815b_command(state, state_len, memory, memory_len,
                                     event.byte);
    tally_add(CALL_COMMAND, answer.number);
    break;
  case EVENT_WRITE:
    answer.number = ssd1815b_write(state, state_len, memory, memory_len,
                                   event.byte);
    tally_add(CALL_WRITE, answer.number);
    break;
  case EVENT_READ:
    answer = read_call();
    break;
  default:
    answer.number = ssd1815b_reset(state, state_len, memory, memory_len);
    tally_add(CALL_RESET, answer.number);
    break;
  }
  return answer;
}

/* One event on what is lent; whether all is as expected. */
static bool compare_event(struct event event, struct answer expected,
                          struct bytes state_after, struct change change)
{
  if (change.flag == 1 && change.index < memory_room.length) {
    memory_after[change.index] = change.value;
  }
  struct answer found = call(event);
  bool same = same_number(THE_NUMBER, expected.number, found.number);
  same &= same_number(THE_BYTE, expected.byte, found.byte);
  same &= same_number(THE_DUMMY, expected.dummy, found.dummy);
  same &= same_bytes(THE_STATE, state_after.at, state_room.lent,
                     state_after.length);
  same &= same_bytes(THE_MEMORY, memory_after, memory_room.lent,
                     memory_room.length);
  same &= same_guards(THE_STATE, &state_room);
  same &= same_guards(THE_MEMORY, &memory_room);
  return same;
}

static void lend(struct bytes state, struct bytes memory)
{
  room_lend(&state_room, state.at, state.length);
  room_lend(&memory_room, memory.at, memory.length);
  memcpy(memory_after, memory.at, memory.length);
}

void compare_single(struct body *body)
{
  struct event event = take_event(body);
  struct bytes state = take_lent(body);
  struct bytes memory = take_lent(body);
  struct answer answer = take_answer(body);
  struct bytes state_after = take_bytes(body, state.length);
  struct change change = take_change(body);
  take_nothing_more(body);

  report_event(0, event);
  lend(state, memory);
  compare_event(event, answer, state_after, change);
}

void compare_sequence(struct body *body)
{
  struct bytes state = take_lent(body);
  struct bytes memory = take_lent(body);
  uint32_t count = take_u32(body);

  lend(state, memory);
  bool same = true;
  for (uint32_t i = 0; i < count; i++) {
    struct event event = take_event(body);
    struct answer answer = take_answer(body);
    struct bytes state_after = take_bytes(body, state.length);
    struct change change = take_change(body);
    if (same) {
      report_event(i, event);
      same = compare_event(event, answer, state_after, change);
    }
  }
  struct bytes last = take_bytes(body, memory.length);
  take_nothing_more(body);
  if (same) {
    report_call("the memory after all events");
    same_bytes(THE_MEMORY, last.at, memory_room.lent, last.length);
  }
}
