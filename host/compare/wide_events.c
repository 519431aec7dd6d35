/* Single events of a wide terminal, each with its selection. */
#include "cases.h"

#include <string.h>

#include "chips.h"
#include "report.h"
#include "room.h"
#include "ssd1815b.h"
#include "tally.h"

/* Lengths have two bytes in the stream. */
enum { LONGEST_MEMORY = UINT16_MAX };

static struct room byte_room, dummy_room;

void wide_events_open(void)
{
  room_open(&byte_room, 1);
  room_open(&dummy_room, 1);
}

/* The read, with its out parameters. */
static struct answer read_call(uint8_t selection)
{
  static const uint8_t junk = 0xEE;
  struct answer answer;
  uint8_t *byte = room_lend(&byte_room, &junk, 1);
  uint8_t *dummy = room_lend(&dummy_room, &junk, 1);
  answer.number = ssd1815b_wide_read(LENT_CHIPS, selection, byte, dummy);
  answer.byte = *byte;
  answer.dummy = *dummy;
  same_guards(THE_BYTE, &byte_room);
  same_guards(THE_DUMMY, &dummy_room);
  tally_add(CALL_WIDE_READ, answer.number);
  return answer;
}

/* The event's call on what is lent. */
static struct answer call(uint8_t selection, struct event event)
{
  struct answer answer = { 0, 0, 0 };
  switch (event.kind) {
  case EVENT_COMMAND:
    answer.number = ssd1815b_wide_command(LENT_CHIPS, selection, event.byte);
    tally_add(CALL_WIDE_COMMAND, answer.number);
    break;
  case EVENT_WRITE:
    answer.number = ssd1815b_wide_write(LENT_CHIPS, selection, event.byte);
    tally_add(CALL_WIDE_WRITE, answer.number);
    break;
  case EVENT_READ:
    answer = read_call(selection);
    break;
  default:
    answer.number = ssd1815b_wide_reset(LENT_CHIPS, selection);
    tally_add(CALL_WIDE_RESET, answer.number);
    break;
  }
  return answer;
}

/* Takes what a chip's state is after the event and what has changed of its
** memory, which is made in a place of its own. */
static void take_chip_after(struct body *body, struct bytes *state,
                            struct bytes *memory, uint8_t *memory_after)
{
  *state = take_bytes(body, state->length);
  struct change change = take_change(body);
  memcpy(memory_after, memory->at, memory->length);
  if (change.flag == 1 && change.index < memory->length) {
    memory_after[change.index] = change.value;
  }
  memory->at = memory_after;
}

void compare_wide_event(struct body *body)
{
  static uint8_t left_memory[LONGEST_MEMORY];
  static uint8_t right_memory[LONGEST_MEMORY];
  uint8_t selection = take_u8(body);
  struct event event = take_event(body);
  struct chips chips = take_chips(body);
  lend_chips(&chips);
  struct answer expected = take_answer(body);
  take_chip_after(body, &chips.part[LEFT_STATE], &chips.part[LEFT_MEMORY],
                  left_memory);
  take_chip_after(body, &chips.part[RIGHT_STATE], &chips.part[RIGHT_MEMORY],
                  right_memory);
  take_nothing_more(body);

  report_wide_event(selection, event);
  struct answer found = call(selection, event);
  same_number(THE_NUMBER, expected.number, found.number);
  same_number(THE_BYTE, expected.byte, found.byte);
  same_number(THE_DUMMY, expected.dummy, found.dummy);
  same_chips(&chips);
}
