/* Runs of traces, each one call on the whole trace, of one chip and of two. */
#include "cases.h"

#include <string.h>

#include "chips.h"
#include "report.h"
#include "room.h"
#include "ssd1815b.h"
#include "tally.h"

/* What a case says of a run besides the chips. */
struct run {
  struct bytes trace;
  uint8_t number;
  uint32_t offset;
  uint32_t count;
};

static struct room state_room, memory_room, trace_room, offset_room,
                   count_room;

void runs_open(void)
{
  room_open(&state_room, 2000);
  room_open(&memory_room, 2000);
  room_open(&trace_room, 300000);
  room_open(&offset_room, sizeof(size_t));
  room_open(&count_room, sizeof(size_t));
}

/* Takes the trace and what is answered, and lends the trace and the out
** parameters. */
static struct run take_run(struct body *body)
{
  struct run run;
  uint32_t trace_length = take_u32(body);
  run.trace = take_bytes(body, trace_length);
  run.number = take_u8(body);
  run.offset = take_u32(body);
  run.count = take_u32(body);

  uint8_t junk[sizeof(size_t)];
  memset(junk, 0xEE, sizeof junk);
  room_lend(&trace_room, run.trace.at, run.trace.length);
  room_lend(&offset_room, junk, sizeof(size_t));
  room_lend(&count_room, junk, sizeof(size_t));
  return run;
}

/* An out parameter.  A page's first byte and its last eight are aligned for a
** size_t. */
static size_t *out(const struct room *room)
{
  return (void *)room->lent;
}

/* Compares what a run answered, and sees that the trace is as it was. */
static void same_run(const struct run *run, enum call call, uint8_t found)
{
  tally_add(call, found);
  same_number(THE_NUMBER, run->number, found);
  same_number(THE_OFFSET, run->offset, *out(&offset_room));
  same_number(THE_COUNT, run->count, *out(&count_room));
  same_bytes(THE_TRACE, run->trace.at, trace_room.lent, run->trace.length);
  same_guards(THE_TRACE, &trace_room);
  same_guards(THE_OFFSET, &offset_room);
  same_guards(THE_COUNT, &count_room);
}

void compare_run(struct body *body)
{
  struct bytes state = take_lent(body);
  struct bytes memory = take_lent(body);
  struct run run = take_run(body);
  struct bytes state_after = take_bytes(body, state.length);
  struct bytes memory_after = take_bytes(body, memory.length);
  take_nothing_more(body);
  room_lend(&state_room, state.at, state.length);
  room_lend(&memory_room, memory.at, memory.length);

  report_call("run");
  uint8_t found = ssd1815b_run(state_room.lent, state_room.length,
                               memory_room.lent, memory_room.length,
                               trace_room.lent, trace_room.length,
                               out(&offset_room), out(&count_room));
  same_run(&run, CALL_RUN, found);
  same_bytes(THE_STATE, state_after.at, state_room.lent, state_after.length);
  same_bytes(THE_MEMORY, memory_after.at, memory_room.lent,
             memory_after.length);
  same_guards(THE_STATE, &state_room);
  same_guards(THE_MEMORY, &memory_room);
}

void compare_wide_run(struct body *body)
{
  struct chips chips = take_chips(body);
  struct run run = take_run(body);
  struct chips after = take_chips_after(body, &chips);
  take_nothing_more(body);
  lend_chips(&chips);

  report_call("wide_run");
  uint8_t found = ssd1815b_wide_run(LENT_CHIPS, trace_room.lent,
                                    trace_room.length, out(&offset_room),
                                    out(&count_room));
  same_run(&run, CALL_WIDE_RUN, found);
  same_chips(&after);
}
