/*
** Listings: the start that the case names, a run, the frame and its text, one
** call after the other, of one chip and of two.  The tool's own function
** (tool/listing.h) is asked for the same text; a trace that is too long to be
** listed is for it alone to answer.
*/
#include "cases.h"

#include <stdbool.h>
#include <string.h>

#include "chips.h"
#include "listing.h"
#include "report.h"
#include "room.h"
#include "ssd1815b.h"
#include "tally.h"

/* A listing call: its frame, a text that is enough for every listing, and the
** tool's function for the whole. */
struct form {
  const char *name;
  uint8_t (*list)(uint8_t, size_t, const uint8_t *, size_t, uint8_t *, size_t,
                  size_t *);
  size_t frame_size;
  size_t text_size;
  enum thing frame;
  enum call call[2]; /* by the start */
  enum listing (*by_tool)(struct played *, enum hung, const uint8_t *, size_t,
                          uint8_t *, size_t *);
};

/* The listing of one chip's frame. */
static const struct form narrow = {
  "list", ssd1815b_list, SSD1815B_FRAME_SIZE, SSD1815B_TEXT_SIZE, THE_FRAME,
  { [START_UPSIDE_DOWN] = CALL_LIST, [START_UPRIGHT] = CALL_LIST_UPRIGHT },
  listing_of
};

/* The listing of a wide frame. */
static const struct form wide = {
  "wide_list", ssd1815b_wide_list, SSD1815B_WIDE_FRAME_SIZE,
  SSD1815B_WIDE_TEXT_SIZE, THE_WIDE_FRAME,
  { [START_UPSIDE_DOWN] = CALL_WIDE_LIST,
    [START_UPRIGHT] = CALL_WIDE_LIST_UPRIGHT },
  wide_listing_of
};

/* A case. */
struct listing_case {
  enum start start;
  struct bytes trace;
  struct bytes text;
};

/* Where a run stopped. */
struct stop {
  uint8_t number;
  size_t offset;
};

static struct room state_room, memory_room, trace_room, frame_room, text_room,
                   length_room;

/* What a room holds before the call that fills it. */
static uint8_t blank[SSD1815B_WIDE_TEXT_SIZE];

void listings_open(void)
{
  room_open(&state_room, SSD1815B_STATE_SIZE);
  room_open(&memory_room, SSD1815B_MEMORY_SIZE);
  room_open(&trace_room, LISTING_LONGEST_TRACE);
  room_open(&frame_room, SSD1815B_WIDE_FRAME_SIZE);
  room_open(&text_room, SSD1815B_WIDE_TEXT_SIZE);
  room_open(&length_room, sizeof(size_t));
  memset(blank, '?', sizeof blank);
}

/* Takes a case. */
static struct listing_case take_listing(struct body *body)
{
  struct listing_case listing;
  listing.start = take_start(body);
  uint32_t trace_length = take_u32(body);
  listing.trace = take_bytes(body, trace_length);
  uint32_t text_length = take_u32(body);
  listing.text = take_bytes(body, text_length);
  take_nothing_more(body);
  return listing;
}

/* Lists the lent frame, and compares what that answers and leaves; whether the
** text is as expected. */
static bool compare_text(const struct form *form, enum start start,
                         struct stop stop, struct bytes text)
{
  uint8_t *frame = frame_room.lent;
  uint8_t *listed = room_lend(&text_room, blank, form->text_size);
  size_t *length = (void *)room_lend(&length_room, blank, sizeof(size_t));
  static uint8_t drawn[SSD1815B_WIDE_FRAME_SIZE];
  memcpy(drawn, frame, form->frame_size);

  report_call(form->name);
  uint8_t found = form->list(stop.number, stop.offset, frame, form->frame_size,
                             listed, form->text_size, length);
  tally_add(form->call[start], found);
  same_number(THE_NUMBER, SSD1815B_TAKEN, found);
  bool same = same_number(THE_LENGTH, text.length, *length);
  if (same) {
    same = same_bytes(THE_TEXT, text.at, listed, text.length);
    same_bytes(AFTER_THE_TEXT, blank + text.length,
               listed + text.length, form->text_size - text.length);
  }
  same_bytes(form->frame, drawn, frame, form->frame_size);
  same_guards(THE_TRACE, &trace_room);
  same_guards(form->frame, &frame_room);
  same_guards(THE_TEXT, &text_room);
  same_guards(THE_LENGTH, &length_room);
  return same;
}

/* Starts one chip as the case says. */
static void start_chip_as(enum start start, const struct room *state,
                          const struct room *memory)
{
  same_number(THE_NUMBER, SSD1815B_TAKEN,
              start_as(start, state->lent, state->length, memory->lent,
                       memory->length));
}

/* ---- one chip ---- */

/* Makes the calls of the listing program; whether the text is as expected. */
static bool compare_calls(const struct listing_case *listing)
{
  uint8_t *state = room_lend(&state_room, blank, SSD1815B_STATE_SIZE);
  uint8_t *memory = room_lend(&memory_room, blank, SSD1815B_MEMORY_SIZE);
  uint8_t *frame = room_lend(&frame_room, blank, SSD1815B_FRAME_SIZE);
  room_lend(&trace_room, listing->trace.at, listing->trace.length);
  start_chip_as(listing->start, &state_room, &memory_room);

  report_call("run");
  struct stop stop;
  size_t count;
  stop.number = ssd1815b_run(state, SSD1815B_STATE_SIZE, memory,
                             SSD1815B_MEMORY_SIZE, trace_room.lent,
                             trace_room.length, &stop.offset, &count);
  report_call("draw");
  same_number(THE_NUMBER, SSD1815B_TAKEN,
              ssd1815b_draw(state, SSD1815B_STATE_SIZE, memory,
                            SSD1815B_MEMORY_SIZE, frame, SSD1815B_FRAME_SIZE));
  bool same = compare_text(&narrow, listing->start, stop, listing->text);
  same_guards(THE_STATE, &state_room);
  same_guards(THE_MEMORY, &memory_room);
  return same;
}

/* ---- two chips ---- */

/* Lends two chips that hold nothing sensible, and starts both as the case
** says. */
static void start_both_as(enum start start)
{
  struct bytes state = { blank, SSD1815B_STATE_SIZE };
  struct bytes memory = { blank, SSD1815B_MEMORY_SIZE };
  lend_chips(&(struct chips){ { state, memory, state, memory } });
  start_chip_as(start, &chip_rooms[LEFT_STATE], &chip_rooms[LEFT_MEMORY]);
  start_chip_as(start, &chip_rooms[RIGHT_STATE], &chip_rooms[RIGHT_MEMORY]);
}

/* Makes the calls of a program that lists a wide trace; whether the text is as
** expected. */
static bool compare_wide_calls(const struct listing_case *listing)
{
  uint8_t *frame = room_lend(&frame_room, blank, SSD1815B_WIDE_FRAME_SIZE);
  room_lend(&trace_room, listing->trace.at, listing->trace.length);
  start_both_as(listing->start);

  report_call("wide_run");
  struct stop stop;
  size_t count;
  stop.number = ssd1815b_wide_run(LENT_CHIPS, trace_room.lent,
                                  trace_room.length, &stop.offset, &count);
  report_call("wide_draw");
  same_number(THE_NUMBER, SSD1815B_TAKEN,
              ssd1815b_wide_draw(LENT_CHIPS, frame, SSD1815B_WIDE_FRAME_SIZE));
  bool same = compare_text(&wide, listing->start, stop, listing->text);
  same_guards_of_chips();
  return same;
}

/* ---- the tool ---- */

/* Asks the tool for the same listing. */
static void compare_tool(const struct form *form,
                         const struct listing_case *listing)
{
  static struct played played;
  static uint8_t listed[SSD1815B_WIDE_TEXT_SIZE];
  size_t length;
  report_call("the tool's listing");
  form->by_tool(&played,
                listing->start == START_UPRIGHT ? HUNG_UPRIGHT
                                                : HUNG_UPSIDE_DOWN,
                listing->trace.at, listing->trace.length, listed, &length);
  if (same_number(THE_LENGTH, listing->text.length, length)) {
    same_bytes(THE_TEXT, listing->text.at, listed, length);
  }
}

void compare_listing(struct body *body)
{
  struct listing_case listing = take_listing(body);
  if (listing.trace.length > LISTING_LONGEST_TRACE
      || compare_calls(&listing)) {
    compare_tool(&narrow, &listing);
  }
}

void compare_wide_listing(struct body *body)
{
  struct listing_case listing = take_listing(body);
  if (listing.trace.length > LISTING_LONGEST_TRACE
      || compare_wide_calls(&listing)) {
    compare_tool(&wide, &listing);
  }
}
