/*
** A trace that the tool plays part by part (tool/played.h) beside one run of
** the whole: number, offset, count, state and memory are the same, wherever
** the parts end; and so after so many records.  Event by event
** (tool/replay.h) it comes to the same state, by images that follow on one
** another.  All this from either start; and what the starts leave differs in
** the two directions alone.
*/
#include <stdbool.h>
#include <string.h>

#include "check.h"
#include "played.h"
#include "replay.h"

enum { LONGEST = 400 };

static uint8_t trace[LONGEST];
static size_t trace_len;

/* How often each number was answered. */
static unsigned answered[SSD1815B_LAST_NUMBER + 1];

/* A number below a limit; the same ones at each start of the program. */
static unsigned below(unsigned limit)
{
  static uint32_t seed = 7;
  seed = seed * 1664525u + 1013904223u;
  return (seed >> 8) % limit;
}

/* A record's payload of command bytes that are mostly taken, or of data. */
static void put_payload(unsigned kind, unsigned length)
{
  static const uint8_t commands[] = {
    0x00, 0x05, 0x10, 0x13, 0x17, 0xB0, 0xB3, 0xB8, 0xAF, 0xA5, 0xE0, 0xEE,
    0xE2, 0xC8, 0x47, 0xAC, 0xA4, 0xE3, 0x2F, 0xA1
  };
  for (unsigned i = 0; i < length; i++) {
    uint8_t byte = (uint8_t)(kind == 3 ? 0 : below(256));
    if (kind == 1 && below(12) > 0) {
      byte = commands[below(sizeof commands)];
    }
    trace[trace_len++] = byte;
  }
}

static void put_record(void)
{
  unsigned kind = below(40) == 0 ? below(600) : 1 + below(4);
  unsigned length = kind == 4 && below(20) > 0 ? 0 : below(12);
  trace[trace_len++] = (uint8_t)length;
  trace[trace_len++] = 0;
  trace[trace_len++] = (uint8_t)(kind % 256);
  trace[trace_len++] = (uint8_t)(kind / 256);
  put_payload(kind, length);
}

/* Some records; now and then the last one is cut. */
static void make_trace(void)
{
  trace_len = 0;
  for (unsigned records = below(20); records > 0; records--) {
    put_record();
  }
  if (trace_len > 0 && below(4) == 0) {
    trace_len -= 1 + below(3);
  }
}

/* One run of the first so many bytes. */
static struct played one_run(enum hung hung, size_t length)
{
  struct played whole = { .hung = hung, .trace = trace, .trace_len = length };
  ssd1815b_start_upright(whole.state, sizeof whole.state, whole.memory,
                         sizeof whole.memory);
  whole.state[SSD1815B_COLUMN_DIRECTION] = hung == HUNG_UPSIDE_DOWN;
  whole.state[SSD1815B_ROW_DIRECTION] = hung == HUNG_UPSIDE_DOWN;
  whole.number = ssd1815b_run(whole.state, sizeof whole.state, whole.memory,
                              sizeof whole.memory, trace, length,
                              &whole.offset, &whole.count);
  return whole;
}

/* The trace as it would be read, up to so many bytes at a time. */
static struct played in_parts(enum hung hung, unsigned largest,
                              size_t records)
{
  static struct played played;
  size_t length = 0;
  play_begin(&played, hung);
  do {
    length += 1 + below(largest);
    bool ended = length >= trace_len;
    length = ended ? trace_len : length;
    play_on(&played, trace, length, ended, records);
  } while (played.number == SSD1815B_TAKEN && length < trace_len
           && played.count < records);
  return played;
}

static void same(struct played whole, struct played parts)
{
  CHECK(parts.hung == whole.hung);
  CHECK(parts.number == whole.number);
  CHECK(parts.offset == whole.offset);
  CHECK(parts.count == whole.count);
  CHECK(memcmp(parts.state, whole.state, sizeof whole.state) == 0);
  CHECK(memcmp(parts.memory, whole.memory, sizeof whole.memory) == 0);
}

/* The first so many records are those of a shorter trace. */
static void same_after(enum hung hung, size_t records)
{
  size_t end = 0;
  size_t done = 0;
  while (done < records && end + 4 <= trace_len
         && end + 4 + trace[end] <= trace_len) {
    end += 4u + trace[end];
    done++;
  }
  struct played whole = one_run(hung, done < records ? trace_len : end);
  same(whole, in_parts(hung, 1 + below(30), records));
}

/* What a replay has shown. */
struct shown {
  uint8_t image[SSD1815B_STATE_SIZE];
  size_t until;   /* the offset after the last event */
  size_t events;
};

static void see(const struct event *event, void *context)
{
  struct shown *shown = context;
  CHECK(memcmp(event->before, shown->image, sizeof shown->image) == 0);
  CHECK(event->offset >= shown->until);
  memcpy(shown->image, event->after, sizeof shown->image);
  shown->until = event->offset + 1;
  shown->events++;
}

/* How many events the run took, by the lengths alone. */
static size_t events_taken(const struct played *played)
{
  size_t events = 0;
  size_t at = 0;
  for (size_t i = 0; i < played->count; i++) {
    events += trace[at + 2] == 4 ? 1u : trace[at];
    at += 4u + trace[at];
  }
  return played->offset > at ? events + played->offset - at - 4 : events;
}

static void same_events(struct played whole)
{
  struct shown shown = { { 0 }, 0, 0 };
  struct played none = one_run(whole.hung, 0);
  memcpy(shown.image, none.state, sizeof shown.image);
  replay(&whole, see, &shown);
  CHECK(memcmp(shown.image, whole.state, sizeof shown.image) == 0);
  CHECK(shown.events == events_taken(&whole));
}

/* The trace from one start. */
static struct played try_from(enum hung hung)
{
  struct played whole = one_run(hung, trace_len);
  same(whole, in_parts(hung, 1, ALL_RECORDS));
  same(whole, in_parts(hung, 1 + below(60), ALL_RECORDS));
  same(whole, in_parts(hung, LONGEST, ALL_RECORDS));
  same_after(hung, below(20));
  same_events(whole);
  return whole;
}

/* How often the starts left other directions, and how often the same. */
static unsigned apart;
static unsigned together;

/* What the two starts leave, but for the directions, is the same. */
static void same_but_directions(struct played upside_down,
                                struct played upright)
{
  bool differ = memcmp(upside_down.state, upright.state,
                       sizeof upright.state) != 0;
  apart += differ;
  together += !differ;
  upside_down.state[SSD1815B_COLUMN_DIRECTION] =
    upright.state[SSD1815B_COLUMN_DIRECTION];
  upside_down.state[SSD1815B_ROW_DIRECTION] =
    upright.state[SSD1815B_ROW_DIRECTION];
  upside_down.hung = HUNG_UPRIGHT;
  same(upright, upside_down);
}

int main(void)
{
  for (int round = 0; round < 3000; round++) {
    make_trace();
    struct played upright = try_from(HUNG_UPRIGHT);
    answered[upright.number]++;
    same_but_directions(try_from(HUNG_UPSIDE_DOWN), upright);
  }
  CHECK(apart > 0 && together > 0);
  for (int number = SSD1815B_OUTSIDE_TABLE; number <= SSD1815B_READ_DIFFERS;
       number++) {
    CHECK(answered[number] > 0);
  }
  CHECK(answered[SSD1815B_TAKEN] > 0);
  CHECK(answered[SSD1815B_TEST_MODE] > 0);
  return checks_end("parts");
}
