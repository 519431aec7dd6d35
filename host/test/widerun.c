/*
** Runs of wide traces.  What is expected was written from documents 01 and 02,
** Order 4.
*/
#include <stdbool.h>
#include <string.h>

#include "check.h"
#include "ssd1815b.h"
#include "twochips.h"

/* ---- a run, made twice: at the end and at the beginning of its rooms ---- */

/* What a run answers. */
struct answer {
  uint8_t number;
  size_t offset;
  size_t count;
};

static struct room trace_room, offset_room, count_room;

/* What an out parameter holds before the call. */
static const uint8_t junk[sizeof(size_t)] = { 9, 9, 9, 9, 9, 9, 9, 9 };

/* Whether a run on these chips is answered so and leaves these. */
static bool run_is(const struct chips *before, const uint8_t *trace,
                   size_t length, struct answer answer,
                   const struct chips *after)
{
  for (int time = 0; time < 2; time++) {
    chips_lend(before);
    room_lend(&trace_room, trace, length);
    size_t *offset = (void *)room_lend(&offset_room, junk, sizeof(size_t));
    size_t *count = (void *)room_lend(&count_room, junk, sizeof(size_t));
    uint8_t number = ssd1815b_wide_run(LENT_CHIPS, trace_room.lent, length,
                                       offset, count);
    if (number != answer.number || *offset != answer.offset
        || *count != answer.count || !chips_are(after)
        || (length > 0 && memcmp(trace_room.lent, trace, length) != 0)
        || !room_intact(&trace_room) || !room_intact(&offset_room)
        || !room_intact(&count_room)) {
      return false;
    }
  }
  return true;
}

/* The same for a trace that is written out. */
#define RUN_IS(before, trace, number, offset, count, after) \
  run_is(before, trace, sizeof trace, \
         (struct answer){ number, offset, count }, after)

/* Records, written out. */
#define COMMANDS(length) length, 0x00, 0x01, 0x00
#define DATA(length) length, 0x00, 0x02, 0x00
#define READS(length) length, 0x00, 0x03, 0x00
#define PIN 0x00, 0x00, 0x04, 0x00
#define SELECT(which) 0x01, 0x00, 0x05, 0x00, which

/* ---- which chip an event goes to ---- */

/* Both at first, then left, right, both again; each stands where the events
** that it was selected for have put it. */
static void by_selection(void)
{
  static const uint8_t trace[] = {
    COMMANDS(2), 0xAF, 0xB3,            /* both: display on, page 3 */
    SELECT(1), DATA(2), 0x11, 0x12,     /* left: bytes 396 and 397 */
    SELECT(2), COMMANDS(1), 0xA1,       /* right: columns turned */
    DATA(1), 0x21,                      /* right: byte 396 */
    SELECT(3), DATA(1), 0x31            /* left byte 398, right 397 */
  };
  struct chips before = chips_at_power_on();
  struct chips after = before;
  static const enum buffer states[] = { LEFT_STATE, RIGHT_STATE };
  for (size_t i = 0; i < 2; i++) {
    after.bytes[states[i]][SSD1815B_DISPLAY_ON] = 1;
    after.bytes[states[i]][SSD1815B_PAGE] = 3;
  }
  after.bytes[LEFT_STATE][SSD1815B_COLUMN] = 3;
  after.bytes[RIGHT_STATE][SSD1815B_COLUMN] = 2;
  after.bytes[RIGHT_STATE][SSD1815B_COLUMN_DIRECTION] = 1;
  memcpy(after.bytes[LEFT_MEMORY] + 396, "\x11\x12\x31", 3);
  memcpy(after.bytes[RIGHT_MEMORY] + 396, "\x21\x31", 2);
  CHECK(RUN_IS(&before, trace, 0, sizeof trace, 8, &after));
}

/* "Each run starts with both": what the run before it ended with is gone. */
static void each_run_starts_with_both(void)
{
  static const uint8_t to_left[] = { SELECT(1), COMMANDS(1), 0xA7 };
  static const uint8_t to_right[] = { SELECT(2), COMMANDS(1), 0xA7 };
  static const uint8_t on[] = { COMMANDS(1), 0xAF };
  struct chips before = chips_at_power_on();
  struct chips after = before;
  after.bytes[LEFT_STATE][SSD1815B_DISPLAY_ON] = 1;
  after.bytes[RIGHT_STATE][SSD1815B_DISPLAY_ON] = 1;
  struct chips left = before;
  left.bytes[LEFT_STATE][SSD1815B_REVERSE] = 1;
  struct chips right = before;
  right.bytes[RIGHT_STATE][SSD1815B_REVERSE] = 1;
  CHECK(RUN_IS(&before, to_left, 0, sizeof to_left, 2, &left));
  CHECK(RUN_IS(&before, on, 0, sizeof on, 1, &after));
  CHECK(RUN_IS(&before, to_right, 0, sizeof to_right, 2, &right));
  CHECK(RUN_IS(&before, on, 0, sizeof on, 1, &after));
}

/* "The reset pin keeps the selection", and goes to the selected chip alone. */
static void pin_keeps_the_selection(void)
{
  static const uint8_t trace[] = {
    COMMANDS(1), 0xA7, SELECT(2), PIN, COMMANDS(1), 0xAF
  };
  static const uint8_t of_both[] = { COMMANDS(1), 0xA7, PIN };
  struct chips before = chips_at_power_on();
  struct chips after = before;
  after.bytes[LEFT_STATE][SSD1815B_REVERSE] = 1;
  after.bytes[RIGHT_STATE][SSD1815B_DISPLAY_ON] = 1;
  CHECK(RUN_IS(&before, trace, 0, sizeof trace, 4, &after));
  CHECK(RUN_IS(&before, of_both, 0, sizeof of_both, 2, &before));
}

/* A select record changes nothing of either chip: not fresh, not an awaited
** code, not read-modify-write. */
static void select_changes_nothing(void)
{
  static const uint8_t trace[] = { SELECT(1), SELECT(2), SELECT(2), SELECT(3) };
  struct chips chips = chips_at_power_on();
  static const enum buffer states[] = { LEFT_STATE, RIGHT_STATE };
  for (size_t i = 0; i < 2; i++) {
    uint8_t *state = chips.bytes[states[i]];
    state[SSD1815B_COLUMN] = 9;
    state[SSD1815B_AWAITED_CODE] = 0xA8;
    state[SSD1815B_READ_MODIFY_WRITE] = 1;
    state[SSD1815B_SAVED_COLUMN] = 7;
    state[SSD1815B_FRESH] = 0;
  }
  CHECK(RUN_IS(&chips, trace, 0, sizeof trace, 4, &chips));
}

/* A select record is no event: it comes between 81 and its n, and between a
** dummy read and the read. */
static void select_is_no_event(void)
{
  static const uint8_t trace[] = {
    COMMANDS(1), 0x81, SELECT(1), COMMANDS(1), 0x07,
    READS(1), 0xFF, SELECT(1), READS(1), 0x5E, SELECT(2)
  };
  struct chips before = chips_at_power_on();
  before.bytes[LEFT_MEMORY][0] = 0x5E;
  struct chips after = before;
  after.bytes[LEFT_STATE][SSD1815B_CONTRAST] = 7;
  after.bytes[LEFT_STATE][SSD1815B_FRESH] = 0;
  after.bytes[LEFT_STATE][SSD1815B_COLUMN] = 1;
  after.bytes[RIGHT_STATE][SSD1815B_AWAITED_CODE] = 0x81;
  CHECK(RUN_IS(&before, trace, 0, sizeof trace, 7, &after));
}

/* ---- a narrow trace, played wide ---- */

/* Without reads and select records both chips do what one does, refused bytes
** and headers too. */
static void narrow_trace(void)
{
  static const uint8_t trace[] = {
    COMMANDS(5), 0xAF, 0xB8, 0x0F, 0x17, 0xA7, DATA(3), 0xFF, 0x02, 0x01,
    COMMANDS(0), DATA(0), READS(0), PIN, COMMANDS(3), 0xD3, 0x10, 0xE0,
    DATA(2), 0x5A, 0xA5, COMMANDS(2), 0xEE, 0xF7, DATA(1), 0x33
  };
  for (size_t length = 0; length <= sizeof trace; length++) {
    struct chips before = chips_at_power_on();
    struct chips after = before;
    static const enum buffer states[] = { LEFT_STATE, RIGHT_STATE };
    struct answer answer;
    for (int i = 0; i < 2; i++) {
      answer.number = ssd1815b_run(after.bytes[states[i]], 23,
                                   after.bytes[states[i] + 1], 1188, trace,
                                   length, &answer.offset, &answer.count);
    }
    CHECK(run_is(&before, trace, length, answer, &after));
  }
}

/* Kind 5 is of a wide trace alone: to a narrow run it is 9. */
static void narrow_run(void)
{
  static const uint8_t trace[] = { COMMANDS(1), 0xAF, SELECT(1) };
  struct chips chips = chips_at_power_on();
  size_t offset;
  size_t count;
  CHECK(ssd1815b_run(chips.bytes[LEFT_STATE], 23, chips.bytes[LEFT_MEMORY],
                     1188, trace, sizeof trace, &offset, &count) == 9);
  CHECK(offset == 5);
  CHECK(count == 1);
}

/* ---- refused headers ---- */

/* What a command record of AF does to both. */
static struct chips turned_on(void)
{
  struct chips chips = chips_at_power_on();
  chips.bytes[LEFT_STATE][SSD1815B_DISPLAY_ON] = 1;
  chips.bytes[RIGHT_STATE][SSD1815B_DISPLAY_ON] = 1;
  return chips;
}

/* Every payload byte of a select record after a record of five bytes. */
static void select_payloads(void)
{
  struct chips before = chips_at_power_on();
  struct chips after = turned_on();
  for (unsigned byte = 0; byte < 256; byte++) {
    const uint8_t trace[] = { COMMANDS(1), 0xAF, SELECT((uint8_t)byte) };
    if (byte >= 1 && byte <= 3) {
      CHECK(RUN_IS(&before, trace, 0, 10, 2, &after));
    } else {
      CHECK(RUN_IS(&before, trace, 13, 5, 1, &after));
    }
  }
}

/* Headers that are refused after a record of five bytes: the offset is that of
** the record's first byte, and the record before it counts. */
static void headers(void)
{
  static const struct {
    uint8_t record[8];
    size_t length;
    uint8_t number;
  } rows[] = {
    { { 0x00, 0x00, 0x05, 0x00 }, 4, 13 },                   /* no byte */
    { { 0x02, 0x00, 0x05, 0x00, 0x01, 0x01 }, 6, 13 },       /* two bytes */
    { { 0x03, 0x00, 0x05, 0x00, 0x03, 0x03, 0x03 }, 7, 13 },
    { { 0x01, 0x00, 0x05, 0x00 }, 4, 8 },                    /* cut */
    { { 0x02, 0x00, 0x05, 0x00, 0x01 }, 5, 8 },
    { { 0x01, 0x01, 0x05, 0x00, 0x01 }, 5, 8 },              /* length 257 */
    { { 0x01, 0x00, 0x05 }, 3, 8 },
    { { 0x01, 0x00, 0x00, 0x00, 0x01 }, 5, 9 },              /* kind 0 */
    { { 0x01, 0x00, 0x06, 0x00, 0x01 }, 5, 9 },              /* kind 6 */
    { { 0x01, 0x00, 0x05, 0x01, 0x01 }, 5, 9 },              /* kind 0105 */
    { { 0x01, 0x00, 0x00, 0x05, 0x01 }, 5, 9 },              /* kind 0500 */
    { { 0x01, 0x00, 0x04, 0x00, 0x01 }, 5, 9 },              /* pin, payload */
    { { 0x02, 0x00, 0x04, 0x00, 0x01 }, 5, 8 },
  };
  struct chips before = chips_at_power_on();
  struct chips after = turned_on();
  for (size_t i = 0; i < sizeof rows / sizeof rows[0]; i++) {
    uint8_t trace[5 + sizeof rows[i].record] = { COMMANDS(1), 0xAF };
    memcpy(trace + 5, rows[i].record, rows[i].length);
    CHECK(run_is(&before, trace, 5 + rows[i].length,
                 (struct answer){ rows[i].number, 5, 1 }, &after));
  }
}

/* ---- refused events ---- */

/* A read with both selected: 14 at the recorded byte, before 6 and 7, dummy or
** not; a read record without a byte is taken. */
static void reads_of_both(void)
{
  static const uint8_t empty[] = { READS(0), COMMANDS(1), 0x81, READS(0) };
  static const uint8_t one[] = { COMMANDS(1), 0xAF, READS(2), 0x00, 0x00 };
  static const uint8_t awaited[] = { COMMANDS(1), 0x81, READS(1), 0x00 };
  static const uint8_t column[] = { COMMANDS(1), 0x1F, READS(1), 0x00 };
  static const uint8_t again[] = { SELECT(1), SELECT(3), READS(1), 0x00 };
  struct chips before = chips_at_power_on();
  struct chips after = turned_on();
  CHECK(RUN_IS(&before, one, 14, 9, 1, &after));
  CHECK(RUN_IS(&before, again, 14, 14, 2, &before));
  after = before;
  after.bytes[LEFT_STATE][SSD1815B_AWAITED_CODE] = 0x81;
  after.bytes[RIGHT_STATE][SSD1815B_AWAITED_CODE] = 0x81;
  CHECK(RUN_IS(&before, empty, 0, sizeof empty, 3, &after));
  CHECK(RUN_IS(&before, awaited, 14, 9, 1, &after));
  after = before;
  after.bytes[LEFT_STATE][SSD1815B_COLUMN] = 240;
  after.bytes[RIGHT_STATE][SSD1815B_COLUMN] = 240;
  CHECK(RUN_IS(&before, column, 14, 9, 1, &after));
}

/* A read of one chip is compared with that chip's byte: 10 at the recorded
** byte, and that read has not happened. */
static void reads_of_one(void)
{
  static const uint8_t same[] = { SELECT(2), READS(3), 0x00, 0xC3, 0x3C };
  static const uint8_t other[] = { SELECT(1), READS(3), 0x00, 0xC3, 0x3C };
  struct chips before = chips_at_power_on();
  memcpy(before.bytes[LEFT_MEMORY], "\xC3\x3D", 2);
  memcpy(before.bytes[RIGHT_MEMORY], "\xC3\x3C", 2);
  struct chips after = before;
  after.bytes[RIGHT_STATE][SSD1815B_FRESH] = 0;
  after.bytes[RIGHT_STATE][SSD1815B_COLUMN] = 2;
  CHECK(RUN_IS(&before, same, 0, sizeof same, 2, &after));
  after = before;
  after.bytes[LEFT_STATE][SSD1815B_FRESH] = 0;
  after.bytes[LEFT_STATE][SSD1815B_COLUMN] = 1;
  CHECK(RUN_IS(&before, other, 10, 11, 1, &after));
}

/* A byte that the right refuses: neither takes it, the bytes before it stand in
** both, and the offset is its own. */
static void right_refuses_in_a_record(void)
{
  static const uint8_t trace[] = {
    SELECT(2), COMMANDS(2), 0x02, 0x18,        /* right: column 130 */
    COMMANDS(1), 0xE0, SELECT(3), DATA(1), 0x77,
    SELECT(2), COMMANDS(1), 0x1F,              /* right: column 243 */
    SELECT(3), COMMANDS(2), 0xA7, 0x44, DATA(2), 0x88, 0x99
  };
  struct chips before = chips_at_power_on();
  struct chips after = before;
  after.bytes[LEFT_MEMORY][0] = 0x77;
  after.bytes[LEFT_STATE][SSD1815B_COLUMN] = 1;
  after.bytes[RIGHT_MEMORY][130] = 0x77;
  after.bytes[RIGHT_STATE][SSD1815B_COLUMN] = 243;
  after.bytes[RIGHT_STATE][SSD1815B_READ_MODIFY_WRITE] = 1;
  after.bytes[RIGHT_STATE][SSD1815B_SAVED_COLUMN] = 130;
  static const enum buffer states[] = { LEFT_STATE, RIGHT_STATE };
  for (size_t i = 0; i < 2; i++) {
    after.bytes[states[i]][SSD1815B_REVERSE] = 1;
    after.bytes[states[i]][SSD1815B_START_LINE] = 4;
  }
  CHECK(RUN_IS(&before, trace, 7, sizeof trace - 2, 9, &after));
}

/* A command byte in the middle of a record that the one refuses and the other
** would take as n: to 81 the byte B9 is a contrast. */
static void refused_in_the_middle(void)
{
  static const uint8_t left_awaits[] = {
    SELECT(1), COMMANDS(1), 0x81, SELECT(3), COMMANDS(2), 0xB9, 0xAF
  };
  static const uint8_t left_takes_two[] = {
    SELECT(1), COMMANDS(1), 0x81, SELECT(3), COMMANDS(3), 0x05, 0xB9, 0xAF
  };
  struct chips before = chips_at_power_on();
  struct chips after = before;
  after.bytes[LEFT_STATE][SSD1815B_AWAITED_CODE] = 0x81;
  CHECK(RUN_IS(&before, left_awaits, 4, 19, 3, &after));
  after = before;
  after.bytes[LEFT_STATE][SSD1815B_CONTRAST] = 5;
  after.bytes[RIGHT_STATE][SSD1815B_COLUMN] = 5;
  CHECK(RUN_IS(&before, left_takes_two, 4, 20, 3, &after));
}

/* ---- what is lent ---- */

/* 1 and 2 are asked of both chips before the first header, and for an empty
** trace too; the pin and a select record at the beginning do not help. */
static void lent(void)
{
  static const uint8_t pin[] = { PIN, SELECT(1) };
  static const uint8_t cut[] = { 0x07 };
  static const struct { const uint8_t *trace; size_t length; } traces[] = {
    { pin, 0 }, { pin, sizeof pin }, { cut, sizeof cut }
  };
  for (size_t i = 0; i < 3; i++) {
    for (enum buffer buffer = 0; buffer < BUFFERS; buffer++) {
      bool state = needed(buffer) == 23;
      struct chips chips = chips_at_power_on();
      chips.bytes[buffer][state ? SSD1815B_MULTIPLEX : 0] = 64;
      struct answer answer = { 2, 0, 0 };
      CHECK(!state || run_is(&chips, traces[i].trace, traces[i].length, answer,
                             &chips));
      answer.number = 1;
      for (size_t length = 0; length < needed(buffer); length++) {
        chips.length[buffer] = length;
        CHECK(run_is(&chips, traces[i].trace, traces[i].length, answer,
                     &chips));
      }
    }
  }
}

/* Longer buffers are taken, and their bytes past the needed ones stay. */
static void longer(void)
{
  static const uint8_t trace[] = { COMMANDS(1), 0xAF };
  for (enum buffer buffer = 0; buffer < BUFFERS; buffer++) {
    struct chips before = chips_at_power_on();
    struct chips after = turned_on();
    before.length[buffer] += 100;
    after.length[buffer] += 100;
    CHECK(RUN_IS(&before, trace, 0, sizeof trace, 1, &after));
  }
}

int main(void)
{
  chips_open();
  room_open(&trace_room, 100);
  room_open(&offset_room, sizeof(size_t));
  room_open(&count_room, sizeof(size_t));
  by_selection();
  each_run_starts_with_both();
  pin_keeps_the_selection();
  select_changes_nothing();
  select_is_no_event();
  narrow_trace();
  narrow_run();
  select_payloads();
  headers();
  reads_of_both();
  reads_of_one();
  right_refuses_in_a_record();
  refused_in_the_middle();
  lent();
  longer();
  return checks_end("widerun");
}
