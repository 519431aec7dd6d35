/*
** Starting, with both images as figures of documents 01 and 02; long records of
** data, each byte of them; and the calls that the oracle's stream has no cases
** for: the record at an offset, the power state, and listing a frame on lengths
** and contents of every kind.
*/
#include <stdbool.h>
#include <stdint.h>
#include <string.h>

#include "check.h"
#include "room.h"
#include "ssd1815b.h"

_Static_assert(SSD1815B_MEMORY_SIZE == SSD1815B_PAGES * SSD1815B_COLUMNS,
               "132 bytes to a page");
_Static_assert(SSD1815B_FRAME_ROWS == SSD1815B_ROWS + 1,
               "the panel rows and the icon line");
_Static_assert(SSD1815B_ICON_ROW == SSD1815B_FRAME_ROWS - 1,
               "the icon line is the last row");
_Static_assert(SSD1815B_FRAME_SIZE == SSD1815B_FRAME_ROWS * SSD1815B_COLUMNS,
               "132 places to a row");
_Static_assert(SSD1815B_STATE_SIZE == SSD1815B_FRESH + 1,
               "fresh is the last of the image");

/* The version as text and as a number. */
static void version(void)
{
  char text[32];
  snprintf(text, sizeof text, "%d.%d.%d", SSD1815B_VERSION_NUMBER / 1000000,
           SSD1815B_VERSION_NUMBER / 1000 % 1000,
           SSD1815B_VERSION_NUMBER % 1000);
  CHECK(strcmp(text, SSD1815B_VERSION) == 0);
}

/* ---- starting ---- */

/* Document 01, "Registers": 0 unless given. */
static const uint8_t power_on[SSD1815B_STATE_SIZE] = {
  0x00, 0x00, 0x00, 0x00, 0x3F, 0x20, 0x04, 0x00, 0x00, 0x00, 0x00, 0x00,
  0x00, 0x00,                               /* column and row direction */
  0x00, 0x00, 0x00, 0x00, 0x00, 0x00, 0x00, 0x00, 0x01
};

/* Document 02, Order 3: "column direction 1 and row direction 1". */
static const uint8_t upside_down[SSD1815B_STATE_SIZE] = {
  0x00, 0x00, 0x00, 0x00, 0x3F, 0x20, 0x04, 0x00, 0x00, 0x00, 0x00, 0x00,
  0x01, 0x01,                               /* column and row direction */
  0x00, 0x00, 0x00, 0x00, 0x00, 0x00, 0x00, 0x00, 0x01
};

/* What E2 makes of it: of the two, document 01 puts the row direction to 0. */
static const uint8_t upside_down_then_E2[SSD1815B_STATE_SIZE] = {
  0x00, 0x00, 0x00, 0x00, 0x3F, 0x20, 0x04, 0x00, 0x00, 0x00, 0x00, 0x00,
  0x01, 0x00,                               /* column and row direction */
  0x00, 0x00, 0x00, 0x00, 0x00, 0x00, 0x00, 0x00, 0x01
};

/* The two start calls: the image that each gives, and what E2 makes of it. */
static const struct start {
  uint8_t (*call)(uint8_t *, size_t, uint8_t *, size_t);
  const uint8_t *image;
  const uint8_t *after_E2;
} starts[] = {
  { ssd1815b_start, upside_down, upside_down_then_E2 },
  { ssd1815b_start_upright, power_on, power_on },
};

enum { STARTS = 2, LONGEST_STATE = 40, LONGEST_MEMORY = 1300 };

static struct room state_room, memory_room;

/* A byte of no pattern; the same ones at each start of the program. */
static uint8_t random_byte(void)
{
  static uint32_t seed = 1;
  seed = seed * 1664525u + 1013904223u;
  return (uint8_t)(seed >> 24);
}

/* Starts on so much of these contents, lent twice: at the end and at the
** beginning. */
static void start_on(const struct start *start, const uint8_t *state,
                     size_t state_len, const uint8_t *memory,
                     size_t memory_len)
{
  bool enough = state_len >= 23 && memory_len >= 1188;
  uint8_t state_after[LONGEST_STATE];
  uint8_t memory_after[LONGEST_MEMORY];
  memcpy(state_after, state, state_len);
  memcpy(memory_after, memory, memory_len);
  if (enough) {
    memcpy(state_after, start->image, 23);
    memset(memory_after, 0, 1188);
  }
  for (int time = 0; time < 2; time++) {
    uint8_t *lent_state = room_lend(&state_room, state, state_len);
    uint8_t *lent_memory = room_lend(&memory_room, memory, memory_len);
    CHECK(start->call(lent_state, state_len, lent_memory, memory_len)
          == (enough ? 0 : 1));
    CHECK(memcmp(lent_state, state_after, state_len) == 0);
    CHECK(memcmp(lent_memory, memory_after, memory_len) == 0);
    CHECK(room_intact(&state_room));
    CHECK(room_intact(&memory_room));
  }
}

/* Both starts on these contents, with every length around the limits. */
static void start_lengths(const uint8_t *state, const uint8_t *memory)
{
  static const size_t memory_lengths[] = {
    0, 1, 23, 1056, 1186, 1187, 1188, 1189, LONGEST_MEMORY
  };
  for (size_t i = 0; i < STARTS; i++) {
    for (size_t state_len = 0; state_len <= LONGEST_STATE; state_len++) {
      for (size_t j = 0; j < sizeof memory_lengths / sizeof(size_t); j++) {
        start_on(&starts[i], state, state_len, memory, memory_lengths[j]);
      }
    }
  }
}

/* Starts where other things were: bytes that no image has, the smallest
** image, the other start's, its own with one byte changed, bytes of no
** pattern. */
static void starting(void)
{
  uint8_t state[LONGEST_STATE];
  uint8_t memory[LONGEST_MEMORY];
  static const uint8_t fills[] = { 0x00, 0x01, 0xEE, 0xFF };
  for (size_t i = 0; i < sizeof fills; i++) {
    memset(state, fills[i], sizeof state);
    memset(memory, fills[i], sizeof memory);
    start_lengths(state, memory);
  }
  for (size_t i = 0; i < sizeof memory; i++) {
    memory[i] = random_byte();
  }
  for (size_t i = 0; i < STARTS; i++) {
    memcpy(state, starts[i].image, 23);
    start_lengths(state, memory);
    for (size_t place = 0; place < 23; place++) {
      state[place] ^= 1;
      start_on(&starts[i], state, 23, memory, 1188);
      state[place] ^= 1;
    }
  }
  for (size_t i = 0; i < sizeof state; i++) {
    state[i] = random_byte();
  }
  start_lengths(state, memory);
}

/* Starts where no image was. */
static void start_anew(const struct start *start, uint8_t *state,
                       uint8_t *memory)
{
  memset(state, 0xEE, 23);
  memset(memory, 0xEE, 1188);
  CHECK(start->call(state, 23, memory, 1188) == 0);
}

/* After a start and a byte of memory, runs a trace of one record: it is taken,
** leaves this image, and memory as it is. */
static void start_and_run(const struct start *start, const uint8_t *trace,
                          size_t trace_len, const uint8_t *image)
{
  uint8_t state[23];
  uint8_t memory[1188];
  uint8_t memory_after[1188] = { 0x5A };
  size_t offset;
  size_t count;
  start_anew(start, state, memory);
  memory[0] = 0x5A;
  CHECK(ssd1815b_run(state, 23, memory, 1188, trace, trace_len, &offset,
                     &count) == 0);
  CHECK(offset == trace_len);
  CHECK(count == 1);
  CHECK(memcmp(state, image, 23) == 0);
  CHECK(memcmp(memory, memory_after, 1188) == 0);
}

/* "The reset pin and E2 keep the chip's own values": after either start, by
** the event's own call and in a run. */
static void starting_and_resetting(void)
{
  static const uint8_t nothing[] = { 0x00, 0x00, 0x01, 0x00 };
  static const uint8_t pin[] = { 0x00, 0x00, 0x04, 0x00 };
  static const uint8_t E2[] = { 0x01, 0x00, 0x01, 0x00, 0xE2 };
  for (size_t i = 0; i < STARTS; i++) {
    start_and_run(&starts[i], nothing, sizeof nothing, starts[i].image);
    start_and_run(&starts[i], pin, sizeof pin, power_on);
    start_and_run(&starts[i], E2, sizeof E2, starts[i].after_E2);

    uint8_t state[23];
    uint8_t memory[1188];
    start_anew(&starts[i], state, memory);
    CHECK(ssd1815b_command(state, 23, memory, 1188, 0xE2) == 0);
    CHECK(memcmp(state, starts[i].after_E2, 23) == 0);
    CHECK(ssd1815b_reset(state, 23, memory, 1188) == 0);
    CHECK(memcmp(state, power_on, 23) == 0);
    start_anew(&starts[i], state, memory);
    CHECK(ssd1815b_reset(state, 23, memory, 1188) == 0);
    CHECK(memcmp(state, power_on, 23) == 0);
  }
}

/* ---- long records of data ---- */

/* Bytes of data in one record, more than two pages have; and the column that it
** begins at. */
enum { LONG = 300, FROM = 50 };

/* A trace of one record of so many bytes. */
static uint8_t long_trace[4 + LONG];

static void put_record(uint8_t kind, const uint8_t *payload, size_t length)
{
  long_trace[0] = (uint8_t)(length % 256);
  long_trace[1] = (uint8_t)(length / 256);
  long_trace[2] = kind;
  long_trace[3] = 0;
  memcpy(long_trace + 4, payload, length);
}

/* The upright image at a page and column FROM. */
static void image_at(uint8_t *state, uint8_t page, uint8_t modify,
                     uint8_t fresh)
{
  memcpy(state, power_on, sizeof power_on);
  state[SSD1815B_PAGE] = page;
  state[SSD1815B_COLUMN] = FROM;
  state[SSD1815B_READ_MODIFY_WRITE] = modify;
  state[SSD1815B_FRESH] = fresh;
}

/* A record of reads of which that byte is not what is read, or with LONG none:
** it is refused there, and the column is that of the byte.  With fresh 1 the
** first byte is of the dummy read, and not as it is read. */
static void read_long(const uint8_t *memory, const uint8_t *recorded,
                      size_t wrong, uint8_t page, uint8_t modify, uint8_t fresh)
{
  uint8_t state[SSD1815B_STATE_SIZE];
  uint8_t after[SSD1815B_STATE_SIZE];
  uint8_t lent[SSD1815B_MEMORY_SIZE];
  size_t offset;
  size_t count;
  image_at(state, page, modify, fresh);
  image_at(after, page, modify, 0);
  if (modify == 0) {
    after[SSD1815B_COLUMN] = (uint8_t)((FROM + wrong - fresh) % 132);
  }
  memcpy(lent, memory, sizeof lent);
  put_record(3, recorded, LONG);
  if (wrong < LONG) {
    long_trace[4 + wrong] ^= 0x01;
  }
  CHECK(ssd1815b_run(state, 23, lent, 1188, long_trace, sizeof long_trace,
                     &offset, &count) == (wrong < LONG ? 10 : 0));
  CHECK(offset == 4 + wrong);
  CHECK(count == (wrong == LONG));
  CHECK(memcmp(state, after, sizeof state) == 0);
  CHECK(memcmp(lent, memory, sizeof lent) == 0);
}

/* Each byte of a record of reads in turn is the wrong one. */
static void reads_differ(uint8_t page, uint8_t modify, uint8_t fresh)
{
  uint8_t memory[SSD1815B_MEMORY_SIZE];
  uint8_t recorded[LONG];
  for (size_t i = 0; i < sizeof memory; i++) {
    memory[i] = random_byte();
  }
  for (size_t i = 0; i < LONG; i++) {
    size_t column = modify == 1 ? FROM : (FROM + i - fresh) % 132;
    recorded[i] = memory[132u * page + column] & (page == 8 ? 0x01 : 0xFF);
  }
  recorded[0] ^= fresh;
  for (size_t wrong = fresh; wrong <= LONG; wrong++) {
    read_long(memory, recorded, wrong, page, modify, fresh);
  }
}

/* A record of so many bytes written: the last that comes to a column stays. */
static void write_long(uint8_t page, size_t length)
{
  uint8_t state[SSD1815B_STATE_SIZE];
  uint8_t after[SSD1815B_STATE_SIZE];
  uint8_t memory[SSD1815B_MEMORY_SIZE];
  uint8_t written[SSD1815B_MEMORY_SIZE];
  uint8_t payload[LONG];
  size_t offset;
  size_t count;
  image_at(state, page, 0, 0);
  image_at(after, page, 0, length > 0);
  after[SSD1815B_COLUMN] = (uint8_t)((FROM + length) % 132);
  for (size_t i = 0; i < sizeof memory; i++) {
    memory[i] = random_byte();
    written[i] = memory[i];
  }
  for (size_t i = 0; i < length; i++) {
    payload[i] = random_byte();
    uint8_t kept = payload[i] & (page == 8 ? 0x01 : 0xFF);
    written[132u * page + (FROM + i) % 132] = kept;
  }
  put_record(2, payload, length);
  CHECK(ssd1815b_run(state, 23, memory, 1188, long_trace, 4 + length, &offset,
                     &count) == 0);
  CHECK(offset == 4 + length && count == 1);
  CHECK(memcmp(state, after, sizeof state) == 0);
  CHECK(memcmp(memory, written, sizeof memory) == 0);
}

static void long_records(void)
{
  for (uint8_t page = 0; page <= 8; page++) {
    for (uint8_t modify = 0; modify <= 1; modify++) {
      reads_differ(page, modify, 0);
      reads_differ(page, modify, 1);
    }
    for (size_t length = 0; length <= LONG; length++) {
      write_long(page, length);
    }
  }
}

/* ---- the record at an offset ---- */

static struct room trace_room, kind_room, next_room;

/* What an out parameter holds before the call. */
static const uint8_t junk[sizeof(size_t)] = { 9, 9, 9, 9, 9, 9, 9, 9 };

/* Asks for the record at an offset of the lent trace. */
static void record_is(size_t at, uint8_t number, size_t kind, size_t next)
{
  size_t *found_kind = (void *)room_lend(&kind_room, junk, sizeof(size_t));
  size_t *found_next = (void *)room_lend(&next_room, junk, sizeof(size_t));
  CHECK(ssd1815b_record(trace_room.lent, trace_room.length, at, found_kind,
                        found_next) == number);
  CHECK(*found_kind == kind);
  CHECK(*found_next == next);
  CHECK(room_intact(&kind_room));
  CHECK(room_intact(&next_room));
}

/* Document 01, "The trace", by addition alone. */
static void record_is_right(const uint8_t *trace, size_t length, size_t at)
{
  if (at >= length) {
    record_is(at, 0, 0, at);
  } else if (at + 4 > length) {
    record_is(at, 8, 0, at);
  } else {
    size_t next = at + 4 + trace[at] + 256u * trace[at + 1];
    if (next > length) {
      record_is(at, 8, 0, at);
    } else {
      record_is(at, 0, trace[at + 2] + 256u * trace[at + 3], next);
    }
  }
}

/* Every offset of a trace, and some far past its end. */
static void records_are_right(const uint8_t *trace, size_t length)
{
  room_lend(&trace_room, trace, length);
  for (size_t at = 0; at < length + 6; at++) {
    record_is_right(trace, length, at);
  }
  static const size_t far[] = { SIZE_MAX, SIZE_MAX - 3, SIZE_MAX / 2 + 1 };
  for (size_t i = 0; i < 3; i++) {
    record_is(far[i], 0, 0, far[i]);
  }
  CHECK(length == 0 || memcmp(trace_room.lent, trace, length) == 0);
  CHECK(room_intact(&trace_room));
}

/* Whole and cut records of every kind, kinds that no run takes too. */
static void records_by_hand(void)
{
  static const uint8_t trace[] = {
    0x01, 0x00, 0x01, 0x00, 0xAF,             /* 0: a command */
    0x00, 0x00, 0x04, 0x00,                   /* 5: the reset pin */
    0x02, 0x00, 0x02, 0x00, 0x03, 0x01,       /* 9: data written */
    0x00, 0x00, 0x34, 0x12,                   /* 15: kind 1234 (hex) */
    0x00, 0x01, 0x03, 0x00, 0x00              /* 19: cut, 1 of 256 bytes */
  };
  room_lend(&trace_room, trace, sizeof trace);
  record_is(0, 0, 1, 5);
  record_is(5, 0, 4, 9);
  record_is(9, 0, 2, 15);
  record_is(15, 0, 0x1234, 19);
  record_is(19, 8, 0, 19);
  record_is(21, 8, 0, 21);
  record_is(24, 0, 0, 24);
  record_is(25, 0, 0, 25);
  for (size_t length = 0; length <= sizeof trace; length++) {
    records_are_right(trace, length);
    records_are_right(trace, length);
  }
}

/* The longest payload, whole and one byte short. */
static void longest_record(void)
{
  static uint8_t trace[4 + 65535] = { 0xFF, 0xFF, 0x03, 0x00 };
  room_lend(&trace_room, trace, sizeof trace);
  record_is(0, 0, 3, 65539);
  room_lend(&trace_room, trace, sizeof trace - 1);
  record_is(0, 8, 0, 0);
}

static void random_records(void)
{
  static uint8_t trace[600];
  for (int round = 0; round < 200; round++) {
    size_t length = random_byte() * 2u;
    for (size_t i = 0; i < length; i++) {
      /* Many zeros, so that many lengths are short. */
      trace[i] = random_byte() % 4 == 0 ? random_byte() : random_byte() % 3;
    }
    records_are_right(trace, length);
  }
}

/* ---- the power state ---- */

static struct room image_room, power_room;

/* The power state of an image, lent twice: at the end and at the beginning. */
static void power_is(const uint8_t *image, size_t length, uint8_t number,
                     uint8_t power)
{
  for (int time = 0; time < 2; time++) {
    uint8_t *lent = room_lend(&image_room, image, length);
    uint8_t *found = room_lend(&power_room, junk, 1);
    CHECK(ssd1815b_power_state(lent, length, found) == number);
    CHECK(*found == power);
    CHECK(memcmp(lent, image, length) == 0);
    CHECK(room_intact(&image_room));
    CHECK(room_intact(&power_room));
  }
}

/* "Display off with entire on is power save: sleep with the indicator off,
** standby with it on." */
static void power_states(void)
{
  static const struct {
    uint8_t display_on, entire_on, indicator_on, power;
  } rows[] = {
    { 0, 0, 0, 0 }, { 0, 0, 1, 0 }, { 0, 1, 0, 1 }, { 0, 1, 1, 2 },
    { 1, 0, 0, 0 }, { 1, 0, 1, 0 }, { 1, 1, 0, 0 }, { 1, 1, 1, 0 },
  };
  static const size_t lengths[] = { 0, 1, 22, 23, 24, 40 };
  for (size_t i = 0; i < 8; i++) {
    uint8_t image[40];
    memset(image, 0xEE, sizeof image);
    memcpy(image, power_on, sizeof power_on);
    image[SSD1815B_DISPLAY_ON] = rows[i].display_on;
    image[SSD1815B_ENTIRE_ON] = rows[i].entire_on;
    image[SSD1815B_INDICATOR_ON] = rows[i].indicator_on;
    for (size_t j = 0; j < 6; j++) {
      bool enough = lengths[j] >= 23;
      power_is(image, lengths[j], enough ? 0 : 1, enough ? rows[i].power : 0);
    }
  }
}

/* Each register of a standby image at its largest, and above. */
static void power_states_at_limits(void)
{
  /* Document 01, "Registers"; display on stays 0, as it ends power save. */
  static const uint8_t largest[23] = {
    8, 255, 63, 63, 63, 63, 7, 7, 1, 1, 255, 3, 1, 1, 1, 1, 0, 1, 3, 0xD4, 1,
    255, 1
  };
  uint8_t standby[23];
  memcpy(standby, power_on, sizeof standby);
  standby[SSD1815B_ENTIRE_ON] = 1;
  standby[SSD1815B_INDICATOR_ON] = 1;
  standby[SSD1815B_READ_MODIFY_WRITE] = 1;
  for (int place = 0; place < 23; place++) {
    uint8_t image[23];
    memcpy(image, standby, sizeof image);
    image[place] = largest[place];
    power_is(image, 23, 0, SSD1815B_STANDBY);
    if (largest[place] < 255 && place != SSD1815B_DISPLAY_ON) {
      image[place]++;
      power_is(image, 23, 2, SSD1815B_AWAKE);
    }
  }
  standby[SSD1815B_AWAITED_CODE] = 0x82;
  power_is(standby, 23, 2, SSD1815B_AWAKE);
  power_is(standby, 22, 1, SSD1815B_AWAKE);
  standby[SSD1815B_AWAITED_CODE] = 0;
  standby[SSD1815B_DISPLAY_ON] = 2;
  power_is(standby, 23, 2, SSD1815B_AWAKE);
  standby[SSD1815B_DISPLAY_ON] = 0;
  standby[SSD1815B_READ_MODIFY_WRITE] = 0;
  standby[SSD1815B_SAVED_COLUMN] = 1;
  power_is(standby, 23, 2, SSD1815B_AWAKE);
}

/* ---- listing ---- */

enum { LONGEST_TEXT = SSD1815B_TEXT_SIZE + 100 };

static struct room frame_room, text_room, length_room;

/* What text holds before each call. */
static uint8_t blank[LONGEST_TEXT];

/* Lists, and sees that nothing but the text and the length is written. */
static uint8_t list(uint8_t number, size_t offset, const uint8_t *frame,
                    size_t frame_len, size_t text_len, size_t *length)
{
  uint8_t *lent_frame = room_lend(&frame_room, frame, frame_len);
  uint8_t *lent_text = room_lend(&text_room, blank, text_len);
  size_t *lent_length = (void *)room_lend(&length_room, blank, sizeof(size_t));
  uint8_t answer = ssd1815b_list(number, offset, lent_frame, frame_len,
                                 lent_text, text_len, lent_length);
  *length = *lent_length;
  CHECK(*length <= text_len);
  CHECK(memcmp(lent_text + *length, blank, text_len - *length) == 0);
  CHECK(memcmp(lent_frame, frame, frame_len) == 0);
  CHECK(room_intact(&frame_room));
  CHECK(room_intact(&text_room));
  CHECK(room_intact(&length_room));
  return answer;
}

static bool text_is(const char *expected, size_t length)
{
  return length == strlen(expected)
         && memcmp(text_room.lent, expected, length) == 0;
}

static void listing_lengths(void)
{
  static const uint8_t dark[SSD1815B_FRAME_SIZE + 20];
  static const size_t frame_lengths[] = { 0, 1, 8579, 8580, 8600 };
  static const char expected[] = "frame 132 65\nend\n";
  static const size_t text_lengths[] = {
    0, 1, sizeof expected - 2, sizeof expected - 1, SSD1815B_TEXT_SIZE,
    LONGEST_TEXT
  };
  for (size_t i = 0; i < 5; i++) {
    for (size_t j = 0; j < 6; j++) {
      size_t length;
      uint8_t answer = list(0, 0, dark, frame_lengths[i], text_lengths[j],
                            &length);
      if (frame_lengths[i] < 8580 || text_lengths[j] < sizeof expected - 1) {
        CHECK(answer == 1);
        CHECK(length == 0);
      } else {
        CHECK(answer == 0);
        CHECK(text_is(expected, length));
      }
    }
  }
}

static void listing_contents(void)
{
  static uint8_t frame[SSD1815B_FRAME_SIZE];
  size_t length;

  /* Runs that begin and end at the edges do not go on in the next row. */
  frame[0 * 132 + 131] = 1;
  frame[1 * 132 + 0] = 1;
  frame[1 * 132 + 2] = 1;
  frame[1 * 132 + 3] = 1;
  memset(&frame[63 * 132], 1, 132);
  frame[64 * 132 + 99] = 1;
  frame[64 * 132 + 100] = 1;
  CHECK(list(0, 77, frame, sizeof frame, SSD1815B_TEXT_SIZE, &length) == 0);
  CHECK(text_is("frame 132 65\n"
                "0 131-131\n"
                "1 0-0 2-3\n"
                "63 0-131\n"
                "64 99-100\n"
                "end\n", length));

  /* Any byte but 0 is lit. */
  memset(frame, 0, sizeof frame);
  frame[5 * 132 + 7] = 2;
  frame[5 * 132 + 8] = 1;
  frame[5 * 132 + 9] = 255;
  CHECK(list(10, 65535, frame, sizeof frame, SSD1815B_TEXT_SIZE, &length) == 0);
  CHECK(text_is("refused 10 at 65535\nframe 132 65\n5 7-9\nend\n", length));
  for (unsigned byte = 1; byte <= 255; byte++) {
    memset(frame, 0, sizeof frame);
    frame[5 * 132 + 7] = (uint8_t)byte;
    CHECK(list(0, 0, frame, sizeof frame, SSD1815B_TEXT_SIZE, &length) == 0);
    CHECK(text_is("frame 132 65\n5 7-7\nend\n", length));
  }
}

/*
** The longest listing.  A row has the longest line when every second place is
** lit: 66 runs `a-a` with a space before each, 5 of 1 digit, 45 of 2 and 16 of
** 3, so 66 * 2 + 2 * (5 + 90 + 48) = 418 bytes; its number has 1 digit in 10
** rows and 2 in 55, and a newline ends it: 65 * 419 + 10 + 110 = 27,355.  The
** first line, `frame 132 65`, has 13 bytes, the last 4; `refused 255 at ` with
** the largest offset 15 + 20 + 1.
*/
static void longest_listing(void)
{
  static uint8_t frame[SSD1815B_FRAME_SIZE];
  for (size_t i = 0; i < sizeof frame; i += 2) {
    frame[i] = 1;
  }
  size_t length;
  CHECK(list(255, SIZE_MAX, frame, sizeof frame, SSD1815B_TEXT_SIZE, &length)
        == 0);
  CHECK(length == 27355 + 13 + 4 + 36);
  static const char first[] = "refused 255 at 18446744073709551615\n"
                              "frame 132 65\n0 0-0 2-2 4-4 ";
  CHECK(memcmp(text_room.lent, first, sizeof first - 1) == 0);
}

int main(void)
{
  version();

  room_open(&state_room, LONGEST_STATE);
  room_open(&memory_room, LONGEST_MEMORY);
  starting();
  starting_and_resetting();
  long_records();

  room_open(&trace_room, 4 + 65535);
  room_open(&kind_room, sizeof(size_t));
  room_open(&next_room, sizeof(size_t));
  records_by_hand();
  longest_record();
  random_records();

  room_open(&image_room, 40);
  room_open(&power_room, 1);
  power_states();
  power_states_at_limits();

  room_open(&frame_room, SSD1815B_FRAME_SIZE + 20);
  room_open(&text_room, LONGEST_TEXT);
  room_open(&length_room, sizeof(size_t));
  memset(blank, '?', sizeof blank);
  listing_lengths();
  listing_contents();
  longest_listing();
  return checks_end("calls");
}
