/*
** The wide frame, one page and the wide listing.  What is expected was written
** from documents 01 and 02, Order 4.
*/
#include <stdbool.h>
#include <string.h>

#include "check.h"
#include "ssd1815b.h"
#include "twochips.h"

_Static_assert(SSD1815B_WIDE_COLUMNS == 2 * SSD1815B_COLUMNS, "two chips");
_Static_assert(SSD1815B_WIDE_FRAME_SIZE
               == SSD1815B_FRAME_ROWS * SSD1815B_WIDE_COLUMNS,
               "264 places to a row");

enum { LONGEST_FRAME = 17300, LONGEST_TEXT = SSD1815B_WIDE_TEXT_SIZE + 100 };

static struct room frame_room, text_room, length_room, place_room;

/* What a buffer that is written holds before the call: neither 0 nor 1. */
static uint8_t blank[LONGEST_TEXT];

/* ---- the frame ---- */

/* Draws, at the end and at the beginning of the room; whether it is answered so
** and leaves this frame in its first 17,160 bytes, or nothing where it is
** refused. */
static bool draw_is(const struct chips *chips, size_t length, uint8_t number,
                    const uint8_t *drawn)
{
  size_t written = number == 0 ? 17160 : 0;
  for (int time = 0; time < 2; time++) {
    chips_lend(chips);
    uint8_t *frame = room_lend(&frame_room, blank, length);
    if (ssd1815b_wide_draw(LENT_CHIPS, frame, length) != number
        || (written > 0 && memcmp(frame, drawn, written) != 0)
        || memcmp(frame + written, blank, length - written) != 0
        || !room_intact(&frame_room) || !chips_are(chips)) {
      return false;
    }
  }
  return true;
}

/* Both displays on, memories all dark. */
static struct chips dark_and_on(void)
{
  struct chips chips = chips_at_power_on();
  memset(chips.bytes[LEFT_MEMORY], 0, 1188);
  memset(chips.bytes[RIGHT_MEMORY], 0, 1188);
  chips.bytes[LEFT_STATE][SSD1815B_DISPLAY_ON] = 1;
  chips.bytes[RIGHT_STATE][SSD1815B_DISPLAY_ON] = 1;
  return chips;
}

/* One dot of one chip, and the one place of the wide frame where it shows. */
static void one_dot(void)
{
  static const struct {
    enum buffer state;
    size_t byte;        /* its bit 0 is lit */
    uint8_t mirrored;
    size_t place;       /* 264 * row + x */
  } rows[] = {
    { LEFT_STATE, 0, 0, 0 },
    { LEFT_STATE, 131, 0, 131 },
    { RIGHT_STATE, 0, 0, 132 },
    { RIGHT_STATE, 131, 0, 263 },
    { LEFT_STATE, 0, 1, 131 },          /* within its half */
    { RIGHT_STATE, 0, 1, 263 },
    { RIGHT_STATE, 131, 1, 132 },
    { LEFT_STATE, 132 + 5, 0, 8 * 264 + 5 },
    { RIGHT_STATE, 132 + 5, 0, 8 * 264 + 137 },
    { LEFT_STATE, 8 * 132, 0, 64 * 264 },
    { RIGHT_STATE, 8 * 132, 0, 64 * 264 + 132 },
    { RIGHT_STATE, 1187, 0, 17159 },
  };
  for (size_t i = 0; i < sizeof rows / sizeof rows[0]; i++) {
    struct chips chips = dark_and_on();
    chips.bytes[rows[i].state + 1][rows[i].byte] = 0x01;
    chips.bytes[rows[i].state][SSD1815B_COLUMN_DIRECTION] = rows[i].mirrored;
    static uint8_t frame[17160];
    memset(frame, 0, sizeof frame);
    frame[rows[i].place] = 1;
    CHECK(draw_is(&chips, 17160, 0, frame));
  }
}

/* Each length around the limit, of the frame and of the others; an image out of
** its ranges of either chip. */
static void frame_lengths(void)
{
  static const uint8_t dark[17160];
  static const size_t tried[] = {
    0, 1, 8579, 8580, 17159, 17160, 17161, LONGEST_FRAME
  };
  for (size_t i = 0; i < 8; i++) {
    uint8_t number = tried[i] < 17160 ? 1 : 0;
    struct chips chips = dark_and_on();
    CHECK(draw_is(&chips, tried[i], number, dark));
    for (enum buffer buffer = 0; buffer < BUFFERS; buffer++) {
      struct chips cut = chips;
      cut.length[buffer] = needed(buffer) - 1;
      CHECK(draw_is(&cut, tried[i], 1, dark));
      cut.length[buffer] = needed(buffer) + 1;
      CHECK(draw_is(&cut, tried[i], number, dark));
    }
    static const enum buffer states[] = { LEFT_STATE, RIGHT_STATE };
    for (size_t side = 0; side < 2; side++) {
      struct chips other = chips;
      other.bytes[states[side]][SSD1815B_SAVED_COLUMN] = 1;
      CHECK(draw_is(&other, tried[i], tried[i] < 17160 ? 1 : 2, dark));
      other.length[RIGHT_MEMORY]--;
      CHECK(draw_is(&other, tried[i], 1, dark));
    }
  }
}

/* Registers that a frame is drawn by, in the order of the image. */
struct setting {
  uint8_t start_line, offset, multiplex, mirrored, reversed, entire, turned, on;
};

/* Sets them in one chip. */
static void set(uint8_t *state, const struct setting *setting)
{
  state[SSD1815B_START_LINE] = setting->start_line;
  state[SSD1815B_OFFSET] = setting->offset;
  state[SSD1815B_MULTIPLEX] = setting->multiplex;
  state[SSD1815B_COLUMN_DIRECTION] = setting->mirrored;
  state[SSD1815B_ROW_DIRECTION] = setting->reversed;
  state[SSD1815B_ENTIRE_ON] = setting->entire;
  state[SSD1815B_REVERSE] = setting->turned;
  state[SSD1815B_DISPLAY_ON] = setting->on;
}

/* Puts a chip's own frame into its half of a wide one. */
static void put_half(uint8_t *wide, const uint8_t *state, const uint8_t *memory)
{
  static uint8_t frame[8580];
  CHECK(ssd1815b_draw(state, 23, memory, 1188, frame, sizeof frame) == 0);
  for (size_t row = 0; row < 65; row++) {
    memcpy(wide + 264 * row, frame + 132 * row, 132);
  }
}

/* Each half is its chip's own frame, whatever the other is set to. */
static void halves(void)
{
  static const struct setting settings[] = {
    { 0, 0, 63, 0, 0, 0, 0, 1 }, { 5, 3, 63, 1, 0, 0, 0, 1 },
    { 5, 3, 15, 0, 1, 0, 1, 1 }, { 9, 60, 14, 1, 1, 0, 1, 1 },
    { 0, 0, 15, 0, 0, 1, 0, 1 }, { 0, 0, 63, 0, 0, 1, 1, 1 },
    { 0, 0, 63, 0, 0, 0, 1, 0 }, { 0, 0, 63, 0, 0, 1, 0, 0 },
    { 0, 7, 15, 0, 0, 1, 0, 1 },
  };
  enum { SETTINGS = sizeof settings / sizeof settings[0] };
  for (size_t i = 0; i < SETTINGS; i++) {
    for (size_t j = 0; j < SETTINGS; j++) {
      struct chips chips = chips_at_power_on();
      set(chips.bytes[LEFT_STATE], &settings[i]);
      set(chips.bytes[RIGHT_STATE], &settings[j]);
      static uint8_t wide[17160];
      put_half(wide, chips.bytes[LEFT_STATE], chips.bytes[LEFT_MEMORY]);
      put_half(wide + 132, chips.bytes[RIGHT_STATE],
               chips.bytes[RIGHT_MEMORY]);
      CHECK(draw_is(&chips, 17160, 0, wide));
      CHECK(draw_is(&chips, LONGEST_FRAME, 0, wide));
    }
  }
}

/* ---- one page ---- */

/* Asks for a page of the lent memories; whether it is answered so. */
static bool page_is(unsigned side, unsigned page, uint8_t number, size_t place,
                    size_t length)
{
  size_t *found_place = (void *)room_lend(&place_room, blank, sizeof(size_t));
  size_t *found_length = (void *)room_lend(&length_room, blank, sizeof(size_t));
  uint8_t found = ssd1815b_wide_page(LENT(LEFT_MEMORY), LENT(RIGHT_MEMORY),
                                     (uint8_t)side, (uint8_t)page, found_place,
                                     found_length);
  return found == number && *found_place == place && *found_length == length
         && room_intact(&place_room) && room_intact(&length_room);
}

/* Every page of every side: place 132 times the page, 132 bytes; 13 for a side
** of neither, before 4 for a page above 8. */
static void pages(void)
{
  struct chips chips = chips_at_power_on();
  chips_lend(&chips);
  for (unsigned side = 0; side < 256; side++) {
    for (unsigned page = 0; page < 256; page++) {
      if (side != 1 && side != 2) {
        CHECK(page_is(side, page, 13, 0, 0));
      } else if (page > 8) {
        CHECK(page_is(side, page, 4, 0, 0));
      } else {
        CHECK(page_is(side, page, 0, 132 * page, 132));
      }
    }
  }
  CHECK(chips_are(&chips));
}

/* The part that is handed back is in the caller's own buffer: what it holds is
** the named page of the named side. */
static void page_of_the_buffer(void)
{
  struct chips chips = chips_at_power_on();
  for (size_t i = 0; i < 1188; i++) {
    chips.bytes[LEFT_MEMORY][i] = (uint8_t)(i / 132);
    chips.bytes[RIGHT_MEMORY][i] = (uint8_t)(0x10 + i / 132);
  }
  chips_lend(&chips);
  for (uint8_t page = 0; page < 9; page++) {
    for (uint8_t side = 1; side <= 2; side++) {
      uint8_t *memory = chip_rooms[side == 1 ? LEFT_MEMORY : RIGHT_MEMORY].lent;
      size_t place = 1;
      size_t length = 0;
      CHECK(ssd1815b_wide_page(LENT(LEFT_MEMORY), LENT(RIGHT_MEMORY), side,
                               page, &place, &length) == 0);
      CHECK(length == 132);
      for (size_t i = 0; i < length; i++) {
        CHECK(memory[place + i] == (side == 1 ? page : 0x10 + page));
      }
    }
  }
  CHECK(chips_are(&chips));
}

/* Each length of each memory around the limit: 1 before 13 and 4, the memory
** that is not named too. */
static void page_lengths(void)
{
  static const size_t tried[] = { 0, 1, 132, 1187, 1188, 1189, 1300 };
  for (size_t i = 0; i < 7; i++) {
    for (size_t j = 0; j < 7; j++) {
      struct chips chips = chips_at_power_on();
      chips.length[LEFT_MEMORY] = tried[i];
      chips.length[RIGHT_MEMORY] = tried[j];
      bool enough = tried[i] >= 1188 && tried[j] >= 1188;
      for (unsigned side = 0; side <= 3; side++) {
        bool named = side == 1 || side == 2;
        chips_lend(&chips);
        bool taken = enough && named;
        CHECK(page_is(side, 0, enough ? (named ? 0 : 13) : 1, 0,
                      taken ? 132 : 0));
        CHECK(page_is(side, 9, enough ? (named ? 4 : 13) : 1, 0, 0));
        CHECK(chips_are(&chips));
      }
    }
  }
}

/* ---- the listing ---- */

/* Lists; whether it is answered so, leaves this text, and no other byte has
** changed. */
static bool list_is(uint8_t number, size_t offset, const uint8_t *frame,
                    size_t frame_len, size_t text_len, uint8_t answer,
                    const char *text)
{
  size_t needed_len = strlen(text);
  for (int time = 0; time < 2; time++) {
    uint8_t *lent_frame = room_lend(&frame_room, frame, frame_len);
    uint8_t *listed = room_lend(&text_room, blank, text_len);
    size_t *length = (void *)room_lend(&length_room, blank, sizeof(size_t));
    if (ssd1815b_wide_list(number, offset, lent_frame, frame_len, listed,
                           text_len, length) != answer
        || *length != needed_len || memcmp(listed, text, needed_len) != 0
        || memcmp(listed + needed_len, blank, text_len - needed_len) != 0
        || memcmp(lent_frame, frame, frame_len) != 0
        || !room_intact(&frame_room) || !room_intact(&text_room)
        || !room_intact(&length_room)) {
      return false;
    }
  }
  return true;
}

/* Runs at the edges, across the middle, on both sides of it, and in each row by
** themselves; any byte but 0 is lit. */
static void listing_contents(void)
{
  static uint8_t frame[17160];
  static const char text[] =
    "frame 264 65\n"
    "0 131-132\n"                       /* across the middle: one run */
    "1 131-131 263-263\n"
    "2 0-0 132-132\n"                   /* does not go on from row 1 */
    "9 10-19 100-163 261-262\n"
    "63 0-263\n"
    "64 0-0 133-133\n"
    "end\n";
  memset(frame + 131, 1, 2);
  frame[264 + 131] = frame[264 + 263] = 1;
  frame[528] = frame[528 + 132] = 1;
  memset(frame + 9 * 264 + 10, 255, 10);
  memset(frame + 9 * 264 + 100, 1, 64);
  memset(frame + 9 * 264 + 261, 2, 2);
  memset(frame + 63 * 264, 1, 264);
  frame[64 * 264] = frame[64 * 264 + 133] = 1;
  CHECK(list_is(0, 77, frame, 17160, SSD1815B_WIDE_TEXT_SIZE, 0, text));
  CHECK(list_is(0, 0, frame, 17160, strlen(text), 0, text));
  CHECK(list_is(0, 0, frame, 17160, strlen(text) - 1, 1, ""));
}

/* A refused run's number and offset come first. */
static void listing_of_a_refusal(void)
{
  static uint8_t frame[17160];
  frame[17159] = 1;
  CHECK(list_is(14, 9, frame, 17160, SSD1815B_WIDE_TEXT_SIZE, 0,
                "refused 14 at 9\nframe 264 65\n64 263-263\nend\n"));
  CHECK(list_is(13, 0, frame, 17160, 100, 0,
                "refused 13 at 0\nframe 264 65\n64 263-263\nend\n"));
}

/* Each length around the limits, of the frame and of the text. */
static void listing_lengths(void)
{
  static const uint8_t dark[LONGEST_FRAME];
  static const char text[] = "frame 264 65\nend\n";
  static const size_t frame_lengths_tried[] = {
    0, 1, 8580, 17159, 17160, 17161, LONGEST_FRAME
  };
  static const size_t text_lengths[] = {
    0, 1, 16, 17, 18, SSD1815B_WIDE_TEXT_SIZE - 1, SSD1815B_WIDE_TEXT_SIZE,
    LONGEST_TEXT
  };
  for (size_t i = 0; i < 7; i++) {
    for (size_t j = 0; j < 8; j++) {
      bool enough = frame_lengths_tried[i] >= 17160 && text_lengths[j] >= 17;
      CHECK(list_is(0, 0, dark, frame_lengths_tried[i], text_lengths[j],
                    enough ? 0 : 1, enough ? text : ""));
    }
  }
}

/*
** The longest listing.  A row has the longest line when every second place is
** lit: 132 runs `a-a` with a space before each, 5 of 1 digit, 45 of 2 and 82 of
** 3, so 132 * 2 + 2 * (5 + 90 + 246) = 946 bytes; its number has 1 digit in 10
** rows and 2 in 55, and a newline ends it: 65 * 947 + 10 + 110 = 61,675.  The
** first line, `frame 264 65`, has 13 bytes, the last 4; `refused 255 at ` with
** the largest offset 15 + 20 + 1.
*/
static void longest_listing(void)
{
  static uint8_t frame[17160];
  for (size_t i = 0; i < sizeof frame; i += 2) {
    frame[i] = 1;
  }
  size_t length = 0;
  uint8_t *text = room_lend(&text_room, blank, SSD1815B_WIDE_TEXT_SIZE);
  CHECK(ssd1815b_wide_list(255, SIZE_MAX, frame, sizeof frame, text,
                           SSD1815B_WIDE_TEXT_SIZE, &length) == 0);
  CHECK(length == 61675 + 13 + 4 + 36);
  CHECK(length == SSD1815B_WIDE_TEXT_SIZE);
  static const char first[] = "refused 255 at 18446744073709551615\n"
                              "frame 264 65\n0 0-0 2-2 4-4 ";
  static const char last[] = " 260-260 262-262\nend\n";
  CHECK(memcmp(text, first, sizeof first - 1) == 0);
  CHECK(memcmp(text + length - (sizeof last - 1), last, sizeof last - 1) == 0);
  CHECK(room_intact(&text_room));
  text = room_lend(&text_room, blank, SSD1815B_WIDE_TEXT_SIZE - 1);
  CHECK(ssd1815b_wide_list(255, SIZE_MAX, frame, sizeof frame, text,
                           SSD1815B_WIDE_TEXT_SIZE - 1, &length) == 1);
  CHECK(length == 0);
  CHECK(memcmp(text, blank, SSD1815B_WIDE_TEXT_SIZE - 1) == 0);
}

int main(void)
{
  memset(blank, '?', sizeof blank);
  chips_open();
  room_open(&frame_room, LONGEST_FRAME);
  room_open(&text_room, LONGEST_TEXT);
  room_open(&length_room, sizeof(size_t));
  room_open(&place_room, sizeof(size_t));
  one_dot();
  frame_lengths();
  halves();
  pages();
  page_of_the_buffer();
  page_lengths();
  listing_contents();
  listing_of_a_refusal();
  listing_lengths();
  longest_listing();
  return checks_end("widepicture");
}
