/*
** The wide terminal: single events of two chips.  What is expected was written
** from documents 01 and 02, Order 4.
*/
#include <stdbool.h>
#include <string.h>

#include "check.h"
#include "ssd1815b.h"
#include "twochips.h"

/* ---- an event, made at the end and at the beginning of its rooms ---- */

enum kind { COMMAND, WRITE, READ, RESET, KINDS };

/* What is answered; byte and dummy are those of a read. */
struct answer {
  uint8_t number;
  uint8_t byte;
  uint8_t dummy;
};

static struct room byte_room, dummy_room;

/* The read, with its out parameters in rooms of their own. */
static struct answer read_of(uint8_t selection)
{
  static const uint8_t junk = 0xEE;
  uint8_t *byte = room_lend(&byte_room, &junk, 1);
  uint8_t *dummy = room_lend(&dummy_room, &junk, 1);
  struct answer answer;
  answer.number = ssd1815b_wide_read(LENT_CHIPS, selection, byte, dummy);
  answer.byte = *byte;
  answer.dummy = *dummy;
  CHECK(room_intact(&byte_room));
  CHECK(room_intact(&dummy_room));
  return answer;
}

/* The event's call on what is lent. */
static struct answer answer_of(enum kind kind, uint8_t selection, uint8_t byte)
{
  struct answer answer = { 0, 0, 0 };
  switch (kind) {
  case COMMAND:
    answer.number = ssd1815b_wide_command(LENT_CHIPS, selection, byte);
    break;
  case WRITE:
    answer.number = ssd1815b_wide_write(LENT_CHIPS, selection, byte);
    break;
  case READ:
    answer = read_of(selection);
    break;
  default:
    answer.number = ssd1815b_wide_reset(LENT_CHIPS, selection);
    break;
  }
  return answer;
}

/* Whether an event on these chips is answered so and leaves these. */
static bool event_is(const struct chips *before, enum kind kind,
                     uint8_t selection, uint8_t byte, struct answer answer,
                     const struct chips *after)
{
  for (int time = 0; time < 2; time++) {
    chips_lend(before);
    struct answer found = answer_of(kind, selection, byte);
    if (found.number != answer.number || found.byte != answer.byte
        || found.dummy != answer.dummy || !chips_are(after)) {
      return false;
    }
  }
  return true;
}

/* Whether an event is refused so: nothing changes, byte and dummy are 0. */
static bool refused(const struct chips *chips, enum kind kind,
                    uint8_t selection, uint8_t byte, uint8_t number)
{
  return event_is(chips, kind, selection, byte, (struct answer){ number, 0, 0 },
                  chips);
}

/* Whether an event is taken, answers nothing else, and leaves these. */
static bool taken(const struct chips *before, enum kind kind,
                  uint8_t selection, uint8_t byte, const struct chips *after)
{
  return event_is(before, kind, selection, byte, (struct answer){ 0, 0, 0 },
                  after);
}

/* ---- what is lent, and the selection ---- */

/* Whether an event with the byte 00 is taken at power-on by the selected chips:
** as a command it changes nothing there, the reset pin neither; a write puts 00
** into byte 0 and moves the column; a read is the dummy read. */
static bool is_taken(const struct chips *chips, enum kind kind,
                     uint8_t selection)
{
  struct chips after = *chips;
  for (int side = 0; side < 2; side++) {
    uint8_t *state = after.bytes[side == 0 ? LEFT_STATE : RIGHT_STATE];
    uint8_t *memory = after.bytes[side == 0 ? LEFT_MEMORY : RIGHT_MEMORY];
    if ((selection >> side & 1) == 0) {
      continue;
    }
    if (kind == WRITE) {
      memory[0] = 0x00;
      state[SSD1815B_COLUMN] = 1;
    } else if (kind == READ) {
      state[SSD1815B_FRESH] = 0;
    }
  }
  return event_is(chips, kind, selection, 0x00,
                  (struct answer){ 0, 0, kind == READ }, &after);
}

/* The number of an event on chips at power-on, by its selection alone. */
static uint8_t number_by_selection(enum kind kind, unsigned selection)
{
  if (selection < 1 || selection > 3) {
    return 13;
  }
  return kind == READ && selection == 3 ? 14 : 0;
}

/* An event on chips of some lengths, for each selection and two of none. */
static void event_on_lengths(const struct chips *chips, enum kind kind)
{
  bool enough = true;
  for (int i = 0; i < BUFFERS; i++) {
    enough = enough && chips->length[i] >= needed(i);
  }
  for (unsigned selection = 0; selection <= 4; selection++) {
    uint8_t byte = (uint8_t)selection;
    uint8_t number = enough ? number_by_selection(kind, selection) : 1;
    CHECK(number == 0 ? is_taken(chips, kind, byte)
                      : refused(chips, kind, byte, 0x00, number));
  }
}

/* Each buffer with each length around its limit, the others just long enough
** or longer, or another one too short. */
static void lengths(void)
{
  for (enum kind kind = 0; kind < KINDS; kind++) {
    for (enum buffer buffer = 0; buffer < BUFFERS; buffer++) {
      size_t limit = needed(buffer);
      const size_t tried[] = { 0, 1, limit - 1, limit, limit + 1, 1300 };
      for (size_t i = 0; i < 6; i++) {
        for (enum buffer other = 0; other < BUFFERS; other++) {
          struct chips chips = chips_at_power_on();
          chips.length[buffer] = tried[i];
          event_on_lengths(&chips, kind);
          chips.length[other] += other == buffer ? 0 : 9;
          event_on_lengths(&chips, kind);
          chips.length[other] = needed(other) - 1;
          event_on_lengths(&chips, kind);
        }
      }
    }
  }
}

/* Every selection there can be. */
static void selections(void)
{
  struct chips chips = chips_at_power_on();
  for (enum kind kind = 0; kind < KINDS; kind++) {
    for (unsigned selection = 0; selection < 256; selection++) {
      uint8_t byte = (uint8_t)selection;
      uint8_t number = number_by_selection(kind, selection);
      CHECK(number == 0 ? is_taken(&chips, kind, byte)
                        : refused(&chips, kind, byte, 0x00, number));
    }
  }
}

/* An image out of its ranges, of either chip, whichever is selected: 2 before
** 13 and 14, and 1 before it. */
static void ranges(void)
{
  static const enum buffer states[] = { LEFT_STATE, RIGHT_STATE };
  for (size_t i = 0; i < 2; i++) {
    struct chips chips = chips_at_power_on();
    chips.bytes[states[i]][SSD1815B_PAGE] = 9;
    for (enum kind kind = COMMAND; kind <= READ; kind++) {
      for (uint8_t selection = 0; selection <= 4; selection++) {
        CHECK(refused(&chips, kind, selection, 0xAF, 2));
      }
      for (enum buffer buffer = 0; buffer < BUFFERS; buffer++) {
        struct chips cut = chips;
        cut.length[buffer]--;
        CHECK(refused(&cut, kind, 3, 0xAF, 1));
      }
    }
  }
}

/* ---- who an event is for ---- */

/* A register of one chip. */
static uint8_t *of(struct chips *chips, enum buffer state, int place)
{
  return &chips->bytes[state][place];
}

/* AF turns the display on and leaves fresh at 1, in the selected chips. */
static void commands(void)
{
  struct chips before = chips_at_power_on();
  struct chips after = before;
  *of(&after, LEFT_STATE, SSD1815B_DISPLAY_ON) = 1;
  CHECK(taken(&before, COMMAND, SSD1815B_LEFT, 0xAF, &after));
  *of(&after, RIGHT_STATE, SSD1815B_DISPLAY_ON) = 1;
  CHECK(taken(&before, COMMAND, SSD1815B_BOTH, 0xAF, &after));
  *of(&after, LEFT_STATE, SSD1815B_DISPLAY_ON) = 0;
  CHECK(taken(&before, COMMAND, SSD1815B_RIGHT, 0xAF, &after));
}

/* One byte can be n to the one chip and a first byte to the other: C5 is the
** contrast after 81, and else turns the rows normal. */
static void command_by_own_registers(void)
{
  struct chips before = chips_at_power_on();
  *of(&before, LEFT_STATE, SSD1815B_AWAITED_CODE) = 0x81;
  *of(&before, RIGHT_STATE, SSD1815B_ROW_DIRECTION) = 1;
  struct chips after = before;
  *of(&after, LEFT_STATE, SSD1815B_AWAITED_CODE) = 0x00;
  *of(&after, LEFT_STATE, SSD1815B_CONTRAST) = 5;
  *of(&after, RIGHT_STATE, SSD1815B_ROW_DIRECTION) = 0;
  CHECK(taken(&before, COMMAND, SSD1815B_BOTH, 0xC5, &after));
}

/* A data byte goes to each chip's own page and column; page 8 keeps bit 0, and
** after 131 comes 0. */
static void writes(void)
{
  struct chips before = chips_at_power_on();
  *of(&before, LEFT_STATE, SSD1815B_PAGE) = 2;
  *of(&before, LEFT_STATE, SSD1815B_COLUMN) = 7;
  *of(&before, LEFT_STATE, SSD1815B_FRESH) = 0;
  *of(&before, RIGHT_STATE, SSD1815B_PAGE) = 8;
  *of(&before, RIGHT_STATE, SSD1815B_COLUMN) = 131;
  before.bytes[RIGHT_MEMORY][1187] = 0;

  struct chips left = before;
  left.bytes[LEFT_MEMORY][271] = 0x5B;
  *of(&left, LEFT_STATE, SSD1815B_COLUMN) = 8;
  *of(&left, LEFT_STATE, SSD1815B_FRESH) = 1;
  CHECK(taken(&before, WRITE, SSD1815B_LEFT, 0x5B, &left));

  struct chips right = before;
  right.bytes[RIGHT_MEMORY][1187] = 0x01;
  *of(&right, RIGHT_STATE, SSD1815B_COLUMN) = 0;
  CHECK(taken(&before, WRITE, SSD1815B_RIGHT, 0x5B, &right));

  struct chips both = left;
  both.bytes[RIGHT_MEMORY][1187] = 0x01;
  *of(&both, RIGHT_STATE, SSD1815B_COLUMN) = 0;
  CHECK(taken(&before, WRITE, SSD1815B_BOTH, 0x5B, &both));
}

/* A read answers the selected chip's byte: the dummy read first, which moves
** fresh alone, then the byte, which moves the column. */
static void reads(void)
{
  static const enum buffer states[] = { LEFT_STATE, RIGHT_STATE };
  static const uint8_t bytes[] = { 0x3C, 0xD2 };
  struct chips fresh = chips_at_power_on();
  fresh.bytes[LEFT_MEMORY][4 * 132 + 6] = 0x3C;
  fresh.bytes[RIGHT_MEMORY][4 * 132 + 6] = 0xD2;
  for (size_t i = 0; i < 2; i++) {
    *of(&fresh, states[i], SSD1815B_PAGE) = 4;
    *of(&fresh, states[i], SSD1815B_COLUMN) = 6;
  }
  for (uint8_t i = 0; i < 2; i++) {
    struct chips stale = fresh;
    *of(&stale, states[i], SSD1815B_FRESH) = 0;
    struct chips moved = stale;
    *of(&moved, states[i], SSD1815B_COLUMN) = 7;
    uint8_t selection = (uint8_t)(i + 1);
    CHECK(event_is(&fresh, READ, selection, 0, (struct answer){ 0, 0, 1 },
                   &stale));
    CHECK(event_is(&stale, READ, selection, 0,
                   (struct answer){ 0, bytes[i], 0 }, &moved));
  }
}

/* The reset pin: power-on in each selected chip, whatever its image was, and
** the other as it is, an image out of its ranges too. */
static void resets(void)
{
  struct chips before = chips_at_power_on();
  memset(before.bytes[LEFT_STATE], 0xEE, 23);
  memset(before.bytes[RIGHT_STATE], 0xDD, 23);
  struct chips after = before;
  memcpy(after.bytes[LEFT_STATE], power_on_image, 23);
  CHECK(taken(&before, RESET, SSD1815B_LEFT, 0, &after));
  memcpy(after.bytes[RIGHT_STATE], power_on_image, 23);
  CHECK(taken(&before, RESET, SSD1815B_BOTH, 0, &after));
  memset(after.bytes[LEFT_STATE], 0xEE, 23);
  CHECK(taken(&before, RESET, SSD1815B_RIGHT, 0, &after));
  CHECK(refused(&before, RESET, 0, 0, 13));
  CHECK(refused(&before, RESET, 4, 0, 13));
}

/* ---- refusals of the chips ---- */

/* What makes an event be refused by a chip. */
struct trouble {
  int place;       /* of the register */
  uint8_t value;
};

/* Chips of which each has its trouble. */
static struct chips troubled(struct trouble left, struct trouble right)
{
  struct chips chips = chips_at_power_on();
  *of(&chips, LEFT_STATE, left.place) = left.value;
  *of(&chips, RIGHT_STATE, right.place) = right.value;
  return chips;
}

/* No trouble: the start line says nothing to an event. */
static const struct trouble none = { SSD1815B_START_LINE, 1 };
static const struct trouble after_81 = { SSD1815B_AWAITED_CODE, 0x81 };
static const struct trouble after_D3 = { SSD1815B_AWAITED_CODE, 0xD3 };
static const struct trouble column_200 = { SSD1815B_COLUMN, 200 };

/* Both selected: if either refuses, neither changes, and the number is the
** left's where both do.  To D3 each byte is 5; else F0 and FF are 15, EF is 3
** and B9 is 4; to 81 all are contrasts. */
static void neither_changes(void)
{
  static const struct {
    enum kind kind;
    uint8_t byte;
    const struct trouble *left;
    const struct trouble *right;
    uint8_t number;
  } rows[] = {
    { COMMAND, 0xF0, &after_81, &none, 15 },
    { COMMAND, 0xF0, &none, &after_81, 15 },
    { COMMAND, 0xFF, &none, &none, 15 },
    { COMMAND, 0xEF, &after_81, &none, 3 },
    { COMMAND, 0xEF, &none, &after_81, 3 },
    { COMMAND, 0xB9, &after_81, &none, 4 },
    { COMMAND, 0xB9, &none, &after_81, 4 },
    { COMMAND, 0x40, &none, &after_D3, 5 },
    { COMMAND, 0x40, &after_D3, &none, 5 },
    { COMMAND, 0xF0, &none, &after_D3, 15 },
    { COMMAND, 0xEF, &none, &after_D3, 3 },
    { COMMAND, 0xF0, &after_D3, &none, 5 },
    { COMMAND, 0xB9, &none, &after_D3, 4 },
    { COMMAND, 0xB9, &after_D3, &none, 5 },
    { WRITE, 0x55, &none, &after_81, 6 },
    { WRITE, 0x55, &after_81, &none, 6 },
    { WRITE, 0x55, &none, &column_200, 7 },
    { WRITE, 0x55, &column_200, &none, 7 },
    { WRITE, 0x55, &column_200, &after_81, 7 },
    { WRITE, 0x55, &after_81, &column_200, 6 },
  };
  for (size_t i = 0; i < sizeof rows / sizeof rows[0]; i++) {
    struct chips chips = troubled(*rows[i].left, *rows[i].right);
    CHECK(refused(&chips, rows[i].kind, SSD1815B_BOTH, rows[i].byte,
                  rows[i].number));
  }
}

/* One selected: the other is not asked, and its trouble is nothing to it. */
static void other_is_not_asked(void)
{
  struct chips chips = troubled(none, column_200);
  CHECK(refused(&chips, WRITE, SSD1815B_RIGHT, 0x55, 7));
  CHECK(refused(&chips, READ, SSD1815B_RIGHT, 0, 7));
  struct chips after = chips;
  after.bytes[LEFT_MEMORY][0] = 0x55;
  *of(&after, LEFT_STATE, SSD1815B_COLUMN) = 1;
  CHECK(taken(&chips, WRITE, SSD1815B_LEFT, 0x55, &after));

  chips = troubled(after_D3, none);
  CHECK(refused(&chips, WRITE, SSD1815B_LEFT, 0x55, 6));
  CHECK(refused(&chips, READ, SSD1815B_LEFT, 0, 6));
  CHECK(refused(&chips, COMMAND, SSD1815B_LEFT, 0xAF, 5));
  after = chips;
  *of(&after, RIGHT_STATE, SSD1815B_DISPLAY_ON) = 1;
  CHECK(taken(&chips, COMMAND, SSD1815B_RIGHT, 0xAF, &after));
  CHECK(refused(&chips, COMMAND, SSD1815B_RIGHT, 0x30, 3));
  CHECK(refused(&chips, COMMAND, SSD1815B_RIGHT, 0xBF, 4));
}

/* A read of both is 14, before 6 and 7 of either, dummy or not. */
static void read_of_both(void)
{
  static const struct trouble stale = { SSD1815B_FRESH, 0 };
  static const struct trouble *const troubles[] = {
    &none, &stale, &after_81, &column_200
  };
  for (size_t i = 0; i < 4; i++) {
    for (size_t j = 0; j < 4; j++) {
      struct chips chips = troubled(*troubles[i], *troubles[j]);
      CHECK(refused(&chips, READ, SSD1815B_BOTH, 0, 14));
    }
  }
}

/* ---- every byte, against the calls of one chip ---- */

/* A chip alone: the call of one chip on a copy. */
static uint8_t alone(enum kind kind, uint8_t *state, uint8_t *memory,
                     uint8_t byte)
{
  return kind == COMMAND ? ssd1815b_command(state, 23, memory, 1188, byte)
                         : ssd1815b_write(state, 23, memory, 1188, byte);
}

/* Each command byte and data byte, for each selection, on chips that stand
** apart: what the chips would do alone, or nothing if a selected one
** refuses. */
static void every_byte(struct chips chips)
{
  for (enum kind kind = COMMAND; kind <= WRITE; kind++) {
    for (unsigned byte = 0; byte < 256; byte++) {
      struct chips both = chips;
      uint8_t left = alone(kind, both.bytes[LEFT_STATE],
                           both.bytes[LEFT_MEMORY], (uint8_t)byte);
      struct chips one = both;
      uint8_t right = alone(kind, both.bytes[RIGHT_STATE],
                            both.bytes[RIGHT_MEMORY], (uint8_t)byte);
      struct answer answer = { left, 0, 0 };
      CHECK(event_is(&chips, kind, SSD1815B_LEFT, (uint8_t)byte, answer, &one));
      answer.number = left != 0 ? left : right;
      CHECK(event_is(&chips, kind, SSD1815B_BOTH, (uint8_t)byte, answer,
                     answer.number == 0 ? &both : &chips));
    }
  }
}

int main(void)
{
  chips_open();
  room_open(&byte_room, 1);
  room_open(&dummy_room, 1);
  lengths();
  selections();
  ranges();
  commands();
  command_by_own_registers();
  writes();
  reads();
  resets();
  neither_changes();
  other_is_not_asked();
  read_of_both();
  every_byte(troubled(none, none));
  every_byte(troubled(after_81, none));
  every_byte(troubled(none, after_D3));
  every_byte(troubled(column_200, after_D3));
  return checks_end("wide");
}
