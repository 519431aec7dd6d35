/*
** Document 01, "Sample events", by the calls that a host makes; 9 and 11 as
** document 02, Order 2, has them.  The listing that document 01 prints whole,
** and Order 3's second one.  What is expected here was written from these
** documents.
*/
#include <stdbool.h>
#include <string.h>

#include "check.h"
#include "ssd1815b.h"

struct chip {
  uint8_t state[SSD1815B_STATE_SIZE];
  uint8_t memory[SSD1815B_MEMORY_SIZE];
};

/* The samples are "from power-on with zero memory": the upright start. */
static struct chip power_on(void)
{
  struct chip chip;
  CHECK(ssd1815b_start_upright(chip.state, sizeof chip.state, chip.memory,
                               sizeof chip.memory) == 0);
  return chip;
}

/* Order 3's start, as the module hangs in new cabinets. */
static struct chip upside_down(void)
{
  struct chip chip;
  CHECK(ssd1815b_start(chip.state, sizeof chip.state, chip.memory,
                       sizeof chip.memory) == 0);
  return chip;
}

static uint8_t command(struct chip *chip, uint8_t byte)
{
  return ssd1815b_command(chip->state, sizeof chip->state, chip->memory,
                          sizeof chip->memory, byte);
}

static uint8_t data(struct chip *chip, uint8_t byte)
{
  return ssd1815b_write(chip->state, sizeof chip->state, chip->memory,
                        sizeof chip->memory, byte);
}

/* A read that must be taken: the byte, or 256 for the dummy read. */
static int read_of(struct chip *chip)
{
  uint8_t byte;
  uint8_t dummy;
  CHECK(ssd1815b_read(chip->state, sizeof chip->state, chip->memory,
                      sizeof chip->memory, &byte, &dummy) == 0);
  return dummy == 1 ? 256 : byte;
}

/* ---- frames ---- */

static uint8_t frame[SSD1815B_FRAME_SIZE];

static void draw(const struct chip *chip)
{
  CHECK(ssd1815b_draw(chip->state, sizeof chip->state, chip->memory,
                      sizeof chip->memory, frame, sizeof frame) == 0);
}

static bool row_is(size_t row, uint8_t dot)
{
  for (size_t x = 0; x < 132; x++) {
    if (frame[row * 132 + x] != dot) {
      return false;
    }
  }
  return true;
}

/* Whether lit are just these rows, from the first to the last, and icons. */
static bool lit_rows_are(size_t first, size_t last, bool icons)
{
  for (size_t row = 0; row < 64; row++) {
    if (!row_is(row, row >= first && row <= last)) {
      return false;
    }
  }
  return row_is(64, icons);
}

/* Whether panel row p shows RAM row r: the one row of memory that is lit. */
static bool shows(struct chip chip, size_t p, size_t r)
{
  memset(chip.memory, 0, sizeof chip.memory);
  memset(chip.memory + r / 8 * 132, 1 << r % 8, 132);
  draw(&chip);
  return lit_rows_are(p, p, false);
}

/* ---- the samples, by their numbers ---- */

static void sample_1(void)
{
  struct chip chip = power_on();
  CHECK(data(&chip, 0x03) == 0);
  CHECK(chip.memory[0] == 0x03);
  CHECK(chip.state[SSD1815B_COLUMN] == 1);
}

static void sample_2(void)
{
  struct chip chip = power_on();
  CHECK(command(&chip, 0x03) == 0);
  CHECK(command(&chip, 0x18) == 0);
  CHECK(chip.state[SSD1815B_COLUMN] == 131);
  CHECK(data(&chip, 0xAA) == 0);
  CHECK(chip.memory[131] == 0xAA);
  CHECK(chip.state[SSD1815B_COLUMN] == 0);
  CHECK(chip.state[SSD1815B_PAGE] == 0);
}

static void sample_3(void)
{
  struct chip chip = power_on();
  CHECK(command(&chip, 0x0F) == 0);
  CHECK(command(&chip, 0x18) == 0);
  CHECK(chip.state[SSD1815B_COLUMN] == 143);
  CHECK(data(&chip, 0xAA) == 7);
}

static void sample_4(void)
{
  struct chip chip = power_on();
  CHECK(command(&chip, 0xB8) == 0);
  CHECK(command(&chip, 0xB9) == 4);
  CHECK(chip.state[SSD1815B_PAGE] == 8);
}

static void sample_5(void)
{
  struct chip chip = power_on();
  CHECK(command(&chip, 0xB8) == 0);
  CHECK(data(&chip, 0xFF) == 0);
  CHECK(chip.memory[1056] == 0x01);
}

static void sample_6(void)
{
  struct chip chip = power_on();
  CHECK(command(&chip, 0x05) == 0);
  CHECK(command(&chip, 0xE0) == 0);
  CHECK(data(&chip, 0x11) == 0);
  CHECK(data(&chip, 0x22) == 0);
  CHECK(command(&chip, 0xEE) == 0);
  CHECK(chip.state[SSD1815B_COLUMN] == 5);

  chip = power_on();
  CHECK(command(&chip, 0x05) == 0);
  CHECK(data(&chip, 0x11) == 0);
  CHECK(data(&chip, 0x22) == 0);
  CHECK(chip.state[SSD1815B_COLUMN] == 7);
}

static void sample_7(void)
{
  struct chip chip = power_on();
  CHECK(command(&chip, 0x81) == 0);
  CHECK(data(&chip, 0x00) == 6);
  CHECK(command(&chip, 0xC5) == 0);
  CHECK(chip.state[SSD1815B_CONTRAST] == 5);
  CHECK(chip.state[SSD1815B_ROW_DIRECTION] == 0);
}

static void sample_8(void)
{
  struct chip chip = power_on();
  CHECK(command(&chip, 0xD3) == 0);
  CHECK(command(&chip, 0x40) == 5);
  CHECK(chip.state[SSD1815B_AWAITED_CODE] == 0xD3);
  CHECK(command(&chip, 0x3F) == 0);
  CHECK(chip.state[SSD1815B_OFFSET] == 63);
}

static void sample_9(void)
{
  struct chip chip = power_on();
  CHECK(command(&chip, 0xA8) == 0);
  CHECK(command(&chip, 0x0F) == 0);
  CHECK(command(&chip, 0xAF) == 0);
  CHECK(command(&chip, 0xA5) == 0);
  draw(&chip);
  CHECK(lit_rows_are(24, 39, true));
}

static void sample_10(void)
{
  struct chip chip = power_on();
  CHECK(command(&chip, 0xAF) == 0);
  CHECK(command(&chip, 0x43) == 0);
  CHECK(command(&chip, 0xD3) == 0);
  CHECK(command(&chip, 0x02) == 0);
  CHECK(shows(chip, 0, 5));
  CHECK(shows(chip, 63, 4));
  CHECK(command(&chip, 0xC8) == 0);
  CHECK(shows(chip, 0, 0));
  CHECK(shows(chip, 63, 1));
}

static void sample_11(void)
{
  struct chip chip = power_on();
  CHECK(command(&chip, 0xAF) == 0);
  CHECK(command(&chip, 0xA8) == 0);
  CHECK(command(&chip, 0x0F) == 0);
  CHECK(command(&chip, 0xC8) == 0);
  CHECK(shows(chip, 24, 15));
}

static void sample_12(void)
{
  struct chip chip = power_on();
  CHECK(command(&chip, 0xA5) == 0);
  draw(&chip);
  CHECK(lit_rows_are(64, 64, false));
}

/* "Errors earlier versions would repeat", those that no sample shows. */
static void earlier_errors(void)
{
  /* Mirroring columns when storing. */
  struct chip chip = power_on();
  CHECK(command(&chip, 0xA1) == 0);
  CHECK(data(&chip, 0x77) == 0);
  CHECK(chip.memory[0] == 0x77);
  CHECK(chip.memory[131] == 0);

  /* Restoring the page at EE. */
  chip = power_on();
  CHECK(command(&chip, 0xE0) == 0);
  CHECK(command(&chip, 0xB3) == 0);
  CHECK(command(&chip, 0xEE) == 0);
  CHECK(chip.state[SSD1815B_PAGE] == 3);

  /* Moving the column at a dummy read, or on a read in read-modify-write. */
  chip = power_on();
  chip.memory[0] = 0x5A;
  chip.memory[1] = 0xA5;
  CHECK(read_of(&chip) == 256);
  CHECK(chip.state[SSD1815B_COLUMN] == 0);
  CHECK(read_of(&chip) == 0x5A);
  CHECK(chip.state[SSD1815B_COLUMN] == 1);
  CHECK(command(&chip, 0xE0) == 0);
  CHECK(read_of(&chip) == 256);
  CHECK(read_of(&chip) == 0xA5);
  CHECK(read_of(&chip) == 0xA5);
  CHECK(chip.state[SSD1815B_COLUMN] == 1);
}

/* ---- the listing ---- */

/* Whether document 01's trace, run from this state, prints this whole. */
static bool lists(struct chip chip, const char *expected)
{
  static const uint8_t trace[] = {
    0x01, 0x00, 0x01, 0x00, 0xAF, 0x02, 0x00, 0x02, 0x00, 0x03, 0x01
  };
  static uint8_t text[SSD1815B_TEXT_SIZE];
  size_t offset;
  size_t count;
  size_t length;
  uint8_t number = ssd1815b_run(chip.state, sizeof chip.state, chip.memory,
                                sizeof chip.memory, trace, sizeof trace,
                                &offset, &count);
  CHECK(number == 0);
  draw(&chip);
  CHECK(ssd1815b_list(number, offset, frame, sizeof frame, text, sizeof text,
                      &length) == 0);
  return length == strlen(expected) && memcmp(text, expected, length) == 0;
}

/*
** Data 03 and 01: RAM row 0 is lit at columns 0 and 1, RAM row 1 at column 0.
** Upside down, with M = 64, panel row p shows RAM row 63 - p, and place x
** column 131 - x.
*/
static void listings(void)
{
  CHECK(lists(power_on(), "frame 132 65\n0 0-1\n1 0-0\nend\n"));
  CHECK(lists(upside_down(),
              "frame 132 65\n62 131-131\n63 130-131\nend\n"));
}

int main(void)
{
  sample_1();
  sample_2();
  sample_3();
  sample_4();
  sample_5();
  sample_6();
  sample_7();
  sample_8();
  sample_9();
  sample_10();
  sample_11();
  sample_12();
  earlier_errors();
  listings();
  return checks_end("samples");
}
