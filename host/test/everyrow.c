/*
** Every setting of the row rule, each row: the frame and the wide frame beside
** document 01, "The frame", with document 02, Orders 2 and 4; other looks than
** the plain one with some of the settings.  What is expected was written from
** these documents, and divides as they do; by Order 5 the model does not, and
** nothing that anyone is told about the row may change.
**
** Two sentences are read so.  "Modulo 64" is the remainder from 0 to 63 of a
** number below 0 too, as Order 2's p + offset - t can be.  And Order 2 changes
** just which COM a panel row belongs to: the k that makes a row dark, and the k
** of both row directions, is that COM.
*/
#include <stdbool.h>
#include <string.h>

#include "check.h"
#include "ssd1815b.h"

/* Numbers of rows by what they show: the 65 RAM rows, and one that is dark. */
enum { ICONS = 64, DARK = 65, CONTENTS = 66 };

/* What else a frame is drawn by, as one number: column direction, reverse,
** entire on, display on. */
enum { MIRRORED = 1, TURNED = 2, ENTIRE = 4, ON = 8, LOOKS = 16 };

/* The chips of a wide terminal; one by itself is the left one. */
enum side { LEFT, RIGHT, SIDES };

/* After so many frames that are wrong the test stops. */
enum { FEW = 5 };

struct setting {
  int start_line, offset, multiplex, reversed, look;
};

/* A chip, its setting, and how wide the frame is that it is drawn in. */
struct chip {
  enum side side;
  size_t width;
  struct setting setting;
};

/* A numbering of settings: the one that has this number. */
typedef struct setting numbered(unsigned number);

static uint8_t state[SIDES][23];
static uint8_t memory[SIDES][1188];
static uint8_t frame[17160];

/* What a row holds, by the chip, the look and what it shows. */
static uint8_t contents[SIDES][LOOKS][CONTENTS][132];

static unsigned rows_compared;

/* ---- what the documents say ---- */

/* The remainder, from 0 to 63, of a number below 0 too. */
static int modulo_64(int number)
{
  return (number % 64 + 64) % 64;
}

/* The RAM row that a panel row shows, or DARK. */
static int ram_row_of(int panel_row, const struct setting *setting)
{
  int rows_in_use = setting->multiplex + 1;
  int t = (64 - rows_in_use) / 2;
  int com = modulo_64(panel_row + setting->offset - t);
  if (com >= rows_in_use) {
    return DARK;
  }
  if (setting->reversed) {
    return modulo_64(setting->start_line + rows_in_use - 1 - com);
  }
  return modulo_64(setting->start_line + com);
}

/* What a row of the frame shows; row 64 is the icon line. */
static int shown_in(int row, const struct setting *setting)
{
  return row == 64 ? ICONS : ram_row_of(row, setting);
}

/* ---- the settings ---- */

/* How many settings the two numberings have: powers of 2. */
enum {
  ROW_SETTINGS = 64 * 64 * 64 * 2,
  LOOK_SETTINGS = 8 * 8 * 64 * 2 * LOOKS
};

/* Every start line, offset, multiplex and row direction, in the plain look. */
static struct setting row_setting(unsigned number)
{
  return (struct setting){
    .start_line = (int)(number % 64),
    .offset = (int)(number / 64 % 64),
    .multiplex = (int)(number / 64 / 64 % 64),
    .reversed = (int)(number / 64 / 64 / 64),
    .look = ON
  };
}

/* Every look, multiplex and row direction, with start lines and offsets around
** the ends and the middle, and 24, the t of 16 rows. */
static struct setting look_setting(unsigned number)
{
  static const int lines[8] = { 0, 1, 24, 31, 32, 33, 62, 63 };
  return (struct setting){
    .start_line = lines[number % 8],
    .offset = lines[number / 8 % 8],
    .multiplex = (int)(number / 8 / 8 % 64),
    .reversed = (int)(number / 8 / 8 / 64 % 2),
    .look = (int)(number / 8 / 8 / 64 / 2)
  };
}

/* The number of the right chip's setting beside a left one: each step has but
** one way back, as the count is a power of 2 and the factor is odd. */
static unsigned scrambled(unsigned number, unsigned count)
{
  number = number * 40503 % count;
  number ^= number >> 9;
  number = number * 40503 % count;
  return number ^ number >> 9;
}

/* Sees that the right chip has each setting too, and each once. */
static void each_has_its_turn(unsigned count)
{
  static bool had[ROW_SETTINGS];
  memset(had, false, sizeof had);
  for (unsigned number = 0; number < count; number++) {
    unsigned other = scrambled(number, count);
    CHECK(other < count && !had[other]);
    had[other] = true;
  }
}

/* ---- memories, and the rows that they make ---- */

/* A bit of a memory: the 8 columns at either edge hold a 1 and the RAM row's
** number, in binary from the edge inwards; those between are scrambled, so that
** they differ from side to side and read otherwise from right to left. */
static int memory_bit(enum side side, int ram_row, int column)
{
  int from_edge = column < 66 ? column : 131 - column;
  if (from_edge < 8) {
    return (2 * ram_row + 1) >> from_edge & 1;
  }
  uint32_t mixed = (uint32_t)(132 * ram_row + column) * 2 + (uint32_t)side;
  mixed *= 2654435761u;
  mixed ^= mixed >> 15;
  mixed *= 2246822519u;
  return (int)(mixed >> 31);
}

/* Fills a memory; page 8 has bits above bit 0 too, which drawing ignores. */
static void fill_memory(enum side side)
{
  for (int i = 0; i < 1188; i++) {
    int byte = 0;
    for (int bit = 0; bit < 8; bit++) {
      byte |= memory_bit(side, i / 132 * 8 + bit, i % 132) << bit;
    }
    memory[side][i] = (uint8_t)byte;
  }
}

/* Writes what a row holds that shows this RAM row, in a look with the display
** on. */
static void make_row(enum side side, int look, int ram_row)
{
  for (int x = 0; x < 132; x++) {
    int column = look & MIRRORED ? 131 - x : x;
    int bit = memory_bit(side, ram_row, column);
    if (look & TURNED) {
      bit = 1 - bit;
    }
    contents[side][look][ram_row][x] = (uint8_t)(look & ENTIRE ? 1 : bit);
  }
}

/* Makes all rows of one side; dark ones, and all with the display off, are 0 as
** they stand. */
static void make_rows(enum side side)
{
  for (int look = ON; look < LOOKS; look++) {
    for (int ram_row = 0; ram_row < 65; ram_row++) {
      make_row(side, look, ram_row);
    }
  }
}

/* A row that shows a RAM row, by a number from 0 to 519: of either side, in
** each of the four looks that show what the memory holds. */
static const uint8_t *row_numbered(int number)
{
  return contents[number / 65 / 4][ON + number / 65 % 4][number % 65];
}

/* Sees that what a row shows can be told: no two of these rows are the same,
** and none is dark. */
static void rows_can_be_told(void)
{
  for (int i = 0; i < SIDES * 4 * 65; i++) {
    CHECK(memcmp(row_numbered(i), contents[LEFT][ON][DARK], 132) != 0);
    for (int j = 0; j < i; j++) {
      CHECK(memcmp(row_numbered(i), row_numbered(j), 132) != 0);
    }
  }
}

/* ---- what a failure says ---- */

/* Prints a chip's setting by the names of its registers. */
static void print_setting(const struct chip *chip)
{
  const struct setting *setting = &chip->setting;
  const char *half = chip->side == LEFT ? "left half" : "right half";
  fprintf(stderr,
          "%s: start line %d, offset %d, multiplex %d, row direction %d, "
          "column direction %d, reverse %d, entire on %d, display on %d\n",
          chip->width == 132 ? "one chip" : half, setting->start_line,
          setting->offset, setting->multiplex, setting->reversed,
          (setting->look & MIRRORED) != 0, (setting->look & TURNED) != 0,
          (setting->look & ENTIRE) != 0, (setting->look & ON) != 0);
}

/* Prints what a row shows. */
static void print_shown(const struct chip *chip, const uint8_t *row)
{
  if (memcmp(row, contents[LEFT][ON][DARK], 132) == 0) {
    fprintf(stderr, "dark");
    return;
  }
  if (memcmp(row, contents[LEFT][ON | ENTIRE][0], 132) == 0) {
    fprintf(stderr, "all lit");
    return;
  }
  const struct setting *setting = &chip->setting;
  for (int ram_row = 0; ram_row < 65; ram_row++) {
    if (memcmp(row, contents[chip->side][setting->look][ram_row], 132) == 0) {
      fprintf(stderr, "RAM row %d", ram_row);
      return;
    }
  }
  fprintf(stderr, "no RAM row of its memory");
}

/* Says which row of which setting is not as the documents have it. */
static void print_row(const struct chip *chip, int row, const uint8_t *shown,
                      const uint8_t *expected)
{
  int x = 0;
  while (shown[x] == expected[x]) {
    x++;
  }
  print_setting(chip);
  fprintf(stderr, "  row %d shows ", row);
  print_shown(chip, shown);
  fprintf(stderr, ", expected ");
  print_shown(chip, expected);
  fprintf(stderr, "; the first place that differs is %d\n", x);
}

/* ---- drawing and comparing ---- */

/* Counts a check; whether it holds. */
static bool holds(bool so)
{
  checks_made++;
  checks_failed += !so;
  return so;
}

/* Whether the test goes on: not after a few frames that are wrong. */
static bool going_on(void)
{
  return checks_failed < FEW;
}

/* Puts a chip's setting into its image. */
static void set(const struct chip *chip)
{
  const struct setting *setting = &chip->setting;
  uint8_t *image = state[chip->side];
  image[SSD1815B_START_LINE] = (uint8_t)setting->start_line;
  image[SSD1815B_OFFSET] = (uint8_t)setting->offset;
  image[SSD1815B_MULTIPLEX] = (uint8_t)setting->multiplex;
  image[SSD1815B_COLUMN_DIRECTION] = (setting->look & MIRRORED) != 0;
  image[SSD1815B_ROW_DIRECTION] = (uint8_t)setting->reversed;
  image[SSD1815B_ENTIRE_ON] = (setting->look & ENTIRE) != 0;
  image[SSD1815B_REVERSE] = (setting->look & TURNED) != 0;
  image[SSD1815B_DISPLAY_ON] = (setting->look & ON) != 0;
}

/* Compares each row that a chip has in the frame, all 132 places of it, up to
** the first that is wrong. */
static void compare_rows(const struct chip *chip)
{
  const uint8_t *shown = frame + 132 * (size_t)chip->side;
  for (int row = 0; row < 65; row++) {
    int content = shown_in(row, &chip->setting);
    const uint8_t *expected = contents[chip->side][chip->setting.look][content];
    rows_compared++;
    if (!holds(memcmp(shown, expected, 132) == 0)) {
      print_row(chip, row, shown, expected);
      return;
    }
    shown += chip->width;
  }
}

/* Draws one chip by itself in each setting of a numbering; before each drawing
** the frame holds neither dark nor lit places. */
static void narrow_frames(numbered *setting_of, unsigned count)
{
  for (unsigned number = 0; number < count && going_on(); number++) {
    struct chip chip = { LEFT, 132, setting_of(number) };
    set(&chip);
    memset(frame, '?', 8580);
    if (holds(ssd1815b_draw(state[LEFT], 23, memory[LEFT], 1188, frame, 8580)
              == 0)) {
      compare_rows(&chip);
    } else {
      print_setting(&chip);
      fprintf(stderr, "  is not drawn\n");
    }
  }
}

/* Draws a wide terminal, so that each chip has each setting of a numbering. */
static void wide_frames(numbered *setting_of, unsigned count)
{
  for (unsigned number = 0; number < count && going_on(); number++) {
    struct chip left = { LEFT, 264, setting_of(number) };
    struct chip right = { RIGHT, 264, setting_of(scrambled(number, count)) };
    set(&left);
    set(&right);
    memset(frame, '?', 17160);
    if (holds(ssd1815b_wide_draw(state[LEFT], 23, memory[LEFT], 1188,
                                 state[RIGHT], 23, memory[RIGHT], 1188, frame,
                                 17160) == 0)) {
      compare_rows(&left);
      compare_rows(&right);
    } else {
      print_setting(&left);
      print_setting(&right);
      fprintf(stderr, "  are not drawn side by side\n");
    }
  }
}

/* Makes a side ready: an upright start, its memory, and what rows it makes. */
static void begin(enum side side)
{
  CHECK(ssd1815b_start_upright(state[side], 23, memory[side], 1188) == 0);
  fill_memory(side);
  make_rows(side);
}

int main(void)
{
  begin(LEFT);
  begin(RIGHT);
  rows_can_be_told();
  each_has_its_turn(ROW_SETTINGS);
  each_has_its_turn(LOOK_SETTINGS);
  narrow_frames(row_setting, ROW_SETTINGS);
  narrow_frames(look_setting, LOOK_SETTINGS);
  wide_frames(row_setting, ROW_SETTINGS);
  wide_frames(look_setting, LOOK_SETTINGS);
  char name[60];
  snprintf(name, sizeof name, "everyrow: %u rows compared", rows_compared);
  return checks_end(name);
}
