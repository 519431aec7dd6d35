#include "commands.h"

#include <string.h>

#include "registers.h"
#include "sides.h"
#include "stop.h"

/* Enough for what is said of one chip in a line. */
enum { LONGEST_WORDS = 64 };

/* What a line says of a chip. */
typedef void teller(char *words, const uint8_t *image, int place);

/* Bytes are shown in hex, numbers in decimal; with a word where the number
** alone says little. */
static void tell_register(char *words, const uint8_t *image, int place)
{
  uint8_t value = image[place];
  const char *more = "";
  switch (place) {
  case SSD1815B_MULTIPLEX:
    snprintf(words, LONGEST_WORDS, "%u, %u rows in use", value, value + 1u);
    return;
  case SSD1815B_BYTE_OF_A9:
    snprintf(words, LONGEST_WORDS, "%02X", value);
    return;
  case SSD1815B_AWAITED_CODE:
    snprintf(words, LONGEST_WORDS, "%02X%s", value,
             value == 0 ? ", none" : "");
    return;
  case SSD1815B_COLUMN_DIRECTION:
    more = value == 0 ? ", normal" : ", mirrored";
    break;
  case SSD1815B_ROW_DIRECTION:
    more = value == 0 ? ", normal" : ", reversed";
    break;
  case SSD1815B_FRESH:
    more = value == 0 ? "" : ", the next read is dummy";
    break;
  default:
    break;
  }
  snprintf(words, LONGEST_WORDS, "%u%s", value, more);
}

/* Whether the registers are power save, and which. */
static void tell_power_save(char *words, const uint8_t *image, int place)
{
  static const char *const names[] = {
    [SSD1815B_AWAKE] = "no",
    [SSD1815B_SLEEP] = "sleep",
    [SSD1815B_STANDBY] = "standby",
  };
  uint8_t power;
  (void)place;
  /* A run leaves a legal image, so this does not refuse. */
  ssd1815b_power_state(image, SSD1815B_STATE_SIZE, &power);
  snprintf(words, LONGEST_WORDS, "%s", names[power]);
}

/* Whether each panel row is in use: entire on lights just these.  The row rule
** is the library's, and stands in no second place. */
static void find_rows_in_use(const uint8_t *image, bool *in_use)
{
  static const uint8_t memory[SSD1815B_MEMORY_SIZE];
  uint8_t lit[SSD1815B_STATE_SIZE];
  uint8_t frame[SSD1815B_FRAME_SIZE] = { 0 };
  memcpy(lit, image, sizeof lit);
  lit[SSD1815B_DISPLAY_ON] = 1;
  lit[SSD1815B_ENTIRE_ON] = 1;
  /* A run leaves a legal image, so this does not refuse. */
  ssd1815b_draw(lit, sizeof lit, memory, sizeof memory, frame, sizeof frame);
  for (size_t row = 0; row < SSD1815B_ROWS; row++) {
    in_use[row] = frame[row * SSD1815B_COLUMNS] == 1;
  }
}

/* A stretch of rows, after what the words have already. */
static void add_stretch(char *words, const char *before, size_t first,
                        size_t last)
{
  size_t used = strlen(words);
  used += (size_t)snprintf(words + used, LONGEST_WORDS - used, "%s%zu", before,
                           first);
  if (first < last) {
    snprintf(words + used, LONGEST_WORDS - used, " to %zu", last);
  }
}

/* The panel rows in use: one stretch, or two where the band comes in again at
** the top, the lower one first. */
static void tell_rows_in_use(char *words, const uint8_t *image, int place)
{
  bool in_use[SSD1815B_ROWS];
  (void)place;
  find_rows_in_use(image, in_use);
  size_t last = SSD1815B_ROWS - 1;
  while (last > 0 && !in_use[last]) {
    last--;
  }
  size_t first = last;
  while (first > 0 && in_use[first - 1]) {
    first--;
  }
  size_t above = 0;
  while (above < first && in_use[above]) {
    above++;
  }
  *words = '\0';
  add_stretch(words, image[SSD1815B_MULTIPLEX] == 0 ? "panel row "
                                                    : "panel rows ",
              first, last);
  if (above > 0) {
    add_stretch(words, " and ", 0, above - 1);
  }
}

/* A line: its name, and what is said of each chip. */
static void print_line(FILE *out, const struct played *played,
                       const char *name, teller *tell, int place)
{
  char words[LONGEST_WORDS];
  size_t sides = sides_of(played->wide);
  fprintf(out, "%-18s ", name);
  for (size_t side = 0; side < sides; side++) {
    bool last = side + 1 == sides;
    tell(words, played->chips[side].state, place);
    fprintf(out, last ? "%s\n" : "%-31s ", words);
  }
}

/* The images in hex. */
static void print_images(FILE *out, const struct played *played)
{
  for (enum side side = 0; side < sides_of(played->wide); side++) {
    fprintf(out, "%-18s ", !played->wide ? "image"
                           : side == SIDE_LEFT ? "image of the left"
                                               : "image of the right");
    for (size_t place = 0; place < SSD1815B_STATE_SIZE; place++) {
      fprintf(out, "%02X", played->chips[side].state[place]);
    }
    fputs("\n", out);
  }
}

/* The start that the trace was played from. */
static const char *start(const struct played *played)
{
  return played->hung == HUNG_UPRIGHT
           ? "upright, as an old cabinet hangs the module"
           : "upside down, as a new cabinet hangs the module (--upright: an old"
             " one)";
}

void state(FILE *out, const struct played *played)
{
  if (played->wide) {
    fprintf(out, "%-18s %-31s %s\n", "", side_name(SIDE_LEFT),
            side_name(SIDE_RIGHT));
  }
  for (int place = 0; place < SSD1815B_STATE_SIZE; place++) {
    print_line(out, played, register_name(place), tell_register, place);
  }
  print_line(out, played, "rows in use", tell_rows_in_use, 0);
  print_line(out, played, "power save", tell_power_save, 0);
  print_images(out, played);
  if (played->wide) {
    fprintf(out, "%-18s %s\n", "selected", selection_name(played->selection));
  }
  fprintf(out, "%-18s %s\n", "start", start(played));
  fprintf(out, "%-18s %s, number %u at %zu, whole records %zu\n", "run",
          played->number == SSD1815B_TAKEN ? "taken" : "refused",
          played->number, played->offset, played->count);
  stop_print(out, played);
}
