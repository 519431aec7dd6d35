/*
** Listings that the tool reads back (tool/stored.h): those of the files named
** and of drawn frames are taken and list back to the same bytes; with a line
** dropped, doubled or put after the next, a byte changed, dropped or put in, or
** an end cut off, a text is refused, or lists back to itself.
*/
#include <stdbool.h>
#include <stdlib.h>
#include <string.h>

#include "check.h"
#include "stored.h"

/* Of a listing up to this long each byte is given each other value. */
enum { SMALL = 64, LARGEST = SSD1815B_TEXT_SIZE + SMALL };

/* Texts that were taken, and refused. */
static unsigned taken;
static unsigned refused;

/* A number below a limit; the same ones at each start of the program. */
static unsigned below(unsigned limit)
{
  static uint32_t seed = 7;
  seed = seed * 1664525u + 1013904223u;
  return (seed >> 8) % limit;
}

static size_t lines_in(const uint8_t *text, size_t length)
{
  size_t lines = 0;
  for (size_t i = 0; i < length; i++) {
    lines += text[i] == '\n';
  }
  return lines;
}

/* Whether a text is taken, and then it must list back to itself; else a line
** of it is named.  It lies in room of just its size. */
static bool takes(const uint8_t *text, size_t length)
{
  static struct stored stored;
  static uint8_t again[SSD1815B_TEXT_SIZE];
  struct fault fault = { 0 };
  size_t again_length = 0;
  uint8_t *room = malloc(length > 0 ? length : 1);
  CHECK(room != NULL);
  memcpy(room, text, length);
  bool done = stored_read(&stored, room, length, &fault);
  free(room);
  if (done) {
    CHECK(ssd1815b_list(stored.number, stored.offset, stored.frame,
                        sizeof stored.frame, again, sizeof again,
                        &again_length) == SSD1815B_TAKEN);
    CHECK(again_length == length && memcmp(again, text, length) == 0);
  } else {
    CHECK(fault.line >= 1 && fault.line <= lines_in(text, length) + 1);
    CHECK(strncmp(fault.words, "expected ", 9) == 0);
  }
  taken += done;
  refused += !done;
  return done;
}

/* Whether it is taken with so many of its bytes, from a place on, replaced. */
static bool takes_with(const uint8_t *text, size_t length, size_t at,
                       size_t old, const uint8_t *bytes, size_t new)
{
  static uint8_t damaged[2 * LARGEST];
  memcpy(damaged, text, at);
  memcpy(damaged + at, bytes, new);
  memcpy(damaged + at + new, text + at + old, length - at - old);
  return takes(damaged, length - old + new);
}

/* The offset after the line that begins at this one. */
static size_t line_end(const uint8_t *text, size_t at)
{
  while (text[at] != '\n') {
    at++;
  }
  return at + 1;
}

/* Each line dropped, doubled and put after the next; what may be dropped is a
** refusal and a row. */
static void damage_lines(const uint8_t *text, size_t length)
{
  static uint8_t two[LARGEST];
  for (size_t at = 0, end; at < length; at = end) {
    end = line_end(text, at);
    size_t size = end - at;
    bool wanted = text[at] == 'f' || text[at] == 'e';
    CHECK(takes_with(text, length, at, size, text, 0) == !wanted);
    memcpy(two, text + at, size);
    CHECK(!takes_with(text, length, at, 0, two, size));
    if (end < length) {
      size_t next = line_end(text, end) - end;
      memcpy(two, text + end, next);
      memcpy(two + next, text + at, size);
      CHECK(!takes_with(text, length, at, size + next, two, size + next));
    }
  }
}

/* Each byte changed to each other, dropped, and each put in before it; and
** what is left by each cut. */
static void damage_bytes(const uint8_t *text, size_t length)
{
  for (size_t at = 0; at < length; at++) {
    for (unsigned byte = 0; byte < 256; byte++) {
      uint8_t other = (uint8_t)byte;
      bool sound = takes_with(text, length, at, 1, &other, 1);
      CHECK(sound || other != text[at]);
      takes_with(text, length, at, 0, &other, 1);
    }
    takes_with(text, length, at, 1, text, 0);
    CHECK(!takes(text, at));
  }
  for (unsigned byte = 0; byte < 256; byte++) {
    uint8_t more = (uint8_t)byte;
    CHECK(!takes_with(text, length, length, 0, &more, 1));
  }
}

/* A sound listing, and damaged ones. */
static void try(const uint8_t *text, size_t length)
{
  CHECK(takes(text, length));
  damage_lines(text, length);
  if (length <= SMALL) {
    damage_bytes(text, length);
  }
}

static void try_file(const char *name)
{
  static uint8_t text[LARGEST];
  FILE *file = fopen(name, "rb");
  CHECK(file != NULL);
  if (file != NULL) {
    size_t length = fread(text, 1, sizeof text, file);
    CHECK(length > 0 && ferror(file) == 0);
    try(text, length);
    fclose(file);
  }
}

/* A frame of which one in so many places begins or ends a run, and every
** number and any offset. */
static void try_frame(unsigned often, uint8_t number)
{
  static uint8_t frame[SSD1815B_FRAME_SIZE];
  static uint8_t text[SSD1815B_TEXT_SIZE];
  size_t length;
  uint8_t lit = 0;
  for (size_t i = 0; i < sizeof frame; i++) {
    lit = below(often) == 0 ? !lit : lit;
    frame[i] = lit;
  }
  CHECK(ssd1815b_list(number, number == SSD1815B_TAKEN ? 0 : below(65536),
                      frame, sizeof frame, text, sizeof text, &length)
        == SSD1815B_TAKEN);
  try(text, length);
}

int main(int argc, char **argv)
{
  CHECK(argc > 1);
  for (int i = 1; i < argc; i++) {
    try_file(argv[i]);
  }
  for (unsigned often = 1; often <= SSD1815B_FRAME_SIZE; often *= 3) {
    try_frame(often, SSD1815B_TAKEN);
    try_frame(often, (uint8_t)(3 + below(8)));
  }
  CHECK(!takes((const uint8_t *)"", 0));
  CHECK(taken > 0 && refused > 0);
  printf("listings: %d files, %u texts taken, %u refused\n", argc - 1, taken,
         refused);
  return checks_end("listings");
}
