#include "stored.h"

#include <stdio.h>
#include <string.h>

#include "listing.h"

static const char head[] = "frame 132 65";
static const char wide_head[] = "frame 264 65";
static const char too_long[] = "input too long";

/* A text, and how far it has been read. */
struct reader {
  const uint8_t *text;
  size_t length;
  size_t at;
  size_t line;       /* in which that is, from 1 */
  bool wide;         /* the listing is of a wide frame */
  bool wanted_wide;  /* such a one is expected */
  struct fault *fault;
};

/* ---- what is said of a fault ---- */

/* Some bytes of the line in quotes, those that are not printable in hex. */
static void quote(const struct reader *reader, char *words, size_t size)
{
  enum { LONGEST = 24 };
  size_t used = (size_t)snprintf(words, size, "\"");
  size_t i = reader->at;
  for (; i < reader->length && reader->text[i] != '\n'
         && i < reader->at + LONGEST; i++) {
    uint8_t byte = reader->text[i];
    bool printable = byte >= ' ' && byte < 0x7F;
    used += (size_t)snprintf(words + used, size - used,
                             printable ? "%c" : "\\x%02X", byte);
  }
  bool more = i < reader->length && reader->text[i] != '\n';
  snprintf(words + used, size - used, more ? "\" and more" : "\"");
}

/* What stands at the place. */
static void name_found(const struct reader *reader, char *words, size_t size)
{
  const uint8_t *rest = reader->text + reader->at;
  size_t left = reader->length - reader->at;
  if (left == 0) {
    snprintf(words, size, "the end of the file");
  } else if (rest[0] == '\n') {
    snprintf(words, size, "the end of the line");
  } else if (left > 1 && rest[0] == '\r' && rest[1] == '\n') {
    snprintf(words, size, "CR LF, and LF alone ends a line here");
  } else {
    quote(reader, words, size);
  }
}

/* Keeps what was expected and what stands there; false, for the caller to
** answer. */
static bool fault_at(struct reader *reader, const char *expected)
{
  char found[120];
  name_found(reader, found, sizeof found);
  reader->fault->line = reader->line;
  snprintf(reader->fault->words, sizeof reader->fault->words,
           "expected %s; found %s", expected, found);
  return false;
}

/* ---- parts of a line ---- */

/* Whether this word stands at the place. */
static bool stands(const struct reader *reader, const char *word)
{
  size_t length = strlen(word);
  return reader->length - reader->at >= length
         && memcmp(reader->text + reader->at, word, length) == 0;
}

/* Goes on after a word, if it stands there. */
static bool passes(struct reader *reader, const char *word)
{
  bool there = stands(reader, word);
  reader->at += there ? strlen(word) : 0;
  return there;
}

static bool take_word(struct reader *reader, const char *word,
                      const char *expected)
{
  return passes(reader, word) || fault_at(reader, expected);
}

static bool take_newline(struct reader *reader, const char *expected)
{
  bool taken = take_word(reader, "\n", expected);
  reader->line += taken;
  return taken;
}

/* The numbers that may stand at a place. */
struct range {
  const char *name;
  size_t least;
  size_t most;
  const char *more;  /* said after them */
};

static bool is_digit(const struct reader *reader, size_t at)
{
  return at < reader->length && reader->text[at] >= '0'
         && reader->text[at] <= '9';
}

/* A number in decimal, with no 0 before its first digit. */
static bool take_number(struct reader *reader, struct range range,
                        size_t *number)
{
  size_t at = reader->at;
  bool zeros = stands(reader, "0") && is_digit(reader, at + 1);
  *number = 0;
  for (; is_digit(reader, at) && *number <= range.most; at++) {
    *number = *number * 10 + (size_t)(reader->text[at] - '0');
  }
  if (zeros || at == reader->at || *number < range.least
      || *number > range.most) {
    char expected[100];
    snprintf(expected, sizeof expected, "%s from %zu to %zu%s%s", range.name,
             range.least, range.most, zeros ? " with no 0 before it" : "",
             range.more);
    return fault_at(reader, expected);
  }
  reader->at = at;
  return true;
}

/* ---- lines ---- */

/* A run that begins at *from or later; *from is then the first place at which
** the next one may, as runs do not touch. */
static bool take_run(struct reader *reader, uint8_t *row, size_t *from)
{
  size_t first;
  size_t last;
  size_t rightmost = columns_of(reader->wide) - 1;
  struct range firsts = { "a run's first place", *from, rightmost,
                          *from > 0 ? ", apart from the run before" : "" };
  if (!take_number(reader, firsts, &first)
      || !take_word(reader, "-", "- and the run's last place")) {
    return false;
  }
  struct range lasts = { "the run's last place", first, rightmost, "" };
  if (!take_number(reader, lasts, &last)) {
    return false;
  }
  memset(row + first, 1, last - first + 1);
  *from = last + 2;
  return true;
}

/* A row that is *least or lower on the screen, with its runs. */
static bool take_row(struct reader *reader, uint8_t *frame, size_t *least)
{
  size_t row;
  size_t from = 0;
  size_t columns = columns_of(reader->wide);
  struct range rows = { "a row", *least, SSD1815B_ICON_ROW, ", or end" };
  if (*least > SSD1815B_ICON_ROW) {
    return fault_at(reader, "end");
  }
  if (!take_number(reader, rows, &row)
      || !take_word(reader, " ", "a space and a run")) {
    return false;
  }
  do {
    if (!take_run(reader, frame + row * columns, &from)) {
      return false;
    }
  } while (from < columns && passes(reader, " "));
  *least = row + 1;
  return take_newline(reader, from < columns
                                ? "a space and a run, or the end of the line"
                                : "the end of the line");
}

/* Whether a run answers a number from 3 on; 13 and 14 a wide one alone. */
static bool run_answers(size_t number, bool wide)
{
  return number <= SSD1815B_READ_DIFFERS || number == SSD1815B_TEST_MODE
         || (wide && (number == SSD1815B_NO_SELECTION
                      || number == SSD1815B_BOTH_SELECTED));
}

/* The number of a refusal that a run answers. */
static bool take_refused_number(struct reader *reader, size_t *number)
{
  size_t at = reader->at;
  struct range numbers = { "a number", SSD1815B_OUTSIDE_TABLE,
                           SSD1815B_LAST_NUMBER, "" };
  if (!take_number(reader, numbers, number)) {
    return false;
  }
  if (!run_answers(*number, reader->wide)) {
    reader->at = at;
    return fault_at(reader, reader->wide
                              ? "a number that a run answers, 3 to 10 or 13 to"
                                " 15"
                              : "a number that a run answers, 3 to 10 or 15");
  }
  return true;
}

/* The line `refused NUMBER at OFFSET`, as a run from either start answers. */
static bool take_refusal(struct reader *reader, struct stored *stored)
{
  size_t number;
  struct range offsets = { "an offset", 0, LISTING_LONGEST_TRACE - 1, "" };
  if (!take_refused_number(reader, &number)
      || !take_word(reader, " at ", "at and an offset")
      || !take_number(reader, offsets, &stored->offset)) {
    return false;
  }
  stored->number = (uint8_t)number;
  return take_newline(reader, "the end of the line");
}

/* Whether a listing is of a wide frame: its head says so, which comes after the
** line of a refusal, if there is one; without a head it is as expected. */
static bool is_wide(struct reader reader)
{
  if (stands(&reader, "refused ")) {
    while (reader.at < reader.length && reader.text[reader.at] != '\n') {
      reader.at++;
    }
    passes(&reader, "\n");
  }
  return stands(&reader, wide_head)
         || (reader.wanted_wide && !stands(&reader, head));
}

/* The lines before the first row. */
static bool take_head(struct reader *reader, struct stored *stored)
{
  char expected[64];
  if (stands(reader, too_long)) {
    return fault_at(reader, "a frame, which list prints of no trace above"
                            " 65,536 bytes (diff takes the trace itself)");
  }
  bool refused = passes(reader, "refused ");
  if (refused && !take_refusal(reader, stored)) {
    return false;
  }
  const char *wanted = reader->wide ? wide_head : head;
  snprintf(expected, sizeof expected, "\"%s\"%s", wanted,
           refused ? "" : " or \"refused NUMBER at OFFSET\"");
  return take_word(reader, wanted, expected)
         && take_newline(reader, "the end of the line");
}

/* ---- a listing ---- */

bool stored_begins(const uint8_t *text, size_t length)
{
  struct reader reader = { .text = text, .length = length };
  return stands(&reader, "frame ") || stands(&reader, "refused ")
         || stands(&reader, too_long);
}

/* Reads a listing where one of a wide frame is expected, or is not. */
static bool read_listing(struct stored *stored, const uint8_t *text,
                         size_t length, bool wide, struct fault *fault)
{
  struct reader reader = { .text = text, .length = length, .line = 1,
                           .wanted_wide = wide, .fault = fault };
  size_t least = 0;
  reader.wide = is_wide(reader);
  *stored = (struct stored){ .wide = reader.wide, .number = SSD1815B_TAKEN };
  if (!take_head(&reader, stored)) {
    return false;
  }
  while (!passes(&reader, "end")) {
    if (!take_row(&reader, stored->frame, &least)) {
      return false;
    }
  }
  if (!take_newline(&reader, "the end of the line")) {
    return false;
  }
  return reader.at == reader.length
         || fault_at(&reader, "nothing after end");
}

bool stored_read(struct stored *stored, const uint8_t *text, size_t length,
                 struct fault *fault)
{
  return read_listing(stored, text, length, false, fault);
}

bool stored_read_wide(struct stored *stored, const uint8_t *text,
                      size_t length, struct fault *fault)
{
  return read_listing(stored, text, length, true, fault);
}
