#include "stop.h"

#include "codes.h"
#include "excerpt.h"
#include "kinds.h"
#include "looks.h"
#include "numbers.h"
#include "origin.h"
#include "plural.h"
#include "sides.h"

/* The record in which a run stopped. */
struct record {
  size_t first;    /* its first byte */
  size_t length;   /* of its payload, as its header says; 0 if there is none */
  size_t kind;
  size_t end;      /* of it, or of the trace where that is cut */
};

static size_t two_bytes(const uint8_t *bytes)
{
  return (size_t)bytes[0] | (size_t)bytes[1] << 8;
}

/* The record after count whole ones. */
static struct record record_at(const struct played *played)
{
  size_t found;
  size_t first = records_end(played->trace, played->trace_len, played->count,
                             &found);
  struct record record = { first, 0, 0, played->trace_len };
  if (played->trace_len - first >= HEADER_SIZE) {
    record.length = two_bytes(played->trace + first);
    record.kind = two_bytes(played->trace + first + 2);
  }
  if (played->trace_len - first >= HEADER_SIZE + record.length) {
    record.end = first + HEADER_SIZE + record.length;
  }
  return record;
}

static const char *kind_name(size_t kind)
{
  static const char *const names[] = {
    "no kind", "command bytes", "data written", "data read", "the reset pin"
  };
  return names[kind <= KIND_RESET_PIN ? kind : 0];
}

/* The codes of document 01's table on either side of one outside it. */
static void print_neighbours(FILE *out, uint8_t byte)
{
  const struct code *below = code_below(byte);
  const struct code *above = code_above(byte);
  fprintf(out, "  %02X is no command: ", byte);
  if (above != NULL) {
    fprintf(out, "%02X (%s) and %02X (%s) are the neighbours\n", below->last,
            below->name, above->first, above->name);
  } else {
    fprintf(out, "%02X (%s) is the neighbour below, and none is above\n",
            below->last, below->name);
  }
}

/* What n the awaited code takes. */
static void print_limit(FILE *out, uint8_t code, uint8_t n)
{
  const struct code *row = code_of(code);
  fprintf(out, "  %02X (%s) takes %s, got %02X\n", code, row->name, row->takes,
          n);
}

/* The recorded byte beside the one that the model reads. */
static void print_read(FILE *out, const struct played *played,
                       const uint8_t *image)
{
  fprintf(out, "  recorded is %02X, the model reads %02X (hex), at page %u,"
          " column %u\n", played->trace[played->offset], model_reads(played),
          image[SSD1815B_PAGE], image[SSD1815B_COLUMN]);
}

/* What a select record has in the place of one byte of 1 to 3. */
static void print_select(FILE *out, const struct played *played,
                         struct record record)
{
  if (record.length == 1) {
    fprintf(out, "  the payload is %02X; 01 selects left, 02 right, 03 both\n",
            played->trace[record.first + HEADER_SIZE]);
  } else {
    fprintf(out, "  the header says %zu byte%s of payload; a select record has"
            " one, 01 for left, 02 for right, 03 for both\n", record.length,
            plural(record.length));
  }
}

/* What a read wants that both chips would answer. */
static void print_read_of_both(FILE *out, const struct played *played)
{
  fputs("  a read is from one chip: a select record before it names the left"
        " (01) or the right (02)\n", out);
  if (!is_selected_by_record(played)) {
    fputs("  no record selected anything before: if this is the trace of one"
          " chip, it is played without --wide\n", out);
  }
}

/* What a header says that is refused. */
static void print_header(FILE *out, const struct played *played,
                         struct record record)
{
  size_t left = played->trace_len - record.first;
  if (played->number == SSD1815B_KIND_UNKNOWN) {
    fprintf(out, "  the header says kind %zu, %zu byte%s of payload\n",
            record.kind, record.length, plural(record.length));
  } else if (left < HEADER_SIZE) {
    fprintf(out, "  left for a header of 4 bytes: %zu\n", left);
  } else {
    fprintf(out, "  the header says %zu byte%s of payload; left: %zu\n",
            record.length, plural(record.length), left - HEADER_SIZE);
  }
  looks_print(out, played, record.first);
}

/* Whether a run stopped at a record's header, and not at a byte of it. */
static bool at_header(const struct played *played)
{
  return played->number == SSD1815B_HEADER_CUT
         || played->number == SSD1815B_KIND_UNKNOWN
         || played->number == SSD1815B_NO_SELECTION;
}

bool stop_at_chips(const struct played *played)
{
  return played->wide && played->number != SSD1815B_TAKEN
         && !at_header(played);
}

/* The chips of a wide terminal there; a read of both is asked of neither.  more
** tells whether more of the one that refused follows. */
static void print_chips(FILE *out, const struct played *played,
                        struct record record, bool more)
{
  selection_print(out, played);
  if (played->number != SSD1815B_BOTH_SELECTED) {
    refusing_print(out, played, record.kind, more);
  }
}

void stop_print_chips(FILE *out, const struct played *played)
{
  print_chips(out, played, record_at(played), false);
}

/* What a chip holds there, where that tells more than the number, and what it
** would have taken. */
static void print_chip(FILE *out, const struct played *played, enum side side)
{
  const uint8_t *image = played->chips[side].state;
  uint8_t byte = played->trace[played->offset];
  switch (played->number) {
  case SSD1815B_OUTSIDE_TABLE:
    print_neighbours(out, byte);
    break;
  case SSD1815B_TEST_MODE:
    test_mode_print(out, "", byte);
    break;
  case SSD1815B_NO_PAGE:
    fputs("  B0 to B8 are the pages\n", out);
    break;
  case SSD1815B_NOT_ALLOWED:
    print_limit(out, image[SSD1815B_AWAITED_CODE], byte);
    origin_print_code(out, played, side);
    break;
  case SSD1815B_CODE_AWAITED:
    origin_print_code(out, played, side);
    break;
  case SSD1815B_COLUMN_ABOVE:
    origin_print_column(out, played, side);
    break;
  case SSD1815B_READ_DIFFERS:
    print_read(out, played, image);
    break;
  default:
    break;
  }
}

/* What tells more than the number. */
static void print_particulars(FILE *out, const struct played *played,
                              struct record record)
{
  if (played->number == SSD1815B_NO_SELECTION) {
    print_select(out, played, record);
    return;
  }
  if (at_header(played)) {
    print_header(out, played, record);
    return;
  }
  if (played->wide) {
    print_chips(out, played, record, true);
  }
  if (played->number == SSD1815B_BOTH_SELECTED) {
    print_read_of_both(out, played);
    return;
  }
  print_chip(out, played, refusing_side(played, record.kind));
}

/* The record, and the place in it. */
static void print_place(FILE *out, const struct played *played,
                        struct record record)
{
  if (at_header(played)) {
    fprintf(out, "  record %zu, its header", played->count);
  } else {
    fprintf(out, "  record %zu, %s, payload of %zu byte%s from %zu, its byte"
            " %zu is %02X (hex)", played->count, kind_name(record.kind),
            record.length, plural(record.length), record.first + HEADER_SIZE,
            played->offset - record.first - HEADER_SIZE,
            played->trace[played->offset]);
  }
  fprintf(out, "; records and bytes count from 0\n");
}

void stop_print(FILE *out, const struct played *played)
{
  if (played->number == SSD1815B_TAKEN) {
    return;
  }
  struct record record = record_at(played);
  fprintf(out, "refused %u at %zu (0x%zX): %s\n", played->number,
          played->offset, played->offset, number_meaning(played));
  print_particulars(out, played, record);
  print_place(out, played, record);
  excerpt_print(out, played, record.first, record.end, played->offset);
}
