#include "numbers.h"

/* The sheet's Test Mode Reset. */
enum { TEST_MODE_RESET = 0xF0 };

static const char *const meanings[] = {
  [SSD1815B_TAKEN] = "taken",
  [SSD1815B_TOO_SHORT] = "a lent state, memory or frame is too short",
  [SSD1815B_OUT_OF_RANGE] = "the state image is out of its ranges",
  [SSD1815B_OUTSIDE_TABLE] =
    "a command byte outside the table, with no code awaited",
  [SSD1815B_NO_PAGE] = "B9 to BF name no page",
  [SSD1815B_NOT_ALLOWED] = "n of D3 or D4 not allowed; the code stays awaited",
  [SSD1815B_CODE_AWAITED] = "a data write or read while a code is awaited",
  [SSD1815B_COLUMN_ABOVE] = "a data write or read with column above 131",
  [SSD1815B_HEADER_CUT] =
    "one to three bytes left where a header should stand, or payload past the"
    " end",
  [SSD1815B_KIND_UNKNOWN] = "kind not 1 to 4, or kind 4 with a payload",
  [SSD1815B_READ_DIFFERS] =
    "a compared read differs; that read has not happened",
  [SSD1815B_LIST_TOO_SMALL] = "a list buffer is too small for all entries",
  [SSD1815B_FRAME_BYTE_ABOVE] = "a byte of a frame is above 1",
  [SSD1815B_NO_SELECTION] =
    "a select record's payload is not one byte of 1 to 3",
  [SSD1815B_BOTH_SELECTED] = "a data read with both chips selected",
  [SSD1815B_TEST_MODE] = "a command byte of test mode, with no code awaited",
};

_Static_assert(sizeof meanings / sizeof *meanings == SSD1815B_LAST_NUMBER + 1,
               "the last number is here");

const char *number_meaning(const struct played *played)
{
  if (played->wide && played->number == SSD1815B_KIND_UNKNOWN) {
    return "kind not 1 to 5, or kind 4 with a payload";
  }
  return played->number < sizeof meanings / sizeof *meanings
           && meanings[played->number] != NULL
           ? meanings[played->number] : "not a number of document 01 or 02";
}

void test_mode_print(FILE *out, const char *where, uint8_t byte)
{
  fprintf(out, "  %s%02X would put a real chip into test mode%s\n", where, byte,
          byte == TEST_MODE_RESET
            ? ", or out of it: its sheet says Test Mode Reset" : "");
}

void number_print(FILE *out, const char *name, const struct played *played)
{
  fprintf(out, "%s: refused %u at %zu: %s\n", name, played->number,
          played->offset, number_meaning(played));
}
