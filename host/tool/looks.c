#include "looks.h"

#include <string.h>

#include "kinds.h"

/* What a file begins with, what it then looks like, and what to do. */
static const struct beginning {
  const char *bytes;
  const char *words;
} beginnings[] = {
  { "\x89PNG", "a PNG picture; a trace is wanted, as picture takes one" },
  { "P4", "a PBM picture; a trace is wanted, as picture takes one" },
  { "P1", "a PBM picture; a trace is wanted, as picture takes one" },
  { "frame 132 65", "a listing, as list prints it, which diff alone takes; the"
                    " trace that it was printed for is wanted" },
  { "frame 264 65", "a listing, as list --wide prints it, which diff --wide"
                    " alone takes; the trace that it was printed for is"
                    " wanted" },
  { "refused ", "a listing, as list prints it, which diff alone takes; the"
                " trace that it was printed for is wanted" },
  { "\x1F\x8B", "a gzip file; gunzip it first" },
  { "PK\x03\x04", "a ZIP file; unzip it first" },
};

/* What the bytes begin with, or null. */
static const char *begins_as(const uint8_t *bytes, size_t length)
{
  for (size_t i = 0; i < sizeof beginnings / sizeof *beginnings; i++) {
    size_t needed = strlen(beginnings[i].bytes);
    if (length >= needed && memcmp(bytes, beginnings[i].bytes, needed) == 0) {
      return beginnings[i].words;
    }
  }
  return NULL;
}

bool looks_text(const uint8_t *bytes, size_t length)
{
  size_t looked_at = length < LOOKED_AT ? length : LOOKED_AT;
  size_t other = 0;
  for (size_t i = 0; i < looked_at; i++) {
    bool space = bytes[i] == '\t' || bytes[i] == '\n' || bytes[i] == '\r';
    if ((bytes[i] < ' ' && !space) || bytes[i] == 0x7F) {
      return false;
    }
    other += bytes[i] > 0x7F;
  }
  return other <= looked_at / 4;
}

/* Whether all bytes are the same; there is at least one. */
static bool is_one_byte(const uint8_t *bytes, size_t length)
{
  size_t i = 1;
  while (i < length && bytes[i] == bytes[0]) {
    i++;
  }
  return i == length;
}

bool looks_wide(const struct played *played)
{
  const uint8_t *header = played->trace + played->offset;
  return !played->wide && played->number == SSD1815B_KIND_UNKNOWN
         && header[2] == KIND_SELECT && header[3] == 0;
}

/* What the first header of a trace says that no header can; one of kind 5 is of
** a trace, played wide or not. */
static const char *first_header(const uint8_t *header, bool wide)
{
  bool kind = header[3] == 0 && header[2] >= KIND_COMMANDS
              && header[2] <= KIND_SELECT;
  bool turned = header[2] == 0 && header[3] >= KIND_COMMANDS
                && header[3] <= KIND_SELECT;
  if (kind) {
    return NULL;
  }
  if (turned) {
    return "a trace whose numbers have their higher byte first; they are wanted"
           " with the lower byte first";
  }
  return wide ? "no trace: a record begins with the length of its payload and"
                " its kind, 1 to 5,\n  two bytes each, the lower byte first"
              : "no trace: a record begins with the length of its payload and"
                " its kind, 1 to 4,\n  two bytes each, the lower byte first";
}

/* What the whole input looks like, or null. */
static const char *whole_input(const uint8_t *bytes, size_t length, bool wide)
{
  const char *words = begins_as(bytes, length);
  if (words == NULL && looks_text(bytes, length)) {
    words = "text; if it is the source of a trace, traces/make.py FILE.txt"
            " makes FILE.trace of it";
  }
  return words != NULL ? words : first_header(bytes, wide);
}

void looks_print(FILE *out, const struct played *played, size_t first)
{
  const uint8_t *bytes = played->trace + first;
  size_t length = played->trace_len - first;
  if (length < HEADER_SIZE) {
    return;
  }
  if (is_one_byte(bytes, length)) {
    fprintf(out, "  every byte read from there on is %02X (hex): filling, or a"
            " recording that ended before\n", bytes[0]);
    return;
  }
  if (looks_wide(played)) {
    fputs("  " LOOKS_WIDE "\n", out);
    return;
  }
  const char *words = first == 0 ? whole_input(bytes, length, played->wide)
                                 : NULL;
  if (words != NULL) {
    fprintf(out, "  this looks like %s\n", words);
  }
}
