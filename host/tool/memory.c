#include "commands.h"

#include "kinds.h"
#include "replay.h"
#include "sides.h"
#include "stop.h"

/* Columns to a line: those that have the same high four bits. */
enum { TO_A_LINE = 16 };

static void print_page(FILE *out, const uint8_t *bytes)
{
  for (size_t column = 0; column < SSD1815B_COLUMNS; column++) {
    if (column % TO_A_LINE == 0) {
      fprintf(out, "%s%5zu ", column == 0 ? "" : "\n", column);
    }
    fprintf(out, " %02X", bytes[column]);
  }
  fputs("\n", out);
}

/* A chip's memory, page by page. */
static void print_memory(FILE *out, const struct played *played,
                         enum side side)
{
  if (played->wide) {
    fprintf(out, "%s chip, ", side_name(side));
  }
  fputs("memory in hex; before each line its first column\n", out);
  for (size_t page = 0; page < SSD1815B_PAGES; page++) {
    fprintf(out, "page %zu\n", page);
    print_page(out, played->chips[side].memory + page * SSD1815B_COLUMNS);
  }
}

/* What the lines of the bytes read need. */
struct reads {
  FILE *out;
  const struct played *played;
  size_t count;
};

/* A line for a read; before the first of them what its columns are. */
static void print_read(struct reads *reads, const struct event *event,
                       const char *note)
{
  FILE *out = reads->out;
  bool wide = reads->played->wide;
  if (reads->count++ == 0) {
    fprintf(out, "    offset     record%s  page  column  model  recorded\n",
            wide ? "   chip" : "");
  }
  fprintf(out, "%10zu %10zu ", event->offset, event->record);
  if (wide) {
    fprintf(out, "%6s ", side_name(event->side));
  }
  fprintf(out, "%5u %7u  ", event->before[SSD1815B_PAGE],
          event->before[SSD1815B_COLUMN]);
  fprintf(out, event->dummy == 1 ? "dummy" : "%02X   ", event->byte);
  fprintf(out, "  %02X%s\n", reads->played->trace[event->offset], note);
}

static void see_read(const struct event *event, void *context)
{
  if (event->kind == KIND_READ) {
    print_read(context, event, "");
  }
}

/* The bytes read, the one that differs at the end. */
static void print_reads(FILE *out, const struct played *played)
{
  struct reads reads = { out, played, 0 };
  fputs("bytes read, the model's beside the recorded\n", out);
  replay(played, see_read, &reads);
  if (played->number == SSD1815B_READ_DIFFERS) {
    enum side side = side_read(played);
    struct event differs = { .offset = played->offset, .record = played->count,
                             .side = side,
                             .before = played->chips[side].state,
                             .byte = model_reads(played) };
    print_read(&reads, &differs, " differs, and has not happened");
  }
  if (reads.count == 0) {
    fputs("      none\n", out);
  }
}

void memory(FILE *out, const struct played *played)
{
  for (enum side side = 0; side < sides_of(played->wide); side++) {
    print_memory(out, played, side);
  }
  print_reads(out, played);
  stop_print(out, played);
}
