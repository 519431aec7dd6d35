#include "origin.h"

#include "codes.h"
#include "excerpt.h"
#include "replay.h"

/* The event that is looked for, whose, and the column about it. */
struct origin {
  struct event event;
  enum side side;
  uint8_t from;
  uint8_t to;
};

/* Keeps the last event after which a code is awaited. */
static void see_code(const struct event *event, void *context)
{
  struct origin *origin = context;
  if (event->side == origin->side
      && event->after[SSD1815B_AWAITED_CODE] != 0) {
    origin->event = *event;
  }
}

/* Keeps the last event that took the column above 131. */
static void see_column(const struct event *event, void *context)
{
  struct origin *origin = context;
  uint8_t from = event->before[SSD1815B_COLUMN];
  uint8_t to = event->after[SSD1815B_COLUMN];
  if (event->side == origin->side && from < SSD1815B_COLUMNS
      && to >= SSD1815B_COLUMNS) {
    *origin = (struct origin){ *event, event->side, from, to };
  }
}

static void print_bytes(FILE *out, const struct played *played,
                        const struct event *event)
{
  fputs("  ", out);
  excerpt_print(out, played, event->first, event->next, event->offset);
}

void origin_print_code(FILE *out, const struct played *played, enum side side)
{
  struct origin origin = { .side = side };
  replay(played, see_code, &origin);
  uint8_t code = played->chips[side].state[SSD1815B_AWAITED_CODE];
  fprintf(out, "  awaited is the n of %02X (%s), a command byte, since %zu"
          " (0x%zX) in record %zu\n", code, code_of(code)->name,
          origin.event.offset, origin.event.offset, origin.event.record);
  print_bytes(out, played, &origin.event);
}

void origin_print_column(FILE *out, const struct played *played,
                         enum side side)
{
  struct origin origin = { .side = side };
  replay(played, see_column, &origin);
  uint8_t byte = played->trace[origin.event.offset];
  fprintf(out, "  the column is %u, above 131 since %zu (0x%zX) in record %zu:"
          " %02X (%s) made it %u from %u\n",
          played->chips[side].state[SSD1815B_COLUMN], origin.event.offset,
          origin.event.offset, origin.event.record, byte, code_of(byte)->name,
          origin.to, origin.from);
  print_bytes(out, played, &origin.event);
}
