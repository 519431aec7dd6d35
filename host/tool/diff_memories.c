#include "diff.h"

#include "plural.h"

/* A byte that differs, as ssd1815b_compare_memories() lists it. */
static void print_byte(FILE *out, const uint8_t *entry)
{
  size_t place = (size_t)entry[0] | (size_t)entry[1] << 8;
  size_t page = place / SSD1815B_COLUMNS;
  fprintf(out, "page %zu%s, column %zu: %02X, then %02X\n", page,
          page == SSD1815B_ICON_PAGE ? " (the icon line)" : "",
          place % SSD1815B_COLUMNS, entry[2], entry[3]);
}

/* How many pages have a byte of the list. */
static size_t pages_in(const uint8_t *list, size_t count)
{
  size_t pages = 0;
  size_t last = SSD1815B_PAGES;
  for (size_t i = 0; i < count; i++) {
    const uint8_t *entry = list + i * SSD1815B_MEMORY_ENTRY_SIZE;
    size_t page = ((size_t)entry[0] | (size_t)entry[1] << 8)
                  / SSD1815B_COLUMNS;
    pages += page != last;
    last = page;
  }
  return pages;
}

/* What is said of all bytes. */
static void print_summary(FILE *out, const uint8_t *list, size_t count)
{
  size_t pages = pages_in(list, count);
  if (count == 0) {
    fputs("the same, no byte of memory differs", out);
  } else {
    fprintf(out, "%zu byte%s of memory differ%s, in %zu page%s", count,
            plural(count), count == 1 ? "s" : "", pages, plural(pages));
  }
}

size_t diff_memories(FILE *out, const struct options *options, enum side side,
                     const struct screen *first, const struct screen *second)
{
  static uint8_t list[SSD1815B_MEMORY_LIST_SIZE];
  const struct chip *one = &first->played.chips[side];
  const struct chip *other = &second->played.chips[side];
  size_t count;
  /* The sizes are right, so this does not refuse. */
  ssd1815b_compare_memories(one->memory, sizeof one->memory, other->memory,
                            sizeof other->memory, list, sizeof list, &count);
  for (size_t i = 0; i < count && !options->brief; i++) {
    diff_side(out, options, side, "chip, ");
    print_byte(out, list + i * SSD1815B_MEMORY_ENTRY_SIZE);
  }
  diff_side(out, options, side, "chip: ");
  print_summary(out, list, count);
  return count;
}
