#include "excerpt.h"

enum { AROUND = 12 };

void excerpt_print(FILE *out, const struct played *played, size_t first,
                   size_t end, size_t place)
{
  size_t from = place - first > AROUND ? place - AROUND : first;
  size_t to = end - place > AROUND ? place + AROUND : end;
  fprintf(out, "  in hex, from byte %zu (0x%zX) on:", from, from);
  for (size_t i = from; i < to; i++) {
    fprintf(out, i == place ? " [%02X]" : " %02X", played->trace[i]);
  }
  fprintf(out, "\n");
}
