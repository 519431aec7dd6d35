#include "edge.h"

void edge_print(FILE *out, const char *left, size_t width, const char *right)
{
  fputs(left, out);
  for (size_t x = 0; x < width; x++) {
    fputs("─", out);
  }
  fputs(right, out);
  fputs("\n", out);
}
