#include "picture.h"

/* One line of dots, eight to a byte, the leftmost in the highest bit; bits that
** are left over are 0. */
static void put_line(FILE *out, const struct image *image, unsigned y)
{
  unsigned dots = picture_width(image) * image->scale;
  unsigned byte = 0;
  for (unsigned x = 0; x < (dots + 7) / 8 * 8; x++) {
    bool lit = x < dots && picture_lit(image, x / image->scale, y);
    byte = byte << 1 | lit;
    if (x % 8 == 7) {
      putc((int)byte, out);
      byte = 0;
    }
  }
}

void pbm_write(FILE *out, const struct image *image)
{
  unsigned height = PICTURE_HEIGHT * image->scale;
  fprintf(out, "P4\n%u %u\n", picture_width(image) * image->scale, height);
  for (unsigned y = 0; y < height; y++) {
    put_line(out, image, y / image->scale);
  }
}
