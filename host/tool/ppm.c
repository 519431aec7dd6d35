#include "colours.h"

#include "differences.h"

/* White, gray, blue and orange: on paper, in gray and to most who do not see
** all colours they are four. */
static const uint8_t colours[MARKS][COLOUR_BYTES] = {
  [DARK_IN_BOTH] = { 0xFF, 0xFF, 0xFF },
  [LIT_IN_BOTH] = { 0xCC, 0xCC, 0xCC },
  [LIT_IN_FIRST] = { 0x00, 0x72, 0xB2 },
  [LIT_IN_SECOND] = { 0xE6, 0x9F, 0x00 },
};

const uint8_t *colour_at(const struct image *image, unsigned x, unsigned y)
{
  const uint8_t *place = picture_place(image, x, y);
  return colours[place != NULL ? *place : DARK_IN_BOTH];
}

void ppm_write(FILE *out, const struct image *image)
{
  unsigned scale = image->scale;
  unsigned width = picture_width(image) * scale;
  unsigned height = PICTURE_HEIGHT * scale;
  fprintf(out, "P6\n%u %u\n255\n", width, height);
  for (unsigned y = 0; y < height; y++) {
    for (unsigned x = 0; x < width; x++) {
      fwrite(colour_at(image, x / scale, y / scale), 1, COLOUR_BYTES, out);
    }
  }
}
