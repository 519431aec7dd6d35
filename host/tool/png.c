/*
** PNG by stb_image_write.h of Debian's libstb-dev, where that is there.
*/
#include "colours.h"
#include "picture.h"

#if !defined WITHOUT_PNG && defined __has_include
#if __has_include(<stb/stb_image_write.h>)
#define WITH_PNG
#endif
#endif

#ifdef WITH_PNG

#include <stdlib.h>
#include <string.h>

#define STB_IMAGE_WRITE_IMPLEMENTATION
#define STB_IMAGE_WRITE_STATIC
#include <stb/stb_image_write.h>

enum { WHITE = 255 };

bool png_built(void)
{
  return true;
}

static void put(void *out, void *bytes, int size)
{
  fwrite(bytes, 1, (size_t)size, out);
}

/* Puts the bytes of a dot. */
typedef void dot(uint8_t *bytes, const struct image *image, unsigned x,
                 unsigned y);

/* A picture of so many bytes to a dot. */
static bool write_dots(FILE *out, const struct image *image, dot *put_dot,
                       unsigned bytes)
{
  unsigned scale = image->scale;
  unsigned width = picture_width(image) * scale;
  unsigned height = PICTURE_HEIGHT * scale;
  size_t size = (size_t)width * height;
  uint8_t *dots = malloc(size * bytes);
  if (dots == NULL) {
    return false;
  }
  for (size_t i = 0; i < size; i++) {
    unsigned x = (unsigned)(i % width) / scale;
    unsigned y = (unsigned)(i / width) / scale;
    put_dot(dots + i * bytes, image, x, y);
  }
  int done = stbi_write_png_to_func(put, out, (int)width, (int)height,
                                    (int)bytes, dots, (int)(width * bytes));
  free(dots);
  return done != 0;
}

/* Lit dots are black. */
static void put_gray(uint8_t *bytes, const struct image *image, unsigned x,
                     unsigned y)
{
  *bytes = picture_lit(image, x, y) ? 0 : WHITE;
}

bool png_write(FILE *out, const struct image *image)
{
  return write_dots(out, image, put_gray, 1);
}

static void put_colour(uint8_t *bytes, const struct image *image, unsigned x,
                       unsigned y)
{
  memcpy(bytes, colour_at(image, x, y), COLOUR_BYTES);
}

bool png_write_colours(FILE *out, const struct image *image)
{
  return write_dots(out, image, put_colour, COLOUR_BYTES);
}

#else

bool png_built(void)
{
  return false;
}

bool png_write(FILE *out, const struct image *image)
{
  (void)out;
  (void)image;
  return false;
}

bool png_write_colours(FILE *out, const struct image *image)
{
  return png_write(out, image);
}

#endif
