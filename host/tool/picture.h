/*
** The dots of a picture: the panel rows, a gap, the icon line, and a margin
** round them all.
*/
#ifndef PICTURE_H
#define PICTURE_H

#include <stdbool.h>
#include <stdio.h>

#include "options.h"
#include "ssd1815b.h"

enum {
  PICTURE_MARGIN = 2,
  PICTURE_GAP = 2,
  PICTURE_HEIGHT = SSD1815B_FRAME_ROWS + PICTURE_GAP + 2 * PICTURE_MARGIN
};

/* What a picture is made of. */
struct image {
  const uint8_t *places;  /* a frame, or the marks of one */
  unsigned columns;       /* places to a row of it */
  unsigned scale;         /* each dot is scale by scale */
};

/* The dots of a line, before each is made scale by scale. */
unsigned picture_width(const struct image *image);

/* The place that the dot at this place of the picture shows; null in the margin
** and the gap. */
const uint8_t *picture_place(const struct image *image, unsigned x, unsigned y);

/* Whether the dot at this place of the picture is lit. */
bool picture_lit(const struct image *image, unsigned x, unsigned y);

/* The picture of a frame as a PBM file. */
void pbm_write(FILE *out, const struct image *image);

/* Whether this tool was built with PNG. */
bool png_built(void);

/* The picture as a PNG file; false if there is no room to make it. */
bool png_write(FILE *out, const struct image *image);

/* A form of picture that needs no PNG, and how it and a PNG of the same dots
** are written. */
struct form {
  const char *name;
  const char *ending;
  void (*write)(FILE *out, const struct image *image);
  bool (*write_png)(FILE *out, const struct image *image);
};

/* Writes a picture to the file that the options name, or to standard output.
** Says why it cannot, and answers whether it could. */
bool picture_write(const struct options *options, const struct form *form,
                   const uint8_t *places);

#endif
