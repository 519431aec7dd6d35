/*
** A picture in colours of where two screens differ.
*/
#ifndef COLOURS_H
#define COLOURS_H

#include "picture.h"

/* Bytes to a dot: red, green and blue. */
enum { COLOUR_BYTES = 3 };

/* The colour of the dot at this place of the picture; the image's places are
** the marks of differences_mark(). */
const uint8_t *colour_at(const struct image *image, unsigned x, unsigned y);

/* The picture as a PPM file. */
void ppm_write(FILE *out, const struct image *image);

/* The picture as a PNG file; false if there is no room to make it. */
bool png_write_colours(FILE *out, const struct image *image);

#endif
