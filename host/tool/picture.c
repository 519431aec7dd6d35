#define _POSIX_C_SOURCE 200809L /* isatty */
#include "picture.h"

#include <errno.h>
#include <stdlib.h>
#include <string.h>
#include <unistd.h>

#include "commands.h"
#include "stop.h"

unsigned picture_width(const struct image *image)
{
  return image->columns + 2 * PICTURE_MARGIN;
}

const uint8_t *picture_place(const struct image *image, unsigned x, unsigned y)
{
  enum { ICONS = PICTURE_MARGIN + SSD1815B_ROWS + PICTURE_GAP };
  unsigned column = x - PICTURE_MARGIN;
  unsigned row = y == ICONS ? SSD1815B_ICON_ROW : y - PICTURE_MARGIN;
  /* A place of the margin is a large number here. */
  return column < image->columns && (row < SSD1815B_ROWS || y == ICONS)
           ? image->places + row * image->columns + column : NULL;
}

bool picture_lit(const struct image *image, unsigned x, unsigned y)
{
  const uint8_t *place = picture_place(image, x, y);
  return place != NULL && *place == 1;
}

bool picture_has_place(const struct options *options)
{
  if (options->output == NULL && isatty(STDOUT_FILENO)) {
    fputs("ssd1815b: a picture is no text for a terminal: -o FILE.png or"
          " > FILE.pbm\n", stderr);
    return false;
  }
  return true;
}

/* The file that a picture goes to, by its name; without PNG in the tool it is
** one of the other form beside the file that was asked for. */
static FILE *open_output(const struct options *options,
                         const struct form *form)
{
  if (options->output == NULL) {
    return stdout;
  }
  const char *ending = options->png && !png_built() ? form->ending : "";
  size_t size = strlen(options->output) + strlen(ending) + 1;
  char *name = malloc(size);
  if (name == NULL) {
    return NULL;
  }
  snprintf(name, size, "%s%s", options->output, ending);
  FILE *out = fopen(name, "wb");
  free(name);
  return out;
}

/* Says that there is no PNG in this tool. */
static void tell_without_png(const struct options *options,
                             const struct form *form)
{
  fprintf(stderr, "ssd1815b: built without PNG (Debian's libstb-dev was"
          " missing): a %s is written", form->name);
  if (options->output != NULL) {
    fprintf(stderr, " to %s%s", options->output, form->ending);
  }
  fputs("\n", stderr);
}

bool picture_write(const struct options *options, const struct form *form,
                   const uint8_t *places)
{
  const char *name = options->output == NULL ? "standard output"
                                             : options->output;
  struct image image = { places, (unsigned)columns_of(options->wide),
                         options->scale };
  bool png = options->png && png_built();
  if (options->png && !png) {
    tell_without_png(options, form);
  }
  FILE *out = open_output(options, form);
  bool done = out != NULL;
  if (done && png) {
    done = form->write_png(out, &image);
  } else if (done) {
    form->write(out, &image);
  }
  done = done && fflush(out) == 0 && !ferror(out);
  if (out != NULL && out != stdout) {
    done = fclose(out) == 0 && done;
  }
  if (!done) {
    fprintf(stderr, "ssd1815b: cannot write %s: %s\n", name, strerror(errno));
  }
  return done;
}

enum status picture(const struct options *options, const struct played *played)
{
  static const struct form form = { "PBM", ".pbm", pbm_write, png_write };
  bool done = picture_write(options, &form, played->frame);
  stop_print(stderr, played);
  return done ? status_of(played) : FAILED;
}
