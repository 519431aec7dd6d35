#define _POSIX_C_SOURCE 200809L /* fileno, fstat, isatty */
#include "input.h"

#include <errno.h>
#include <stdlib.h>
#include <string.h>
#include <sys/stat.h>
#include <unistd.h>

static bool is_standard(const struct input *input)
{
  return input->file == stdin;
}

bool input_open(struct input *input, const char *name)
{
  bool standard = strcmp(name, "-") == 0;
  *input = (struct input){ .name = name };
  input->file = standard ? stdin : fopen(name, "rb");
  if (input->file == NULL) {
    fprintf(stderr, "ssd1815b: cannot open %s: %s\n", name, strerror(errno));
    return false;
  }
  struct stat about;
  if (fstat(fileno(input->file), &about) == 0 && S_ISREG(about.st_mode)) {
    input->size = (size_t)about.st_size;
  }
  if (standard && isatty(STDIN_FILENO)) {
    fputs("ssd1815b: waiting for the bytes of a trace on standard input, which"
          " is this terminal;\nCtrl-D ends them, Ctrl-C leaves, and"
          " ssd1815b --help says how a file is named\n", stderr);
  }
  return true;
}

/* Room for so many more bytes; false if there is none. */
static bool make_room(struct input *input, size_t more)
{
  if (input->room - input->length >= more) {
    return true;
  }
  size_t room = 2 * input->room + more;
  uint8_t *bytes = realloc(input->bytes, room);
  if (bytes == NULL) {
    return false;
  }
  input->bytes = bytes;
  input->room = room;
  return true;
}

bool input_more(struct input *input, size_t most)
{
  if (input->ended) {
    return true;
  }
  bool done = make_room(input, most);
  if (done) {
    errno = 0;
    input->length += fread(input->bytes + input->length, 1, most, input->file);
    input->ended = feof(input->file) != 0;
    done = ferror(input->file) == 0;
  }
  if (!done) {
    fprintf(stderr, "ssd1815b: cannot read %s: %s\n",
            is_standard(input) ? "standard input" : input->name,
            strerror(errno));
  }
  return done;
}

void input_close(struct input *input)
{
  free(input->bytes);
  if (!is_standard(input)) {
    fclose(input->file);
  }
}
