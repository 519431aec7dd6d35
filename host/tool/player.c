#include "player.h"

#include "plural.h"
#include "progress.h"

enum { PART = 1 << 20 };

bool play_input(struct played *played, struct input *input,
                const struct options *options)
{
  bool done;
  (options->wide ? play_begin_wide : play_begin)(played, options->hung);
  do {
    done = input_more(input, PART);
    if (done) {
      play_on(played, input->bytes, input->length, input->ended,
              options->records);
      progress("played", played->offset, input->size);
    }
  } while (done && played->number == SSD1815B_TAKEN && !input->ended
           && played->count < options->records);
  progress_end();
  play_end(played);
  return done;
}

void tell_fewer(const struct played *played, const char *name, size_t records)
{
  if (records != ALL_RECORDS && played->number == SSD1815B_TAKEN
      && played->count < records) {
    fprintf(stderr, "ssd1815b: --after %zu: %s has %zu record%s, and all of it"
            " is played\n", records, name, played->count,
            plural(played->count));
  }
}
