/*
** compare: the library beside the oracle.  See usage below.
*/
#include <stdbool.h>
#include <stdio.h>
#include <stdlib.h>
#include <string.h>

#include "cases.h"
#include "report.h"
#include "ssd1815b.h"
#include "stream.h"
#include "tally.h"

static const char usage[] =
  "usage: compare [--shown-by COMMAND]\n"
  "               [--at-least EVENTS FRAMES WIDE-EVENTS WIDE-FRAMES] < STREAM\n"
  "\n"
  "Makes every call of the oracle's stream of cases (oracle/README.md) on the\n"
  "library, and compares all that it answers and leaves.\n"
  "\n"
  "  --shown-by COMMAND         what shows a case of the stream, printed with\n"
  "                             a difference\n"
  "  --at-least ...             fewer single events or drawn frames, of one\n"
  "                             chip and of two, or a number that no call\n"
  "                             gave, are a failure\n"
  "\n"
  "Status 0: all is the same.  1: something differs.  2: not a stream, or a\n"
  "wrong command line.\n";

/* What there has to be enough of. */
enum { EVENTS, FRAMES, WIDE_EVENTS, WIDE_FRAMES, AMOUNTS };

struct options {
  const char *shown_by;
  bool at_least;
  unsigned long least[AMOUNTS];
};

static _Noreturn void wrong_command_line(void)
{
  fputs(usage, stderr);
  exit(2);
}

static unsigned long number_of(const char *text)
{
  char *end;
  unsigned long number = strtoul(text, &end, 10);
  if (*text == '\0' || *end != '\0') {
    wrong_command_line();
  }
  return number;
}

static struct options options_of(int argc, char **argv)
{
  struct options options = { "oracle show < STREAM", false, { 0 } };
  for (int i = 1; i < argc; i++) {
    if (strcmp(argv[i], "--help") == 0) {
      fputs(usage, stdout);
      exit(0);
    } else if (strcmp(argv[i], "--shown-by") == 0 && i + 1 < argc) {
      options.shown_by = argv[++i];
    } else if (strcmp(argv[i], "--at-least") == 0 && i + AMOUNTS < argc) {
      options.at_least = true;
      for (int amount = 0; amount < AMOUNTS; amount++) {
        options.least[amount] = number_of(argv[++i]);
      }
    } else {
      wrong_command_line();
    }
  }
  return options;
}

static unsigned long events_compared(void)
{
  return tally_all(CALL_COMMAND) + tally_all(CALL_WRITE)
         + tally_all(CALL_READ) + tally_all(CALL_RESET);
}

static unsigned long wide_events_compared(void)
{
  return tally_all(CALL_WIDE_COMMAND) + tally_all(CALL_WIDE_WRITE)
         + tally_all(CALL_WIDE_READ) + tally_all(CALL_WIDE_RESET);
}

/* The cases, by their tags. */
static const struct {
  const char *what;
  void (*compare)(struct body *);
} tags[] = {
  [TAG_SINGLE] = { "a single event", compare_single },
  [TAG_SEQUENCE] = { "a sequence of events", compare_sequence },
  [TAG_RUN] = { "a run", compare_run },
  [TAG_DRAW] = { "a drawing", compare_draw },
  [TAG_LISTING] = { "a listing", compare_listing },
  [TAG_FRAMES] = { "two frames", compare_frames },
  [TAG_MEMORIES] = { "two memories", compare_memories },
  [TAG_START] = { "a start", compare_start },
  [TAG_WIDE_EVENT] = { "a wide event", compare_wide_event },
  [TAG_WIDE_RUN] = { "a wide run", compare_wide_run },
  [TAG_WIDE_DRAW] = { "a wide drawing", compare_wide_draw },
  [TAG_PAGE] = { "a page", compare_page },
  [TAG_WIDE_LISTING] = { "a wide listing", compare_wide_listing },
};

/* Compares cases until the end, or until enough differ; how many. */
static unsigned long compare_all(void)
{
  unsigned long cases = 0;
  struct body body;
  for (uint8_t tag; (tag = stream_next(&body)) != TAG_END; cases++) {
    if (tag >= sizeof tags / sizeof tags[0] || tags[tag].compare == NULL) {
      fprintf(stderr, "compare: a case of the unknown tag %u\n", tag);
      exit(2);
    }
    report_case(tags[tag].what);
    tags[tag].compare(&body);
    if (report_enough()) {
      fprintf(stderr, "compare: stopped; more may differ\n");
      exit(1);
    }
  }
  uint64_t cases_told = take_u64(&body);
  uint64_t events_told = take_u64(&body);
  take_nothing_more(&body);
  if (report_differences() == 0
      && (cases_told != cases || events_told != events_compared())) {
    fprintf(stderr, "compare: not as many cases and events as the stream"
            " says\n");
    exit(2);
  }
  return cases;
}

/* Prints how many cases of the wide terminal were compared. */
static void print_wide(void)
{
  printf("wide: %lu single events, %lu runs, %lu drawings (%lu frames),"
         " %lu pages, %lu listings\n",
         wide_events_compared(), tally_all(CALL_WIDE_RUN),
         tally_all(CALL_WIDE_DRAW), tally_of(CALL_WIDE_DRAW, SSD1815B_TAKEN),
         tally_all(CALL_WIDE_PAGE),
         tally_all(CALL_WIDE_LIST) + tally_all(CALL_WIDE_LIST_UPRIGHT));
}

/* Prints how often each call gave each number, and how many cases differ. */
static void print_all(uint64_t seed, unsigned long cases)
{
  tally_print();
  print_wide();
  printf("seed %llu: %lu cases, %lu single events, %lu runs, %lu drawings"
         " (%lu frames), %lu listings, %lu pairs of frames, %lu of memories"
         " compared, %lu starts: %u cases differ\n",
         (unsigned long long)seed, cases, events_compared(),
         tally_all(CALL_RUN), tally_all(CALL_DRAW),
         tally_of(CALL_DRAW, SSD1815B_TAKEN),
         tally_all(CALL_LIST) + tally_all(CALL_LIST_UPRIGHT),
         tally_all(CALL_FRAMES), tally_all(CALL_MEMORIES),
         tally_all(CALL_START) + tally_all(CALL_START_UPRIGHT),
         report_differences());
}

/* Whether there was enough of all; says what not. */
static bool compared_enough(const unsigned long *least)
{
  const struct {
    const char *what;
    unsigned long compared;
  } amounts[AMOUNTS] = {
    [EVENTS] = { "single events", events_compared() },
    [FRAMES] = { "frames", tally_of(CALL_DRAW, SSD1815B_TAKEN) },
    [WIDE_EVENTS] = { "wide events", wide_events_compared() },
    [WIDE_FRAMES] = { "wide frames", tally_of(CALL_WIDE_DRAW, SSD1815B_TAKEN) },
  };
  bool enough = true;
  for (int amount = 0; amount < AMOUNTS; amount++) {
    if (amounts[amount].compared < least[amount]) {
      fprintf(stderr, "compare: fewer than %lu %s\n", least[amount],
              amounts[amount].what);
      enough = false;
    }
  }
  return enough;
}

int main(int argc, char **argv)
{
  struct options options = options_of(argc, argv);
  report_begin(options.shown_by);
  events_open();
  runs_open();
  draws_open();
  listings_open();
  differences_open();
  starts_open();
  chips_open();
  wide_events_open();
  pages_open();

  uint64_t seed = stream_begin();
  unsigned long cases = compare_all();
  print_all(seed, cases);

  if (report_differences() > 0) {
    return 1;
  }
  if (options.at_least
      && (!compared_enough(options.least) || !tally_complete())) {
    return 1;
  }
  return 0;
}
