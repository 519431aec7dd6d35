#define _POSIX_C_SOURCE 200809L /* sigaction */
#include "report.h"

#include <signal.h>
#include <stdio.h>
#include <string.h>
#include <unistd.h>

#include "registers.h"
#include "ssd1815b.h"

enum { ENOUGH = 10 };

static struct {
  const char *shown_by;
  const char *what;       /* the kind of the case */
  unsigned long number;   /* of the case */
  bool begun;
  const char *call;       /* the call that is made now; null: the event */
  size_t index;
  struct event event;
  bool wide;              /* the event has a selection */
  uint8_t selection;
  unsigned differences;   /* cases that differ */
  bool differs;           /* this case does */
} now;

static void describe_call(char *text, size_t size)
{
  static const char *const names[] = {
    [EVENT_COMMAND] = "command", [EVENT_WRITE] = "write",
    [EVENT_READ] = "read", [EVENT_RESET] = "reset"
  };
  if (now.call != NULL) {
    snprintf(text, size, "%s", now.call);
    return;
  }
  char byte[8] = "";
  if (now.event.kind == EVENT_COMMAND || now.event.kind == EVENT_WRITE) {
    snprintf(byte, sizeof byte, " %02X", now.event.byte);
  }
  if (now.wide) {
    snprintf(text, size, "wide_%s%s, selection %u", names[now.event.kind],
             byte, now.selection);
  } else {
    snprintf(text, size, "event %zu, %s%s", now.index, names[now.event.kind],
             byte);
  }
}

/* Where one is, and how to see the case. */
static void describe(char *text, size_t size)
{
  char call[64];
  describe_call(call, sizeof call);
  snprintf(text, size,
           "case %lu, %s: %s\n"
           "  to show it: %s --from %lu --count 1\n",
           now.number, now.what, call, now.shown_by, now.number);
}

/*
** A step onto a page that may not be touched.  It happens in the library's
** code, at a place of the program that is known, never inside this program's
** own printing; so printing here is safe.
*/
static void stepped_outside(int signal_number)
{
  (void)signal_number;
  static char text[1024];
  int length = snprintf(text, sizeof text,
                        "compare: the library touched what it was not lent: ");
  describe(text + length, sizeof text - (size_t)length);
  ssize_t ignored = write(STDERR_FILENO, text, strlen(text));
  (void)ignored;
  _exit(1);
}

void report_begin(const char *shown_by)
{
  now.shown_by = shown_by;
  struct sigaction action;
  memset(&action, 0, sizeof action);
  action.sa_handler = stepped_outside;
  sigemptyset(&action.sa_mask);
  sigaction(SIGSEGV, &action, NULL);
  sigaction(SIGBUS, &action, NULL);
}

void report_case(const char *what)
{
  if (now.begun) {
    now.number++;
  }
  now.begun = true;
  now.what = what;
  now.differs = false;
}

void report_call(const char *call)
{
  now.call = call;
}

void report_event(size_t index, struct event event)
{
  now.call = NULL;
  now.index = index;
  now.event = event;
  now.wide = false;
}

void report_wide_event(uint8_t selection, struct event event)
{
  now.call = NULL;
  now.event = event;
  now.wide = true;
  now.selection = selection;
}

static void differ(void)
{
  if (!now.differs) {
    char text[1024];
    describe(text, sizeof text);
    fprintf(stderr, "difference: %s", text);
    now.differs = true;
    now.differences++;
  }
}

/* What the bytes of a thing are. */
enum form { ANY_BYTES, IMAGE, MEMORY, FRAME, WIDE_FRAME, RUNS, BYTES };

static const struct {
  const char *name;
  enum form form;
} things[] = {
  [THE_NUMBER] = { "number", ANY_BYTES },
  [THE_BYTE] = { "byte", ANY_BYTES },
  [THE_DUMMY] = { "dummy", ANY_BYTES },
  [THE_OFFSET] = { "offset", ANY_BYTES },
  [THE_COUNT] = { "count", ANY_BYTES },
  [THE_LENGTH] = { "length", ANY_BYTES },
  [THE_STATE] = { "state", IMAGE },
  [THE_MEMORY] = { "memory", MEMORY },
  [THE_FRAME] = { "frame", FRAME },
  [THE_TRACE] = { "trace", ANY_BYTES },
  [THE_TEXT] = { "text", ANY_BYTES },
  [AFTER_THE_TEXT] = { "the text buffer after the text", ANY_BYTES },
  [THE_FIRST_FRAME] = { "first frame", FRAME },
  [THE_SECOND_FRAME] = { "second frame", FRAME },
  [THE_RUNS] = { "list", RUNS },
  [RUNS_PUT_IN] = { "runs that can be put into the first frame", ANY_BYTES },
  [FRAME_WITH_RUNS] = { "first frame with the runs put in", FRAME },
  [THE_FIRST_MEMORY] = { "first memory", MEMORY },
  [THE_SECOND_MEMORY] = { "second memory", MEMORY },
  [THE_BYTES] = { "list", BYTES },
  [BYTES_PUT_IN] = { "bytes that can be put into the first memory", ANY_BYTES },
  [MEMORY_WITH_BYTES] = { "first memory with the bytes put in", MEMORY },
  [AFTER_THE_LIST] = { "the list buffer after the entries", ANY_BYTES },
  [THE_LEFT_STATE] = { "left state", IMAGE },
  [THE_LEFT_MEMORY] = { "left memory", MEMORY },
  [THE_RIGHT_STATE] = { "right state", IMAGE },
  [THE_RIGHT_MEMORY] = { "right memory", MEMORY },
  [THE_WIDE_FRAME] = { "wide frame", WIDE_FRAME },
  [THE_PLACE] = { "place of the page", ANY_BYTES }
};

/* A byte of a thing, by the name that document 01 or Order 1 has for it. */
static void print_place(enum thing thing, size_t place)
{
  static const char *const of_run[SSD1815B_FRAME_ENTRY_SIZE] = {
    [SSD1815B_RUN_ROW] = "row", [SSD1815B_RUN_FIRST] = "first column",
    [SSD1815B_RUN_LAST] = "last column", [SSD1815B_RUN_WAS] = "in the first",
    [SSD1815B_RUN_IS] = "in the second"
  };
  static const char *const of_byte[SSD1815B_MEMORY_ENTRY_SIZE] = {
    "place, low", "place, high", "in the first", "in the second"
  };
  enum form form = things[thing].form;
  fprintf(stderr, "  %s: byte %zu", things[thing].name, place);
  if (form == IMAGE && place < SSD1815B_STATE_SIZE) {
    fprintf(stderr, " (%s)", register_name((int)place));
  } else if (form == MEMORY && place < SSD1815B_MEMORY_SIZE) {
    fprintf(stderr, " (page %zu column %zu)", place / SSD1815B_COLUMNS,
            place % SSD1815B_COLUMNS);
  } else if (form == FRAME && place < SSD1815B_FRAME_SIZE) {
    fprintf(stderr, " (row %zu place %zu)", place / SSD1815B_COLUMNS,
            place % SSD1815B_COLUMNS);
  } else if (form == WIDE_FRAME && place < SSD1815B_WIDE_FRAME_SIZE) {
    fprintf(stderr, " (row %zu place %zu)", place / SSD1815B_WIDE_COLUMNS,
            place % SSD1815B_WIDE_COLUMNS);
  } else if (form == RUNS) {
    fprintf(stderr, " (run %zu, %s)", place / SSD1815B_FRAME_ENTRY_SIZE,
            of_run[place % SSD1815B_FRAME_ENTRY_SIZE]);
  } else if (form == BYTES) {
    fprintf(stderr, " (entry %zu, %s)", place / SSD1815B_MEMORY_ENTRY_SIZE,
            of_byte[place % SSD1815B_MEMORY_ENTRY_SIZE]);
  }
}

bool same_number(enum thing thing, uint64_t expected, uint64_t found)
{
  if (expected == found) {
    return true;
  }
  differ();
  fprintf(stderr, "  %s: expected %llu, found %llu\n", things[thing].name,
          (unsigned long long)expected, (unsigned long long)found);
  return false;
}

bool same_bytes(enum thing thing, const uint8_t *expected,
                const uint8_t *found, size_t length)
{
  if (length == 0 || memcmp(expected, found, length) == 0) {
    return true;
  }
  differ();
  size_t first = 0;
  size_t count = 0;
  for (size_t i = length; i > 0; i--) {
    if (expected[i - 1] != found[i - 1]) {
      first = i - 1;
      count++;
    }
  }
  print_place(thing, first);
  fprintf(stderr, ": expected %02X, found %02X; %zu of %zu bytes differ\n",
          expected[first], found[first], count, length);
  return false;
}

bool same_guards(enum thing thing, struct room *room)
{
  if (room_intact(room)) {
    return true;
  }
  differ();
  fprintf(stderr, "  %s: a byte outside the %zu lent ones was written\n",
          things[thing].name, room->length);
  room_mend(room);
  return false;
}

unsigned report_differences(void)
{
  return now.differences;
}

bool report_enough(void)
{
  return now.differences >= ENOUGH;
}
