#include "tally.h"

#include <stdio.h>
#include <string.h>

#include "ssd1815b.h"

enum { NUMBERS = SSD1815B_LAST_NUMBER + 1 };

static const struct {
  const char *name;
  char can_give[NUMBERS + 1]; /* '+' for each number that the call can give */
} calls[CALLS] = {
  [CALL_COMMAND]           = { "command",          "++++++         +" },
  [CALL_WRITE]             = { "write",            "+++   ++        " },
  [CALL_READ]              = { "read",             "+++   ++        " },
  [CALL_RESET]             = { "reset",            "++              " },
  [CALL_RUN]               = { "run",              "+++++++++++    +" },
  [CALL_DRAW]              = { "draw",             "+++             " },
  [CALL_LIST]              = { "list",             "+               " },
  [CALL_LIST_UPRIGHT]      = { "list upright",     "+               " },
  [CALL_FRAMES]            = { "frames",           "++         ++   " },
  [CALL_MEMORIES]          = { "memories",         "++         +    " },
  [CALL_START]             = { "start",            "++              " },
  [CALL_START_UPRIGHT]     = { "start upright",    "++              " },
  [CALL_WIDE_COMMAND]      = { "wide command",     "++++++       + +" },
  [CALL_WIDE_WRITE]        = { "wide write",       "+++   ++     +  " },
  [CALL_WIDE_READ]         = { "wide read",        "+++   ++     ++ " },
  [CALL_WIDE_RESET]        = { "wide reset",       "++           +  " },
  [CALL_WIDE_RUN]          = { "wide run",         "+++++++++++  +++" },
  [CALL_WIDE_DRAW]         = { "wide draw",        "+++             " },
  [CALL_WIDE_PAGE]         = { "wide page",        "++  +           " },
  [CALL_WIDE_LIST]         = { "wide list",        "+               " },
  [CALL_WIDE_LIST_UPRIGHT] = { "wide list upright","+               " },
};

static unsigned long given[CALLS][NUMBERS];
static unsigned long beyond[CALLS]; /* past the last number */

void tally_add(enum call call, uint8_t number)
{
  if (number < NUMBERS) {
    given[call][number]++;
  } else {
    beyond[call]++;
  }
}

unsigned long tally_of(enum call call, uint8_t number)
{
  return given[call][number];
}

unsigned long tally_all(enum call call)
{
  unsigned long all = 0;
  for (int number = 0; number < NUMBERS; number++) {
    all += given[call][number];
  }
  return all;
}

void tally_print(void)
{
  printf("%-17s", "answer");
  for (int number = 0; number < NUMBERS; number++) {
    printf(" %8d", number);
  }
  printf("\n");
  for (int call = 0; call < CALLS; call++) {
    printf("%-17s", calls[call].name);
    for (int number = 0; number < NUMBERS; number++) {
      if (calls[call].can_give[number] == '+') {
        printf(" %8lu", given[call][number]);
      } else {
        printf(" %8s", "-");
      }
    }
    printf("\n");
  }
}

bool tally_complete(void)
{
  bool complete = true;
  for (int call = 0; call < CALLS; call++) {
    if (strlen(calls[call].can_give) != NUMBERS) {
      fprintf(stderr, "compare: it does not say whether %s can answer %d\n",
              calls[call].name, NUMBERS - 1);
      complete = false;
    }
    if (beyond[call] != 0) {
      fprintf(stderr, "compare: %s answers a number above %d\n",
              calls[call].name, NUMBERS - 1);
      complete = false;
    }
    for (int number = 0; number < NUMBERS; number++) {
      if (calls[call].can_give[number] == '+' && given[call][number] == 0) {
        fprintf(stderr, "compare: no case in which %s answers %d\n",
                calls[call].name, number);
        complete = false;
      }
    }
  }
  return complete;
}
