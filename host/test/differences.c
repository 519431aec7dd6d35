/*
** Where two frames differ, and where two memories do: cases worked out by hand
** from Order 1, and random pairs whose list is held to the order's rule.
*/
#include <stdbool.h>
#include <stdint.h>
#include <string.h>

#include "check.h"
#include "room.h"
#include "ssd1815b.h"

#ifndef TESTED
#define TESTED "differences"
#endif

_Static_assert(SSD1815B_FRAME_LIST_SIZE
               == SSD1815B_FRAME_SIZE * SSD1815B_FRAME_ENTRY_SIZE,
               "at most every place is a run");
_Static_assert(SSD1815B_MEMORY_LIST_SIZE
               == SSD1815B_MEMORY_SIZE * SSD1815B_MEMORY_ENTRY_SIZE,
               "at most every byte differs");
_Static_assert(SSD1815B_FRAME_ENTRY_SIZE == SSD1815B_RUN_IS + 1,
               "the second frame's is the last of an entry");

/* ---- two to compare ---- */

enum { PAST = 20 }; /* bytes past the needed ones */

/* The two calls take and answer alike. */
typedef uint8_t compare_call(const uint8_t *first, size_t first_len,
                             const uint8_t *second, size_t second_len,
                             uint8_t *list, size_t list_len, size_t *count);

/* One of the two calls, and the sizes that it speaks of. */
struct kind {
  compare_call *call;
  size_t size;
  size_t entry_size;
  size_t list_size;
};

/* By Order 1: 8,580 places of at most a run each, 1,188 bytes. */
static const struct kind frames = { ssd1815b_compare_frames, 8580, 5, 42900 };
static const struct kind memories = { ssd1815b_compare_memories, 1188, 4,
                                      4752 };

/* Two frames or two memories, and how much of them is lent. */
static struct {
  struct kind kind;
  uint8_t first[SSD1815B_FRAME_SIZE + PAST];
  uint8_t second[SSD1815B_FRAME_SIZE + PAST];
  size_t first_len;
  size_t second_len;
} pair;

static struct room first_room, second_room, list_room, count_room;

/* What a list holds before the call. */
static uint8_t blank[SSD1815B_FRAME_LIST_SIZE + PAST];

/* What the count holds before the call. */
static const uint8_t junk[sizeof(size_t)] = { 9, 9, 9, 9, 9, 9, 9, 9 };

/* Opens the rooms, and makes what a list holds. */
static void rooms_open(void)
{
  room_open(&first_room, sizeof pair.first);
  room_open(&second_room, sizeof pair.second);
  room_open(&list_room, sizeof blank);
  room_open(&count_room, sizeof(size_t));
  for (size_t i = 0; i < sizeof blank; i++) {
    blank[i] = (uint8_t)(0x80 + i % 100);
  }
}

/* Two of a kind, all zero; past the needed bytes they differ, above 1. */
static void begin(struct kind kind)
{
  pair.kind = kind;
  memset(pair.first, 0xEE, sizeof pair.first);
  memset(pair.second, 0x77, sizeof pair.second);
  memset(pair.first, 0, kind.size);
  memset(pair.second, 0, kind.size);
  pair.first_len = kind.size;
  pair.second_len = kind.size;
}

/* Compares the two, and sees that nothing but the entries and the count is
** written, and after a refusal just the count, as 0. */
static uint8_t compare(size_t list_len, size_t *count)
{
  room_lend(&first_room, pair.first, pair.first_len);
  room_lend(&second_room, pair.second, pair.second_len);
  uint8_t *list = room_lend(&list_room, blank, list_len);
  size_t *lent_count = (void *)room_lend(&count_room, junk, sizeof(size_t));
  uint8_t answer = pair.kind.call(first_room.lent, pair.first_len,
                                  second_room.lent, pair.second_len,
                                  list, list_len, lent_count);
  *count = *lent_count;
  CHECK(*count <= list_len / pair.kind.entry_size);
  CHECK(answer == 0 || *count == 0);
  size_t written = *count * pair.kind.entry_size;
  if (written <= list_len) {
    CHECK(memcmp(list + written, blank + written, list_len - written) == 0);
  }
  CHECK(memcmp(first_room.lent, pair.first, pair.first_len) == 0);
  CHECK(memcmp(second_room.lent, pair.second, pair.second_len) == 0);
  CHECK(room_intact(&first_room));
  CHECK(room_intact(&second_room));
  CHECK(room_intact(&list_room));
  CHECK(room_intact(&count_room));
  return answer;
}

/* ---- what is expected ---- */

/* The two are refused with this number.  Twice, here and below: a room lends at
** its end and at its beginning in turn. */
static void refused(size_t list_len, uint8_t number)
{
  for (int time = 0; time < 2; time++) {
    size_t count;
    CHECK(compare(list_len, &count) == number);
  }
}

/* The two are taken, with just these entries. */
static void listed(size_t list_len, const uint8_t *entries, size_t expected)
{
  for (int time = 0; time < 2; time++) {
    size_t count;
    CHECK(compare(list_len, &count) == 0);
    CHECK(count == expected);
    CHECK(expected == 0 || memcmp(list_room.lent, entries,
                                  expected * pair.kind.entry_size) == 0);
  }
}

/* Just these entries, and a list that is too small for them by one byte, by
** one entry, by all. */
static void differ_in(const uint8_t *entries, size_t count)
{
  size_t needed = count * pair.kind.entry_size;
  listed(needed, entries, count);
  listed(needed + 1, entries, count);
  listed(needed + PAST, entries, count);
  listed(pair.kind.list_size, entries, count);
  if (count > 0) {
    refused(needed - 1, 11);
    refused(needed - pair.kind.entry_size, 11);
    refused(0, 11);
  }
}

/* No difference needs no byte of a list. */
static void equal(void)
{
  differ_in(NULL, 0);
}

/* ---- lengths, of frames and of memories ---- */

/* 1 exactly where one of the two is shorter than needed, whatever the list. */
static void lengths(struct kind kind)
{
  const size_t some[] = { 0, 1, kind.size - 1, kind.size, kind.size + 1,
                          kind.size + PAST };
  begin(kind);
  for (size_t i = 0; i < 6; i++) {
    for (size_t j = 0; j < 6; j++) {
      pair.first_len = some[i];
      pair.second_len = some[j];
      if (some[i] < kind.size || some[j] < kind.size) {
        refused(0, 1);
        refused(kind.list_size, 1);
      } else {
        equal();
      }
    }
  }
}

/* ---- two frames ---- */

/* Makes the places of a row, from one to another, dark or lit in the first
** frame and the other way in the second. */
static void turn(size_t row, size_t from, size_t to, uint8_t was)
{
  for (size_t x = from; x <= to; x++) {
    pair.first[132 * row + x] = was;
    pair.second[132 * row + x] = 1 - was;
  }
}

/* A byte above 1 in either frame, or the same in both, wherever it is. */
static void bytes_above(void)
{
  static const uint8_t values[] = { 2, 3, 4, 8, 16, 32, 64, 128, 255 };
  static const size_t places[] = { 0, 1, 131, 132, 4289, 4290, 8578, 8579 };
  for (size_t i = 0; i < sizeof values; i++) {
    for (size_t j = 0; j < sizeof places / sizeof places[0]; j++) {
      for (int in = 1; in <= 3; in++) {
        begin(frames);
        equal();
        if (in & 1) {
          pair.first[places[j]] = values[i];
        }
        if (in & 2) {
          pair.second[places[j]] = values[i];
        }
        refused(SSD1815B_FRAME_LIST_SIZE, 12);
        refused(0, 12);
      }
    }
  }
}

/* 1 before 12 before 11. */
static void which_refusal_of_frames(void)
{
  begin(frames);
  turn(0, 3, 3, 0);
  refused(4, 11);
  pair.second_len = 8579;
  refused(4, 1);

  begin(frames);
  turn(0, 3, 3, 0);
  pair.first[8579] = 2;
  refused(4, 12);
  refused(5, 12);
  pair.second_len = 8579;
  refused(5, 1);
  refused(4, 1);
  pair.second_len = 8580;
  pair.first_len = 0;
  refused(4, 1);
}

/* Frames that are equal, whatever stands past their needed bytes. */
static void equal_frames(void)
{
  begin(frames);
  equal();
  pair.first_len = 8600;
  pair.second_len = 8600;
  equal();
  memset(pair.first, 1, 8580);
  memset(pair.second, 1, 8580);
  equal();
}

/* Runs beside each other, at the edges of a row, at places 64 and 128, on the
** icon line. */
static void runs_by_hand(void)
{
  static const uint8_t runs[] = {
    0, 0, 131, 0, 1,    /* a whole row ... */
    1, 0, 0, 0, 1,      /* ... and the next place, which is in the next row */
    2, 131, 131, 1, 0,  /* two rows' last and first place */
    3, 0, 1, 1, 0,
    3, 10, 12, 1, 0,    /* lit to dark beside dark to lit ... */
    3, 13, 14, 0, 1,
    3, 15, 15, 1, 0,    /* ... and back */
    5, 20, 21, 0, 1,    /* a place between that is lit in both */
    5, 23, 23, 0, 1,
    30, 60, 70, 0, 1,
    30, 127, 128, 1, 0,
    31, 63, 63, 0, 1,
    31, 64, 64, 1, 0,
    63, 40, 131, 0, 1,
    64, 0, 5, 0, 1,
    64, 131, 131, 0, 1,
  };
  begin(frames);
  for (const uint8_t *run = runs; run < runs + sizeof runs; run += 5) {
    turn(run[0], run[1], run[2], run[3]);
  }
  pair.first[132 * 5 + 22] = 1;
  pair.second[132 * 5 + 22] = 1;
  differ_in(runs, sizeof runs / 5);
  pair.first_len = 8600;
  pair.second_len = 8581;
  differ_in(runs, sizeof runs / 5);
}

/* Every single run of a row, in a frame that is else dark, and lit. */
static void every_run(void)
{
  for (size_t first = 0; first < 132; first++) {
    for (size_t last = first; last < 132; last++) {
      uint8_t row = (uint8_t)((first + last) % 65);
      uint8_t was = last % 2;
      begin(frames);
      memset(pair.first, (int)(first % 2), 8580);
      memset(pair.second, (int)(first % 2), 8580);
      turn(row, first, last, was);
      const uint8_t run[] = { row, (uint8_t)first, (uint8_t)last, was,
                              1 - was };
      listed(5, run, 1);
    }
  }
}

/* Every second place lit, and in the second frame the others: each of 8,580
** places is a run, and no list is longer. */
static void most_runs(void)
{
  static uint8_t runs[SSD1815B_FRAME_LIST_SIZE];
  begin(frames);
  for (size_t i = 0; i < 8580; i++) {
    uint8_t x = (uint8_t)(i % 132);
    uint8_t was = x % 2;
    const uint8_t run[] = { (uint8_t)(i / 132), x, x, was, 1 - was };
    turn(i / 132, x, x, was);
    memcpy(runs + 5 * i, run, 5);
  }
  differ_in(runs, 8580);
}

/* All dark, and all lit: a run for each row, however long they could be. */
static void whole_rows(void)
{
  uint8_t runs[65 * 5];
  begin(frames);
  for (uint8_t row = 0; row < 65; row++) {
    const uint8_t run[] = { row, 0, 131, 0, 1 };
    turn(row, 0, 131, 0);
    memcpy(runs + 5 * row, run, 5);
  }
  differ_in(runs, 65);
}

/* ---- frames of no pattern ---- */

/* A number of no pattern; the same ones at each start of the program. */
static uint32_t random_number(uint32_t below)
{
  static uint32_t seed = 1;
  seed = seed * 1664525u + 1013904223u;
  return (seed >> 8) % below;
}

/* Order 1's rule of one run: it differs, throughout in the same way, and the
** places beside it in its row do not differ so. */
static bool is_longest_run(const uint8_t *run)
{
  size_t first = 132u * run[0] + run[1];
  size_t last = 132u * run[0] + run[2];
  if (run[0] > 64 || run[1] > run[2] || run[2] > 131 || run[3] == run[4]) {
    return false;
  }
  for (size_t i = first; i <= last; i++) {
    if (pair.first[i] != run[3] || pair.second[i] != run[4]) {
      return false;
    }
  }
  bool goes_back = run[1] > 0 && pair.first[first - 1] == run[3]
                   && pair.second[first - 1] == run[4];
  bool goes_on = run[2] < 131 && pair.first[last + 1] == run[3]
                 && pair.second[last + 1] == run[4];
  return !goes_back && !goes_on;
}

/* Only one list is of longest runs in rising order and, put into the first
** frame as the header has it, gives the second. */
static void list_is_right(const uint8_t *list, size_t count)
{
  static uint8_t first[SSD1815B_FRAME_SIZE];
  memcpy(first, pair.first, sizeof first);
  bool right = true;
  for (size_t i = 0; i < count && right; i++) {
    const uint8_t *run = list + i * SSD1815B_FRAME_ENTRY_SIZE;
    right = is_longest_run(run);
    right &= i == 0 || run[-5] < run[0]
             || (run[-5] == run[0] && run[-3] < run[1]);
    if (right) {
      memset(first + run[SSD1815B_RUN_ROW] * SSD1815B_COLUMNS
               + run[SSD1815B_RUN_FIRST], run[SSD1815B_RUN_IS],
             (size_t)(run[SSD1815B_RUN_LAST] - run[SSD1815B_RUN_FIRST] + 1));
    }
  }
  CHECK(right);
  CHECK(memcmp(first, pair.second, sizeof first) == 0);
}

/* Random frames, of dots by themselves and of long pieces. */
static void random_frames(void)
{
  for (int round = 0; round < 300; round++) {
    begin(frames);
    uint32_t longest = round % 3 == 0 ? 1 : round % 3 == 1 ? 8 : 200;
    for (size_t i = 0; i < 8580;) {
      uint32_t same = random_number(longest) + 1;
      uint8_t was = (uint8_t)random_number(2);
      uint8_t is = (uint8_t)random_number(2);
      for (; same > 0 && i < 8580; same--, i++) {
        pair.first[i] = was;
        pair.second[i] = is;
      }
    }
    size_t count;
    CHECK(compare(SSD1815B_FRAME_LIST_SIZE, &count) == 0);
    CHECK(count > 0 && count <= 8580);
    if (count > 0 && count <= 8580) {
      list_is_right(list_room.lent, count);
      refused(5 * count - 1, 11);
      CHECK(compare(5 * count, &count) == 0);
      list_is_right(list_room.lent, count);
    }
  }
}

/* ---- two memories ---- */

/* 1 before 11. */
static void which_refusal_of_memories(void)
{
  begin(memories);
  pair.first[0] = 1;
  refused(3, 11);
  pair.first_len = 1187;
  refused(3, 1);
  refused(4752, 1);
}

/* Places that need one byte and two, the last of page 7, and page 8, where
** bit 0 alone counts and is listed. */
static void bytes_by_hand(void)
{
  static const struct {
    size_t place;
    uint8_t first, second;
  } changes[] = {
    { 0, 0x80, 0x01 }, { 1, 0xFF, 0x7F }, { 132, 0x80, 0x00 },
    { 255, 0x12, 0x34 }, { 256, 0x56, 0x78 }, { 300, 0xAA, 0xAA },
    { 1055, 0xFE, 0xFF }, { 1056, 0xFE, 0xFF }, { 1057, 0xFE, 0x00 },
    { 1058, 0x81, 0x7F }, { 1120, 0x03, 0x02 }, { 1187, 0x54, 0xAB },
  };
  static const uint8_t bytes[] = {
    0x00, 0x00, 0x80, 0x01,
    0x01, 0x00, 0xFF, 0x7F,
    0x84, 0x00, 0x80, 0x00,
    0xFF, 0x00, 0x12, 0x34,
    0x00, 0x01, 0x56, 0x78,
    0x1F, 0x04, 0xFE, 0xFF,
    0x20, 0x04, 0x00, 0x01,
    0x60, 0x04, 0x01, 0x00,
    0xA3, 0x04, 0x00, 0x01,
  };
  begin(memories);
  for (size_t i = 0; i < sizeof changes / sizeof changes[0]; i++) {
    pair.first[changes[i].place] = changes[i].first;
    pair.second[changes[i].place] = changes[i].second;
  }
  differ_in(bytes, sizeof bytes / 4);
  pair.first_len = 1200;
  pair.second_len = 1189;
  differ_in(bytes, sizeof bytes / 4);
}

/* Every content beside itself and with one bit turned, where all bits count
** and where bit 0 does. */
static void every_content(void)
{
  begin(memories);
  for (unsigned content = 0; content < 256; content++) {
    for (unsigned bit = 0; bit <= 8; bit++) {
      uint8_t was = (uint8_t)content;
      uint8_t is = (uint8_t)(content ^ 1u << bit);
      pair.first[700] = was;
      pair.second[700] = is;
      pair.first[1100] = was;
      pair.second[1100] = is;
      const uint8_t bytes[] = { 700 % 256, 700 / 256, was, is,
                                1100 % 256, 1100 / 256, was & 1, is & 1 };
      listed(8, bytes, bit == 0 ? 2 : bit < 8 ? 1 : 0);
    }
  }
}

/* Junk above bit 0 of page 8 is no difference. */
static void equal_memories(void)
{
  begin(memories);
  equal();
  pair.first_len = 1208;
  pair.second_len = 1208;
  memset(pair.first + 1056, 0xFF, 132);
  memset(pair.second + 1056, 0x01, 132);
  equal();
}

/* Every byte differs, on page 8 in bit 0. */
static void most_bytes(void)
{
  uint8_t bytes[SSD1815B_MEMORY_LIST_SIZE];
  begin(memories);
  for (size_t place = 0; place < 1188; place++) {
    uint8_t was = (uint8_t)(place / 3);
    uint8_t is = (uint8_t)~was;
    uint8_t bits = place < 1056 ? 255 : 1;
    pair.first[place] = was;
    pair.second[place] = is;
    const uint8_t byte[] = { (uint8_t)(place % 256), (uint8_t)(place / 256),
                             was & bits, is & bits };
    memcpy(bytes + 4 * place, byte, 4);
  }
  differ_in(bytes, 1188);
}

int main(void)
{
  rooms_open();
  lengths(frames);
  bytes_above();
  which_refusal_of_frames();
  equal_frames();
  runs_by_hand();
  every_run();
  most_runs();
  whole_rows();
  random_frames();

  lengths(memories);
  which_refusal_of_memories();
  equal_memories();
  bytes_by_hand();
  every_content();
  most_bytes();
  return checks_end(TESTED);
}
