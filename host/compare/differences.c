/*
** Where two frames differ, and where two memories do.  What is listed is also
** put into the first of the two, which must give the second.
*/
#include "cases.h"

#include <stdbool.h>
#include <string.h>

#include "report.h"
#include "room.h"
#include "ssd1815b.h"
#include "tally.h"

/* Lengths have two bytes in the stream. */
enum { LONGEST = UINT16_MAX };

/* The two calls take and answer alike. */
typedef uint8_t compare_call(const uint8_t *first, size_t first_len,
                             const uint8_t *second, size_t second_len,
                             uint8_t *list, size_t list_len, size_t *count);

/* One of the two calls, and its things as they are told. */
struct kind {
  const char *name;
  compare_call *compare;
  enum call call;
  size_t entry_size;
  enum thing first;
  enum thing second;
  enum thing entries;
};

/* The call on two frames. */
static const struct kind of_frames = {
  "compare_frames", ssd1815b_compare_frames, CALL_FRAMES,
  SSD1815B_FRAME_ENTRY_SIZE, THE_FIRST_FRAME, THE_SECOND_FRAME, THE_RUNS
};

/* The call on two memories. */
static const struct kind of_memories = {
  "compare_memories", ssd1815b_compare_memories, CALL_MEMORIES,
  SSD1815B_MEMORY_ENTRY_SIZE, THE_FIRST_MEMORY, THE_SECOND_MEMORY, THE_BYTES
};

/* A case: what is lent, and what is expected. */
struct pair {
  struct bytes first;
  struct bytes second;
  size_t list_length;
  uint8_t number;
  size_t count;
  struct bytes entries;
};

static struct room first_room, second_room, list_room, count_room;

/* What the list buffer holds before the call. */
static uint8_t blank[LONGEST];

void differences_open(void)
{
  room_open(&first_room, LONGEST);
  room_open(&second_room, LONGEST);
  room_open(&list_room, LONGEST);
  room_open(&count_room, sizeof(size_t));
}

/* Takes a case, and makes what the list buffer holds before the call. */
static struct pair take_pair(struct body *body, size_t entry_size)
{
  struct pair pair;
  pair.first = take_lent(body);
  pair.second = take_lent(body);
  pair.list_length = take_u16(body);
  uint8_t fill = take_u8(body);
  pair.number = take_u8(body);
  pair.count = take_u16(body);
  pair.entries = take_bytes(body, pair.count * entry_size);
  take_nothing_more(body);
  if (pair.number != SSD1815B_TAKEN && pair.count > 0) {
    malformed("a refusal with entries");
  }
  if (pair.entries.length > pair.list_length) {
    malformed("more entries than their buffer holds");
  }
  for (size_t i = 0; i < pair.list_length; i++) {
    blank[i] = (uint8_t)(fill + 7 * i);
  }
  return pair;
}

/* Makes the call; whether its number, count and entries are as expected. */
static bool compare_pair(const struct kind *kind, const struct pair *pair)
{
  uint8_t junk[sizeof(size_t)];
  memset(junk, 0xEE, sizeof junk);
  room_lend(&first_room, pair->first.at, pair->first.length);
  room_lend(&second_room, pair->second.at, pair->second.length);
  uint8_t *list = room_lend(&list_room, blank, pair->list_length);
  size_t *count = (void *)room_lend(&count_room, junk, sizeof(size_t));

  report_call(kind->name);
  uint8_t found = kind->compare(first_room.lent, first_room.length,
                                second_room.lent, second_room.length,
                                list, list_room.length, count);
  tally_add(kind->call, found);
  size_t written = pair->entries.length;
  bool same = same_number(THE_NUMBER, pair->number, found);
  same &= same_number(THE_COUNT, pair->count, *count);
  same &= same_bytes(kind->entries, pair->entries.at, list, written);
  same_bytes(AFTER_THE_LIST, blank + written, list + written,
             pair->list_length - written);
  same_bytes(kind->first, pair->first.at, first_room.lent, pair->first.length);
  same_bytes(kind->second, pair->second.at, second_room.lent,
             pair->second.length);
  same_guards(kind->first, &first_room);
  same_guards(kind->second, &second_room);
  same_guards(kind->entries, &list_room);
  same_guards(THE_COUNT, &count_room);
  return same;
}

/* ---- two frames ---- */

/* Puts a run into a frame; whether the frame has it as the run was. */
static bool put_run(uint8_t *frame, const uint8_t *run)
{
  size_t row = run[SSD1815B_RUN_ROW];
  size_t first = run[SSD1815B_RUN_FIRST];
  size_t last = run[SSD1815B_RUN_LAST];
  if (row >= SSD1815B_FRAME_ROWS || first > last || last >= SSD1815B_COLUMNS) {
    return false;
  }
  for (size_t x = first; x <= last; x++) {
    uint8_t *place = frame + row * SSD1815B_COLUMNS + x;
    if (*place != run[SSD1815B_RUN_WAS]) {
      return false;
    }
    *place = run[SSD1815B_RUN_IS];
  }
  return true;
}

void compare_frames(struct body *body)
{
  struct pair pair = take_pair(body, SSD1815B_FRAME_ENTRY_SIZE);
  if (!compare_pair(&of_frames, &pair) || pair.number != SSD1815B_TAKEN) {
    return;
  }
  uint8_t frame[SSD1815B_FRAME_SIZE];
  memcpy(frame, pair.first.at, sizeof frame);
  size_t put = 0;
  for (size_t i = 0; i < pair.count; i++) {
    put += put_run(frame, list_room.lent + i * SSD1815B_FRAME_ENTRY_SIZE);
  }
  same_number(RUNS_PUT_IN, pair.count, put);
  same_bytes(FRAME_WITH_RUNS, pair.second.at, frame, sizeof frame);
}

/* ---- two memories ---- */

/* The bits that a place of a memory has. */
static uint8_t bits_at(size_t place)
{
  return place / SSD1815B_COLUMNS == SSD1815B_ICON_PAGE ? 0x01 : 0xFF;
}

/* Puts a byte into a memory; whether the memory has it as the byte was. */
static bool put_byte(uint8_t *memory, const uint8_t *entry)
{
  size_t place = entry[0] + 256u * entry[1];
  if (place >= SSD1815B_MEMORY_SIZE
      || (memory[place] & bits_at(place)) != entry[2]) {
    return false;
  }
  memory[place] = entry[3];
  return true;
}

/* Copies a memory, of page 8 bit 0 alone. */
static void copy_bits(uint8_t *to, const uint8_t *memory)
{
  for (size_t place = 0; place < SSD1815B_MEMORY_SIZE; place++) {
    to[place] = memory[place] & bits_at(place);
  }
}

void compare_memories(struct body *body)
{
  struct pair pair = take_pair(body, SSD1815B_MEMORY_ENTRY_SIZE);
  if (!compare_pair(&of_memories, &pair) || pair.number != SSD1815B_TAKEN) {
    return;
  }
  uint8_t memory[SSD1815B_MEMORY_SIZE];
  uint8_t second[SSD1815B_MEMORY_SIZE];
  copy_bits(memory, pair.first.at);
  copy_bits(second, pair.second.at);
  size_t put = 0;
  for (size_t i = 0; i < pair.count; i++) {
    put += put_byte(memory, list_room.lent + i * SSD1815B_MEMORY_ENTRY_SIZE);
  }
  same_number(BYTES_PUT_IN, pair.count, put);
  same_bytes(MEMORY_WITH_BYTES, second, memory, sizeof memory);
}
