#include "workloads.h"

#include <stdio.h>
#include <stdlib.h>
#include <string.h>

#include "plain.h"
#include "sse2.h"

/* ---- the buffers ---- */

static uint8_t state[SSD1815B_STATE_SIZE];
static uint8_t memory[SSD1815B_MEMORY_SIZE];
static uint8_t frame[SSD1815B_FRAME_SIZE];
static uint8_t text[SSD1815B_TEXT_SIZE];
static size_t text_length;
static uint8_t trace[65536];
static size_t trace_length;
static size_t trace_events;
static uint64_t answers; /* all that was answered, mixed together */

static void answer(uint64_t value)
{
  answers = answers * 31 + value;
}

/* What is measured is never a refusal. */
static void taken(uint8_t number)
{
  if (number != SSD1815B_TAKEN) {
    fprintf(stderr, "bench: a workload is refused: %u\n", number);
    exit(1);
  }
}

/* Numbers that look random, the same after every begin. */
static uint32_t seed;

static uint32_t next_random(void)
{
  seed ^= seed << 13;
  seed ^= seed >> 17;
  seed ^= seed << 5;
  return seed;
}

/* Keeps the compiler from leaving out or joining what was written to bytes. */
static void seen(const void *bytes)
{
  __asm__ volatile("" : : "r"(bytes) : "memory");
}

/* Where limits copy to. */
static uint8_t aside[65536];

/* The upright start, which is power-on, a memory of random bytes, and some
** commands. */
static void begin(const uint8_t *commands, size_t count)
{
  seed = 1815;
  answers = 0;
  text_length = 0;
  memset(frame, 0, sizeof frame);
  plain_start_upright(state, sizeof state, memory, sizeof memory);
  for (size_t i = 0; i < sizeof memory; i++) {
    memory[i] = (uint8_t)next_random();
  }
  for (size_t i = 0; i < count; i++) {
    taken(plain_command(state, sizeof state, memory, sizeof memory,
                        commands[i]));
  }
}

/* ---- frames ---- */

#define FRAME_MODE(name, ...)                          \
  static void name(void)                               \
  {                                                    \
    static const uint8_t commands[] = { __VA_ARGS__ }; \
    begin(commands, sizeof commands);                  \
  }

FRAME_MODE(columns_normal, 0xAF, 0x45, 0xD3, 0x0B)
FRAME_MODE(columns_mirrored, 0xAF, 0x45, 0xD3, 0x0B, 0xA1)
FRAME_MODE(rows_reversed, 0xAF, 0x45, 0xD3, 0x0B, 0xC8, 0xA7)
FRAME_MODE(all_turned, 0xAF, 0x45, 0xD3, 0x0B, 0xA1, 0xC8, 0xA7)
FRAME_MODE(sixteen_rows, 0xAF, 0x45, 0xD3, 0x0B, 0xA8, 0x0F)
FRAME_MODE(all_lit, 0xAF, 0x45, 0xD3, 0x0B, 0xA5)
FRAME_MODE(display_off, 0x45, 0xD3, 0x0B)

static void draw(const struct model *model)
{
  taken(model->draw(state, sizeof state, memory, sizeof memory, frame,
                    sizeof frame));
}

/* The limits of a frame: the SSE2 loop, and memset where all places are
** equal. */
static void draw_by_sse2(void)
{
  taken(sse2_draw(state, sizeof state, memory, sizeof memory, frame,
                  sizeof frame));
}

static void light_by_memset(void)
{
  memset(frame, 1, sizeof frame);
  seen(frame);
}

static void darken_by_memset(void)
{
  memset(frame, 0, sizeof frame);
  seen(frame);
}

static size_t one(void)
{
  return 1;
}

/* ---- the listing of a frame ---- */

/* A frame full of the letter P. */
static void drawn(void)
{
  static const uint8_t letter[] = { 0x7F, 0x09, 0x09, 0x09, 0x06, 0x00 };
  columns_normal();
  for (size_t i = 0; i < sizeof memory; i++) {
    memory[i] = letter[i % sizeof letter];
  }
  plain_draw(state, sizeof state, memory, sizeof memory, frame, sizeof frame);
}

static void list(const struct model *model)
{
  taken(model->list(SSD1815B_TAKEN, 0, frame, sizeof frame, text, sizeof text,
                    &text_length));
}

/* The text's bytes, which a model has written before. */
static void copy_text(void)
{
  memcpy(aside, text, text_length);
  seen(aside);
}

/* ---- events of a run ---- */

static void add_record(uint8_t kind, const uint8_t *payload, size_t length)
{
  uint8_t *to = trace + trace_length;
  to[0] = (uint8_t)(length % 256);
  to[1] = (uint8_t)(length / 256);
  to[2] = kind;
  to[3] = 0;
  memcpy(to + 4, payload, length);
  trace_length += 4 + length;
  trace_events += length;
}

static void begin_trace(void)
{
  begin(NULL, 0);
  trace_length = 0;
  trace_events = 0;
}

/* Commands of all kinds, in records of 64. */
static void trace_of_commands(void)
{
  static const uint8_t some[] = {
    0x05, 0x12, 0x24, 0x2F, 0x43, 0x81, 0x1C, 0xA0, 0xA2, 0xA4, 0xA6, 0xA8,
    0x3F, 0xA9, 0x42, 0xAA, 0xAC, 0xAD, 0x02, 0xAF, 0xB3, 0xC8, 0xD3, 0x10,
    0xD4, 0x20, 0xE0, 0xE3, 0xEE, 0xE2, 0xB7, 0xC0
  };
  begin_trace();
  for (int records = 0; records < 200; records++) {
    uint8_t payload[64];
    for (size_t i = 0; i < sizeof payload; i++) {
      payload[i] = some[i % sizeof some];
    }
    add_record(1, payload, sizeof payload);
  }
}

/* Records as long as a page, written from wherever the column is. */
static void add_written_pages(void)
{
  for (int records = 0; records < 200; records++) {
    uint8_t payload[SSD1815B_COLUMNS];
    for (size_t i = 0; i < sizeof payload; i++) {
      payload[i] = (uint8_t)next_random();
    }
    add_record(2, payload, sizeof payload);
  }
}

/* Whole pages written, nothing else. */
static void trace_of_writes(void)
{
  begin_trace();
  add_written_pages();
}

/* The same from column 50 on, so that each record goes past column 131. */
static void trace_of_writes_from_50(void)
{
  static const uint8_t at[] = { 0xB3, 0x02, 0x13 };
  begin_trace();
  add_record(1, at, sizeof at);
  add_written_pages();
}

/* The same to page 8, which keeps bit 0. */
static void trace_of_writes_to_icons(void)
{
  static const uint8_t at[] = { 0xB8, 0x00, 0x10 };
  begin_trace();
  add_record(1, at, sizeof at);
  add_written_pages();
}

/* Where reads begin, and the dummy read. */
static void add_dummy_read(const uint8_t *at, size_t count)
{
  static const uint8_t dummy = 0;
  add_record(1, at, count);
  add_record(3, &dummy, 1);
}

/* Whole pages read back: the dummy read, and then what memory holds. */
static void trace_of_reads(void)
{
  static const uint8_t at[] = { 0xB0, 0x00, 0x10 };
  begin_trace();
  add_dummy_read(at, sizeof at);
  for (int records = 0; records < 200; records++) {
    add_record(3, memory, SSD1815B_COLUMNS);
  }
}

/* One byte read again and again, as read-modify-write leaves the column. */
static void trace_of_reads_of_one(void)
{
  static const uint8_t at[] = { 0xB0, 0x00, 0x10, 0xE0 };
  uint8_t payload[SSD1815B_COLUMNS];
  begin_trace();
  memset(payload, memory[0], sizeof payload);
  add_dummy_read(at, sizeof at);
  for (int records = 0; records < 200; records++) {
    add_record(3, payload, sizeof payload);
  }
}

/* As a driver does it: page and column, a piece of a page, and now and then a
** stroke by read-modify-write. */
static void trace_of_all(void)
{
  begin_trace();
  for (uint8_t i = 0; i < 240; i++) {
    uint8_t page = i % 8;
    uint8_t at[] = { (uint8_t)(0xB0 + page), 0x08, 0x12 };
    uint8_t piece[24];
    for (size_t k = 0; k < sizeof piece; k++) {
      piece[k] = (uint8_t)next_random();
    }
    add_record(1, at, sizeof at);
    add_record(2, piece, sizeof piece);
    uint8_t enter[] = { (uint8_t)(0xB0 + page), 0x08, 0x12, 0xE0 };
    uint8_t read_back[] = { 0x00, piece[0] };
    uint8_t stroke = piece[0] ^ 0xFF;
    uint8_t leave = 0xEE;
    add_record(1, enter, sizeof enter);
    add_record(3, read_back, sizeof read_back);
    add_record(2, &stroke, 1);
    add_record(1, &leave, 1);
  }
}

static void run(const struct model *model)
{
  size_t offset;
  size_t count;
  taken(model->run(state, sizeof state, memory, sizeof memory, trace,
                   trace_length, &offset, &count));
  answer(offset);
  answer(count);
}

static size_t events_of_trace(void)
{
  return trace_events;
}

/* The limit of a run: each record's payload by the C library, bytes read by
** memcmp and all others by memcpy, into so many memories. */
static void copy_records(size_t memories)
{
  const uint8_t *record = trace;
  while (record < trace + trace_length) {
    size_t length = (size_t)record[0] | (size_t)record[1] << 8;
    if (record[2] == 3) {
      static volatile int differs;
      differs = memcmp(aside, record + 4, length);
      (void)differs;
    } else {
      for (size_t i = 0; i < memories; i++) {
        memcpy(aside + i * SSD1815B_MEMORY_SIZE, record + 4, length);
        seen(aside);
      }
    }
    record += 4 + length;
  }
}

/* Into one memory. */
static void records_by_library(void)
{
  copy_records(1);
}

/* Reads that are equal to the end: each record of bytes read is the same. */
static void reads_by_library(void)
{
  memcpy(aside, trace + trace_length - SSD1815B_COLUMNS, SSD1815B_COLUMNS);
  copy_records(1);
}

/* ---- events by themselves ---- */

enum { SINGLES = 1000 };

static void idle(void)
{
  begin(NULL, 0);
}

static void single_commands(const struct model *model)
{
  for (int i = 0; i < SINGLES; i++) {
    taken(model->command(state, sizeof state, memory, sizeof memory,
                         (uint8_t)(0x40 + i % 64)));
  }
}

static void single_writes(const struct model *model)
{
  for (int i = 0; i < SINGLES; i++) {
    taken(model->write(state, sizeof state, memory, sizeof memory,
                       (uint8_t)i));
  }
}

static void single_reads(const struct model *model)
{
  for (int i = 0; i < SINGLES; i++) {
    uint8_t byte;
    uint8_t dummy;
    taken(model->read(state, sizeof state, memory, sizeof memory, &byte,
                      &dummy));
    answer(byte);
    answer(dummy);
  }
}

static void single_resets(const struct model *model)
{
  for (int i = 0; i < SINGLES; i++) {
    taken(model->reset(state, sizeof state, memory, sizeof memory));
  }
}

static size_t singles(void)
{
  return SINGLES;
}

/* The limit of an event call: memcpy of the image. */
static void copy_images(void)
{
  for (int i = 0; i < SINGLES; i++) {
    memcpy(aside, state, sizeof state);
    seen(aside);
  }
}

/* The limit of a reset: memcpy of the image that it leaves. */
static void images_by_memcpy(void)
{
  uint8_t image[sizeof state];
  plain_reset(image, sizeof image, memory, sizeof memory);
  for (int i = 0; i < SINGLES; i++) {
    memcpy(state, image, sizeof image);
    seen(state);
  }
}

/* ---- starts ---- */

static void starts(const struct model *model)
{
  for (int i = 0; i < SINGLES; i++) {
    taken(model->start(state, sizeof state, memory, sizeof memory));
  }
}

static void starts_upright(const struct model *model)
{
  for (int i = 0; i < SINGLES; i++) {
    taken(model->start_upright(state, sizeof state, memory, sizeof memory));
  }
}

/* The limit of a start: memcpy of an image, and memset of the memory by the C
** library; so many bytes that are known gcc would clear itself, and slower. */
static void fill_by_memset(const uint8_t *image)
{
  size_t length = sizeof memory;
  __asm__ volatile("" : "+r"(length));
  for (int i = 0; i < SINGLES; i++) {
    memcpy(state, image, sizeof state);
    memset(memory, 0, length);
    seen(memory);
  }
}

/* The image that each start leaves. */
static void start_image(uint8_t *image, uint8_t directions)
{
  plain_start_upright(image, sizeof state, aside, sizeof aside);
  image[SSD1815B_COLUMN_DIRECTION] = directions;
  image[SSD1815B_ROW_DIRECTION] = directions;
}

static void start_by_memset(void)
{
  uint8_t image[sizeof state];
  start_image(image, 1);
  fill_by_memset(image);
}

static void start_upright_by_memset(void)
{
  uint8_t image[sizeof state];
  start_image(image, 0);
  fill_by_memset(image);
}

/* ---- two frames compared ---- */

/* A second frame or memory to compare the first with, and their list. */
static uint8_t second_frame[SSD1815B_FRAME_SIZE];
static uint8_t second_memory[SSD1815B_MEMORY_SIZE];
static uint8_t entries[SSD1815B_FRAME_LIST_SIZE];
static size_t entries_lent;  /* bytes of it that are lent */
static size_t entries_count;

/* The two frames, compared by a model. */
static void compare_frames(const struct model *model)
{
  taken(model->compare_frames(frame, sizeof frame, second_frame,
                              sizeof second_frame, entries, entries_lent,
                              &entries_count));
}

/* The limit of comparing: memcmp of as many bytes that are equal to the end,
** and memcpy of the list, whose count a model has left. */
static void compare_by_memcmp(const uint8_t *bytes, size_t length,
                              size_t entry_size)
{
  static volatile int differs;
  const uint8_t *again = bytes;
  __asm__ volatile("" : "+r"(again));
  differs = memcmp(bytes, again, length);
  (void)differs;
  memcpy(aside, entries, entries_count * entry_size);
  seen(aside);
}

static void frames_by_memcmp(void)
{
  compare_by_memcmp(frame, sizeof frame, SSD1815B_FRAME_ENTRY_SIZE);
}

/* Two frames full of the letter P, and a list for all that may differ. */
static void equal_frames(void)
{
  drawn();
  memcpy(second_frame, frame, sizeof frame);
  memset(entries, 0, sizeof entries);
  entries_lent = sizeof entries;
}

/* A line between two rows of letters. */
static void one_run(void)
{
  equal_frames();
  memset(second_frame + 39 * SSD1815B_COLUMNS + 40, 1, 20);
}

/* Six letters of the second frame are a K. */
static void letters(void)
{
  static const uint8_t letter[] = { 0x7F, 0x08, 0x14, 0x22, 0x41, 0x00 };
  static const size_t changed[] = { 26, 27, 28, 30, 115, 116 };
  equal_frames();
  for (size_t i = 0; i < sizeof changed / sizeof changed[0]; i++) {
    memcpy(memory + changed[i] * sizeof letter, letter, sizeof letter);
  }
  plain_draw(state, sizeof state, memory, sizeof memory, second_frame,
             sizeof second_frame);
}

/* The same, and a list for just these runs. */
static void letters_exact(void)
{
  letters();
  plain_compare_frames(frame, sizeof frame, second_frame, sizeof second_frame,
                       entries, entries_lent, &entries_count);
  entries_lent = entries_count * SSD1815B_FRAME_ENTRY_SIZE;
}

/* Every second place is lit, and the others in the second frame: 8,580 runs. */
static void alternating(void)
{
  equal_frames();
  for (size_t i = 0; i < sizeof frame; i++) {
    frame[i] = i % 2;
    second_frame[i] = 1 - frame[i];
  }
}

/* All dark, and all lit: 65 runs. */
static void whole_rows(void)
{
  equal_frames();
  memset(frame, 0, sizeof frame);
  memset(second_frame, 1, sizeof second_frame);
}

/* Each place dark or lit in each frame by chance. */
static void random_frames(void)
{
  equal_frames();
  for (size_t i = 0; i < sizeof frame; i++) {
    uint32_t bits = next_random();
    frame[i] = bits >> 8 & 1;
    second_frame[i] = bits >> 16 & 1;
  }
}

/* ---- two memories compared ---- */

/* The two memories, compared by a model. */
static void compare_memories(const struct model *model)
{
  taken(model->compare_memories(memory, sizeof memory, second_memory,
                                sizeof second_memory, entries, entries_lent,
                                &entries_count));
}

static void memories_by_memcmp(void)
{
  compare_by_memcmp(memory, sizeof memory, SSD1815B_MEMORY_ENTRY_SIZE);
}

/* Two memories of the same random bytes. */
static void equal_memories(void)
{
  begin(NULL, 0);
  memcpy(second_memory, memory, sizeof memory);
  memset(entries, 0, sizeof entries);
  entries_lent = SSD1815B_MEMORY_LIST_SIZE;
}

/* Two letters, and an icon. */
static void a_few_bytes(void)
{
  equal_memories();
  for (size_t i = 0; i < 12; i++) {
    second_memory[3 * SSD1815B_COLUMNS + 50 + i] ^= 0x41;
  }
  second_memory[SSD1815B_ICON_PAGE * SSD1815B_COLUMNS + 7] ^= 0x01;
}

/* Each bit of the second memory is turned. */
static void every_byte(void)
{
  equal_memories();
  for (size_t i = 0; i < sizeof memory; i++) {
    second_memory[i] ^= 0xFF;
  }
}

/* ---- the wide terminal ---- */

/* The right chip, the left one being the chip of all rows above, and what is
** drawn and listed of both. */
static uint8_t right_state[SSD1815B_STATE_SIZE];
static uint8_t right_memory[SSD1815B_MEMORY_SIZE];
static uint8_t wide_frame[SSD1815B_WIDE_FRAME_SIZE];
static uint8_t wide_text[SSD1815B_WIDE_TEXT_SIZE];
static size_t wide_text_length;

/* What every wide call begins with. */
#define CHIPS state, sizeof state, memory, sizeof memory, right_state, \
              sizeof right_state, right_memory, sizeof right_memory

/* Makes the right chip's memory random bytes of its own and its registers the
** left chip's, and leaves nothing drawn or listed. */
static void add_right_chip(void)
{
  memcpy(right_state, state, sizeof state);
  for (size_t i = 0; i < sizeof right_memory; i++) {
    right_memory[i] = (uint8_t)next_random();
  }
  memset(wide_frame, 0, sizeof wide_frame);
  wide_text_length = 0;
}

/* Two chips, prepared as one is. */
#define BOTH_AS(name)         \
  static void wide_##name(void) \
  {                           \
    name();                   \
    add_right_chip();         \
  }

/* Page and column, and a piece of a page: a trace without reads, as a driver of
** one chip writes it. */
static void trace_of_pieces(void)
{
  begin_trace();
  for (uint8_t i = 0; i < 240; i++) {
    uint8_t at[] = { (uint8_t)(0xB0 + i % 8), 0x08, 0x12 };
    uint8_t piece[24];
    for (size_t k = 0; k < sizeof piece; k++) {
      piece[k] = (uint8_t)next_random();
    }
    add_record(1, at, sizeof at);
    add_record(2, piece, sizeof piece);
  }
}

BOTH_AS(idle)
BOTH_AS(columns_normal)
BOTH_AS(columns_mirrored)
BOTH_AS(all_lit)
BOTH_AS(display_off)
BOTH_AS(trace_of_commands)
BOTH_AS(trace_of_writes)
BOTH_AS(trace_of_pieces)

/* As a driver of two chips does it: page and column to both, a piece to each,
** and now and then a stroke by read-modify-write on one of them. */
static void wide_trace_of_all(void)
{
  begin_trace();
  for (uint8_t i = 0; i < 200; i++) {
    uint8_t at[] = { (uint8_t)(0xB0 + i % 8), 0x08, 0x12 };
    uint8_t enter = 0xE0;
    uint8_t leave = 0xEE;
    static const uint8_t both = SSD1815B_BOTH;
    add_record(5, &both, 1);
    add_record(1, at, sizeof at);
    for (uint8_t side = SSD1815B_LEFT; side <= SSD1815B_RIGHT; side++) {
      uint8_t piece[24];
      for (size_t k = 0; k < sizeof piece; k++) {
        piece[k] = (uint8_t)next_random();
      }
      uint8_t read_back[] = { 0x00, piece[0] };
      add_record(5, &side, 1);
      add_record(2, piece, sizeof piece);
      add_record(1, at, sizeof at);
      add_record(1, &enter, 1);
      add_record(3, read_back, sizeof read_back);
      add_record(1, &leave, 1);
    }
  }
  add_right_chip();
}

/* The trace, as a wide one. */
static void wide_run(const struct model *model)
{
  size_t offset;
  size_t count;
  taken(model->wide_run(CHIPS, trace, trace_length, &offset, &count));
  answer(offset);
  answer(count);
}

/* The limit of a trace that goes to both chips. */
static void records_twice(void)
{
  copy_records(2);
}

/* The limit of a wide event call: memcpy of the two images. */
static void copy_both_images(void)
{
  for (int i = 0; i < SINGLES; i++) {
    memcpy(aside, state, sizeof state);
    memcpy(aside + sizeof state, right_state, sizeof right_state);
    seen(aside);
  }
}

/* Command calls for those that are selected. */
static void wide_commands(const struct model *model, uint8_t selection)
{
  for (int i = 0; i < SINGLES; i++) {
    taken(model->wide_command(CHIPS, selection, (uint8_t)(0x40 + i % 64)));
  }
}

/* Command calls for the left chip alone. */
static void wide_commands_left(const struct model *model)
{
  wide_commands(model, SSD1815B_LEFT);
}

/* Command calls for both. */
static void wide_commands_both(const struct model *model)
{
  wide_commands(model, SSD1815B_BOTH);
}

/* Write calls for those that are selected. */
static void wide_writes(const struct model *model, uint8_t selection)
{
  for (int i = 0; i < SINGLES; i++) {
    taken(model->wide_write(CHIPS, selection, (uint8_t)i));
  }
}

/* Write calls for the left chip alone. */
static void wide_writes_left(const struct model *model)
{
  wide_writes(model, SSD1815B_LEFT);
}

/* Write calls for both. */
static void wide_writes_both(const struct model *model)
{
  wide_writes(model, SSD1815B_BOTH);
}

/* Read calls of the right chip. */
static void wide_reads(const struct model *model)
{
  for (int i = 0; i < SINGLES; i++) {
    uint8_t byte;
    uint8_t dummy;
    taken(model->wide_read(CHIPS, SSD1815B_RIGHT, &byte, &dummy));
    answer(byte);
    answer(dummy);
  }
}

/* Calls for a page, of each side in turn. */
static void wide_pages(const struct model *model)
{
  for (int i = 0; i < SINGLES; i++) {
    size_t place;
    size_t length;
    taken(model->wide_page(memory, sizeof memory, right_memory,
                           sizeof right_memory, (uint8_t)(1 + i % 2),
                           (uint8_t)(i % SSD1815B_PAGES), &place, &length));
    answer(place);
    answer(length);
  }
}

/* The limit of a page call: memcpy of its two answers. */
static void copy_answers(void)
{
  for (int i = 0; i < SINGLES; i++) {
    memcpy(aside, memory, 2 * sizeof(size_t));
    seen(aside);
  }
}

/* The frame of both. */
static void wide_draw(const struct model *model)
{
  taken(model->wide_draw(CHIPS, wide_frame, sizeof wide_frame));
}

/* The limits of a wide frame. */
static void wide_draw_by_sse2(void)
{
  taken(sse2_wide_draw(CHIPS, wide_frame, sizeof wide_frame));
}

static void wide_light_by_memset(void)
{
  memset(wide_frame, 1, sizeof wide_frame);
  seen(wide_frame);
}

static void wide_darken_by_memset(void)
{
  memset(wide_frame, 0, sizeof wide_frame);
  seen(wide_frame);
}

/* Two narrow frames, one of each. */
static void draw_each(const struct model *model)
{
  draw(model);
  taken(model->draw(right_state, sizeof right_state, right_memory,
                    sizeof right_memory, second_frame, sizeof second_frame));
}

/* A wide frame full of the letter P. */
static void wide_drawn(void)
{
  drawn();
  add_right_chip();
  plain_wide_draw(state, sizeof state, memory, sizeof memory, state,
                  sizeof state, memory, sizeof memory, wide_frame,
                  sizeof wide_frame);
}

/* Its text. */
static void wide_list(const struct model *model)
{
  taken(model->wide_list(SSD1815B_TAKEN, 0, wide_frame, sizeof wide_frame,
                         wide_text, sizeof wide_text, &wide_text_length));
}

/* The text's bytes, which a model has written before. */
static void copy_wide_text(void)
{
  memcpy(aside, wide_text, wide_text_length);
  seen(aside);
}

/* ---- all of them ---- */

/* Each limit, as the rows have it. */
#define LIMIT(by, what) .limit = by, .limit_what = what
#define DRAWN_BY(by, what) LIMIT(by, what), .limit_leaves_same = true
#define BY_SSE2 DRAWN_BY(draw_by_sse2, "SSE2 loop")
#define BY_RECORDS LIMIT(records_by_library, "memcpy of each record")
#define BY_READS LIMIT(reads_by_library, "memcmp of each record")
#define BY_BOTH LIMIT(records_by_library, "memcpy or memcmp of each record")
#define BY_TWICE LIMIT(records_twice, "memcpy of each record, twice")
#define BY_IMAGE LIMIT(copy_images, "memcpy of the image")
#define BY_IMAGES LIMIT(copy_both_images, "memcpy of both images")
#define BY_FRAMES \
  LIMIT(frames_by_memcmp, "memcmp of a frame, memcpy of the list")
#define BY_MEMORIES \
  LIMIT(memories_by_memcmp, "memcmp of a memory, memcpy of the list")

const struct workload workloads[] = {
  { .name = "columns normal", .unit = "frame", .prepare = columns_normal,
    .once = draw, .units = one, BY_SSE2 },
  { .name = "columns mirrored", .unit = "frame", .prepare = columns_mirrored,
    .once = draw, .units = one, BY_SSE2 },
  { .name = "rows reversed, reverse", .unit = "frame", .prepare = rows_reversed,
    .once = draw, .units = one, BY_SSE2 },
  { .name = "all three turned", .unit = "frame", .prepare = all_turned,
    .once = draw, .units = one, BY_SSE2 },
  { .name = "16 rows in use", .unit = "frame", .prepare = sixteen_rows,
    .once = draw, .units = one, BY_SSE2 },
  { .name = "all lit", .unit = "frame", .prepare = all_lit, .once = draw,
    .units = one, DRAWN_BY(light_by_memset, "memset of the frame") },
  { .name = "display off", .unit = "frame", .prepare = display_off,
    .once = draw, .units = one,
    DRAWN_BY(darken_by_memset, "memset of the frame") },
  { .name = "run of commands", .unit = "event", .prepare = trace_of_commands,
    .once = run, .units = events_of_trace, BY_RECORDS },
  { .name = "run of writes", .unit = "event", .prepare = trace_of_writes,
    .once = run, .units = events_of_trace, BY_RECORDS },
  { .name = "run of writes from 50", .unit = "event",
    .prepare = trace_of_writes_from_50, .once = run, .units = events_of_trace,
    BY_RECORDS },
  { .name = "run of writes to page 8", .unit = "event",
    .prepare = trace_of_writes_to_icons, .once = run, .units = events_of_trace,
    BY_RECORDS },
  { .name = "run of reads", .unit = "event", .prepare = trace_of_reads,
    .once = run, .units = events_of_trace, BY_READS },
  { .name = "run of reads of one byte", .unit = "event",
    .prepare = trace_of_reads_of_one, .once = run, .units = events_of_trace,
    BY_READS },
  { .name = "run of all kinds", .unit = "event", .prepare = trace_of_all,
    .once = run, .units = events_of_trace, BY_BOTH },
  { .name = "command call", .unit = "event", .prepare = idle,
    .once = single_commands, .units = singles, BY_IMAGE },
  { .name = "write call", .unit = "event", .prepare = idle,
    .once = single_writes, .units = singles, BY_IMAGE },
  { .name = "read call", .unit = "event", .prepare = idle, .once = single_reads,
    .units = singles, BY_IMAGE },
  { .name = "reset call", .unit = "event", .prepare = idle,
    .once = single_resets, .units = singles,
    DRAWN_BY(images_by_memcpy, "memcpy of the image") },
  { .name = "start", .unit = "start", .prepare = idle, .once = starts,
    .units = singles,
    DRAWN_BY(start_by_memset, "memset, memcpy of the image") },
  { .name = "start upright", .unit = "start", .prepare = idle,
    .once = starts_upright, .units = singles,
    DRAWN_BY(start_upright_by_memset, "memset, memcpy of the image") },
  { .name = "listing of letters", .unit = "text", .prepare = drawn,
    .once = list, .units = one, LIMIT(copy_text, "memcpy of the text") },
  { .name = "frames: equal", .unit = "pair", .prepare = equal_frames,
    .once = compare_frames, .units = one, .compares = true, BY_FRAMES },
  { .name = "frames: one run", .unit = "pair", .prepare = one_run,
    .once = compare_frames, .units = one, .compares = true, BY_FRAMES },
  { .name = "frames: letters", .unit = "pair", .prepare = letters,
    .once = compare_frames, .units = one, .compares = true, BY_FRAMES },
  { .name = "frames: letters, exact list", .unit = "pair",
    .prepare = letters_exact, .once = compare_frames, .units = one,
    .compares = true, BY_FRAMES },
  { .name = "frames: every place a run", .unit = "pair", .prepare = alternating,
    .once = compare_frames, .units = one, .compares = true, BY_FRAMES },
  { .name = "frames: every row a run", .unit = "pair", .prepare = whole_rows,
    .once = compare_frames, .units = one, .compares = true, BY_FRAMES },
  { .name = "frames: random", .unit = "pair", .prepare = random_frames,
    .once = compare_frames, .units = one, .compares = true, BY_FRAMES },
  { .name = "memories: equal", .unit = "pair", .prepare = equal_memories,
    .once = compare_memories, .units = one, .compares = true, BY_MEMORIES },
  { .name = "memories: a few bytes", .unit = "pair", .prepare = a_few_bytes,
    .once = compare_memories, .units = one, .compares = true, BY_MEMORIES },
  { .name = "memories: every byte", .unit = "pair", .prepare = every_byte,
    .once = compare_memories, .units = one, .compares = true, BY_MEMORIES },
  { .name = "wide command call, left", .unit = "event", .prepare = wide_idle,
    .once = wide_commands_left, .units = singles, BY_IMAGES },
  { .name = "wide command call, both", .unit = "event", .prepare = wide_idle,
    .once = wide_commands_both, .units = singles, BY_IMAGES },
  { .name = "wide write call, left", .unit = "event", .prepare = wide_idle,
    .once = wide_writes_left, .units = singles, BY_IMAGES },
  { .name = "wide write call, both", .unit = "event", .prepare = wide_idle,
    .once = wide_writes_both, .units = singles, BY_IMAGES },
  { .name = "wide read call", .unit = "event", .prepare = wide_idle,
    .once = wide_reads, .units = singles, BY_IMAGES },
  { .name = "wide run of all kinds", .unit = "event",
    .prepare = wide_trace_of_all, .once = wide_run, .units = events_of_trace,
    BY_BOTH },
  { .name = "commands played wide", .unit = "event",
    .prepare = wide_trace_of_commands, .once = wide_run,
    .units = events_of_trace, .beside = run,
    .beside_what = "the narrow run of the same trace", BY_TWICE },
  { .name = "writes played wide", .unit = "event",
    .prepare = wide_trace_of_writes, .once = wide_run, .units = events_of_trace,
    .beside = run, .beside_what = "the narrow run of the same trace",
    BY_TWICE },
  { .name = "pieces played wide", .unit = "event",
    .prepare = wide_trace_of_pieces, .once = wide_run, .units = events_of_trace,
    .beside = run, .beside_what = "the narrow run of the same trace",
    BY_TWICE },
  { .name = "wide: columns normal", .unit = "frame",
    .prepare = wide_columns_normal, .once = wide_draw, .units = one,
    .beside = draw_each, .beside_what = "two narrow frames",
    DRAWN_BY(wide_draw_by_sse2, "SSE2 loop") },
  { .name = "wide: columns mirrored", .unit = "frame",
    .prepare = wide_columns_mirrored, .once = wide_draw, .units = one,
    .beside = draw_each, .beside_what = "two narrow frames",
    DRAWN_BY(wide_draw_by_sse2, "SSE2 loop") },
  { .name = "wide: all lit", .unit = "frame", .prepare = wide_all_lit,
    .once = wide_draw, .units = one, .beside = draw_each,
    .beside_what = "two narrow frames",
    DRAWN_BY(wide_light_by_memset, "memset of the frame") },
  { .name = "wide: display off", .unit = "frame", .prepare = wide_display_off,
    .once = wide_draw, .units = one, .beside = draw_each,
    .beside_what = "two narrow frames",
    DRAWN_BY(wide_darken_by_memset, "memset of the frame") },
  { .name = "wide page", .unit = "page", .prepare = wide_idle,
    .once = wide_pages, .units = singles,
    LIMIT(copy_answers, "memcpy of 16 bytes") },
  { .name = "wide listing of letters", .unit = "text", .prepare = wide_drawn,
    .once = wide_list, .units = one,
    LIMIT(copy_wide_text, "memcpy of the text") },
};

const size_t workload_count = sizeof workloads / sizeof workloads[0];

void workload_do(const struct workload *workload, const struct model *model,
                 size_t times)
{
  for (size_t i = 0; i < times; i++) {
    workload->once(model);
  }
}

static uint64_t mixed(uint64_t sum, const uint8_t *bytes, size_t length)
{
  for (size_t i = 0; i < length; i++) {
    sum = (sum ^ bytes[i]) * 0x100000001B3;
  }
  return sum;
}

uint64_t workload_left(void)
{
  uint64_t sum = answers;
  sum = mixed(sum, state, sizeof state);
  sum = mixed(sum, memory, sizeof memory);
  sum = mixed(sum, frame, sizeof frame);
  sum = mixed(sum, second_frame, sizeof second_frame);
  sum = mixed(sum, second_memory, sizeof second_memory);
  sum = mixed(sum, entries, sizeof entries);
  sum = mixed(sum + entries_count, text, text_length);
  sum = mixed(sum, right_state, sizeof right_state);
  sum = mixed(sum, right_memory, sizeof right_memory);
  sum = mixed(sum, wide_frame, sizeof wide_frame);
  sum = mixed(sum, wide_text, wide_text_length);
  return sum;
}
