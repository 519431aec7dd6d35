/*
** The two comparing calls, the fastest C that we could write by hand: what the
** library could still gain.  Rows are 64-bit masks, gathered by multiplication
** and read bit by bit.  The yardstick is plain.c.
*/
#include "tuned.h"

#include <stdbool.h>
#include <string.h>

enum {
  MEMORY_SIZE = SSD1815B_MEMORY_SIZE,
  FRAME_SIZE = SSD1815B_FRAME_SIZE,
  COLUMNS = SSD1815B_COLUMNS,
  ICON_PAGE = SSD1815B_ICON_PAGE,
  ICON_ROW = SSD1815B_ICON_ROW
};

/* ---- where two frames differ ---- */

/* Whether a byte of a frame is above 1.  Both halves are asked at once, which
** is twice as fast. */
static bool any_above_1(const uint8_t *frame)
{
  enum { HALF = FRAME_SIZE / 2 };
  uint8_t bits = 0;
  uint8_t more = 0;
  for (size_t i = 0; i < HALF; i++) {
    bits |= frame[i];
    more |= frame[HALF + i];
  }
  return (bits | more) > 1;
}

/* A row's places as bits: place x is bit x % 64 of word x / 64. */
enum { WORDS = 3 };

/* Eight places as bits: the product has each of them once in its high byte. */
static uint64_t eight_bits(const uint8_t *places)
{
  _Static_assert(__BYTE_ORDER__ == __ORDER_LITTLE_ENDIAN__,
                 "the first place is the low byte of a word");
  uint64_t word;
  memcpy(&word, places, sizeof word);
  return word * 0x0102040810204080 >> 56;
}

/* All places of a row: 64, 64 and 4. */
static void row_bits(uint64_t *bits, const uint8_t *row)
{
  for (size_t i = 0; i < WORDS - 1; i++) {
    bits[i] = 0;
    for (size_t k = 0; k < 64; k += 8) {
      bits[i] |= eight_bits(row + 64 * i + k) << k;
    }
  }
  bits[WORDS - 1] = eight_bits(row + COLUMNS - 8) >> 4;
}

/* A row's runs: the places where they begin, and where they end. */
struct runs {
  uint64_t first[WORDS];
  uint64_t last[WORDS];
};

/* A run begins at a differing place that is not joined to the place before it,
** and ends at one that the place after it is not joined to. */
static struct runs runs_of(const uint8_t *first, const uint8_t *second)
{
  uint64_t was[WORDS];
  uint64_t differs[WORDS];
  uint64_t joined[WORDS + 1] = { 0 }; /* to the run of the place before */
  row_bits(was, first);
  row_bits(differs, second);
  uint64_t was_before = 0;
  uint64_t differs_before = 0;
  for (size_t i = 0; i < WORDS; i++) {
    differs[i] ^= was[i];
    joined[i] = differs[i] & (differs[i] << 1 | differs_before)
                & ~(was[i] ^ (was[i] << 1 | was_before));
    was_before = was[i] >> 63;
    differs_before = differs[i] >> 63;
  }
  struct runs runs;
  for (size_t i = 0; i < WORDS; i++) {
    runs.first[i] = differs[i] & ~joined[i];
    runs.last[i] = differs[i] & ~(joined[i] >> 1 | joined[i + 1] << 63);
  }
  return runs;
}

/* Puts a row's runs into a list that is long enough; the place after them. */
static uint8_t *put_runs(uint8_t *to, const uint8_t *first,
                         const uint8_t *second, size_t row)
{
  struct runs runs = runs_of(first, second);
  uint8_t *ended = to;
  for (size_t i = 0; i < WORDS; i++) {
    for (uint64_t left = runs.first[i]; left != 0; left &= left - 1) {
      size_t x = 64 * i + (size_t)__builtin_ctzll(left);
      to[SSD1815B_RUN_ROW] = (uint8_t)row;
      to[SSD1815B_RUN_FIRST] = (uint8_t)x;
      to[SSD1815B_RUN_WAS] = first[x];
      to[SSD1815B_RUN_IS] = second[x];
      to += SSD1815B_FRAME_ENTRY_SIZE;
    }
    for (uint64_t left = runs.last[i]; left != 0; left &= left - 1) {
      size_t x = 64 * i + (size_t)__builtin_ctzll(left);
      ended[SSD1815B_RUN_LAST] = (uint8_t)x;
      ended += SSD1815B_FRAME_ENTRY_SIZE;
    }
  }
  return to;
}

/* How many runs a row has: a place begins one if it differs, and the place
** before it does not, or differs the other way. */
static size_t count_runs(const uint8_t *first, const uint8_t *second)
{
  uint8_t runs = first[0] ^ second[0];
  for (size_t x = 1; x < COLUMNS; x++) {
    uint8_t differs = first[x] ^ second[x];
    uint8_t before = first[x - 1] ^ second[x - 1];
    uint8_t turned = first[x] ^ first[x - 1];
    runs = (uint8_t)(runs + (differs & (turned | (before ^ 1))));
  }
  return runs;
}

/* The rows that differ, in order; how many. */
static size_t differing_rows(uint8_t *rows, const uint8_t *first,
                             const uint8_t *second)
{
  size_t count = 0;
  for (size_t row = 0; row <= ICON_ROW; row++) {
    if (memcmp(first + row * COLUMNS, second + row * COLUMNS, COLUMNS) != 0) {
      rows[count++] = (uint8_t)row;
    }
  }
  return count;
}

/* Lists frames of dots that are not equal.  The runs are counted first where
** they may be too many: a list aside would take 42,900 bytes of the stack. */
static uint8_t list_runs(const uint8_t *first, const uint8_t *second,
                         uint8_t *list, size_t list_len, size_t *count)
{
  uint8_t rows[SSD1815B_FRAME_ROWS];
  size_t row_count = differing_rows(rows, first, second);
  if (list_len < SSD1815B_FRAME_LIST_SIZE) {
    size_t runs = 0;
    for (size_t i = 0; i < row_count; i++) {
      size_t at = (size_t)rows[i] * COLUMNS;
      runs += count_runs(first + at, second + at);
    }
    if (list_len < runs * SSD1815B_FRAME_ENTRY_SIZE) {
      return SSD1815B_LIST_TOO_SMALL;
    }
  }
  uint8_t *to = list;
  for (size_t i = 0; i < row_count; i++) {
    size_t at = (size_t)rows[i] * COLUMNS;
    to = put_runs(to, first + at, second + at, rows[i]);
  }
  *count = (size_t)(to - list) / SSD1815B_FRAME_ENTRY_SIZE;
  return SSD1815B_TAKEN;
}

uint8_t tuned_compare_frames(const uint8_t *first, size_t first_len,
                             const uint8_t *second, size_t second_len,
                             uint8_t *list, size_t list_len, size_t *count)
{
  *count = 0;
  if (first_len < FRAME_SIZE || second_len < FRAME_SIZE) {
    return SSD1815B_TOO_SHORT;
  }
  bool equal = memcmp(first, second, FRAME_SIZE) == 0;
  if (any_above_1(first) || (!equal && any_above_1(second))) {
    return SSD1815B_FRAME_BYTE_ABOVE;
  }
  if (equal) {
    return SSD1815B_TAKEN;
  }
  return list_runs(first, second, list, list_len, count);
}

/* ---- where two memories differ ---- */

/* How many bytes of a page differ, in some of their bits. */
static size_t count_bytes(const uint8_t *first, const uint8_t *second,
                          uint8_t bits)
{
  uint8_t bytes = 0;
  for (size_t c = 0; c < COLUMNS; c++) {
    bytes = (uint8_t)(bytes + (((first[c] ^ second[c]) & bits) != 0));
  }
  return bytes;
}

/* Puts a byte into a list, its place low byte first; the place after it. */
static uint8_t *put_byte(uint8_t *to, size_t place, uint8_t was, uint8_t is)
{
  uint32_t entry = (uint32_t)place | (uint32_t)was << 16 | (uint32_t)is << 24;
  memcpy(to, &entry, sizeof entry);
  return to + SSD1815B_MEMORY_ENTRY_SIZE;
}

/* Puts the bytes of page p that differ, in some of their bits; the place after
** them.  Four that are equal are passed over at once. */
static uint8_t *put_bytes(uint8_t *to, const uint8_t *first,
                          const uint8_t *second, size_t p, uint8_t bits)
{
  for (size_t from = p * COLUMNS; from < (p + 1) * COLUMNS; from += 4) {
    if (memcmp(first + from, second + from, 4) == 0) {
      continue;
    }
    for (size_t i = from; i < from + 4; i++) {
      uint8_t was = first[i] & bits;
      uint8_t is = second[i] & bits;
      if (was != is) {
        to = put_byte(to, i, was, is);
      }
    }
  }
  return to;
}

/* The bits of a page's bytes that count. */
static uint8_t bits_of(size_t p)
{
  return p == ICON_PAGE ? 0x01 : 0xFF;
}

uint8_t tuned_compare_memories(const uint8_t *first, size_t first_len,
                               const uint8_t *second, size_t second_len,
                               uint8_t *list, size_t list_len, size_t *count)
{
  *count = 0;
  if (first_len < MEMORY_SIZE || second_len < MEMORY_SIZE) {
    return SSD1815B_TOO_SHORT;
  }
  if (memcmp(first, second, MEMORY_SIZE) == 0) {
    return SSD1815B_TAKEN;
  }
  size_t bytes[SSD1815B_PAGES];
  size_t all = 0;
  for (size_t p = 0; p < SSD1815B_PAGES; p++) {
    size_t at = p * COLUMNS;
    bytes[p] = count_bytes(first + at, second + at, bits_of(p));
    all += bytes[p];
  }
  if (list_len < all * SSD1815B_MEMORY_ENTRY_SIZE) {
    return SSD1815B_LIST_TOO_SMALL;
  }
  for (size_t p = 0; p < SSD1815B_PAGES; p++) {
    if (bytes[p] > 0) {
      list = put_bytes(list, first, second, p, bits_of(p));
    }
  }
  *count = all;
  return SSD1815B_TAKEN;
}
