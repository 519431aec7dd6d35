/*
** The two drawing calls by hand with SSE2, as fast as we could write them: what
** the library could still gain.  A page lies in nine registers, turned round
** once if the columns are, and each of its rows takes the lowest bits and
** shifts the others down.  No more than SSE2, which every x86-64 has, as the
** library is compiled.
*/
#include "sse2.h"

#ifdef __SSE2__ /* else the C is compiled for another machine, as a test */

#include <emmintrin.h>
#include <stdbool.h>
#include <string.h>

enum {
  STATE_SIZE = SSD1815B_STATE_SIZE,
  MEMORY_SIZE = SSD1815B_MEMORY_SIZE,
  FRAME_SIZE = SSD1815B_FRAME_SIZE,
  WIDE_FRAME_SIZE = SSD1815B_WIDE_FRAME_SIZE,
  COLUMNS = SSD1815B_COLUMNS,
  WIDE_COLUMNS = SSD1815B_WIDE_COLUMNS,
  ROWS = SSD1815B_ROWS,
  ICON_PAGE = SSD1815B_ICON_PAGE,
  ICON_ROW = SSD1815B_ICON_ROW
};

static __m128i load(const uint8_t *from)
{
  return _mm_loadu_si128((const __m128i *)from);
}

static void store(uint8_t *to, __m128i bytes)
{
  _mm_storeu_si128((__m128i *)to, bytes);
}

/* ---- the image ---- */

/* The largest value of each register; the awaited code is asked apart. */
static const uint8_t largest[STATE_SIZE] = {
  8, 255, 63, 63, 63, 63, 7, 7, 1, 1, 255, 3, 1, 1, 1, 1, 1, 1, 3, 255, 1, 255,
  1
};

/* Whether a code can be awaited. */
static bool awaitable(uint8_t code)
{
  return code == 0x00 || code == 0x81 || code == 0xA8 || code == 0xA9
         || code == 0xAD || code == 0xD3 || code == 0xD4;
}

/* Asks the first 16 bytes and the last 16, which overlap. */
static bool legal(const uint8_t *state)
{
  enum { LAST = STATE_SIZE - 16 };
  __m128i above = _mm_or_si128(
    _mm_subs_epu8(load(state), load(largest)),
    _mm_subs_epu8(load(state + LAST), load(largest + LAST)));
  bool ranges = _mm_movemask_epi8(_mm_cmpeq_epi8(above, _mm_setzero_si128()))
                == 0xFFFF;
  return ranges && awaitable(state[SSD1815B_AWAITED_CODE])
         && (state[SSD1815B_READ_MODIFY_WRITE] == 1
             || state[SSD1815B_SAVED_COLUMN] == 0);
}

/* ---- pages and rows ---- */

/* 132 bytes: eight pieces of 16, and the last 16 once more.  They have names
** and no numbers so that gcc keeps them in registers. */
struct page {
  __m128i a, b, c, d, e, f, g, h, last;
};

/* Does something for each piece and its place. */
#define EACH_PIECE(DO) \
  DO(a, 0) DO(b, 16) DO(c, 32) DO(d, 48) DO(e, 64) DO(f, 80) DO(g, 96) \
  DO(h, 112) DO(last, LAST_PLACE)

enum { LAST_PLACE = COLUMNS - 16 };

/* 16 bytes, the last of them first. */
static __m128i turned_round(__m128i bytes)
{
  bytes = _mm_shuffle_epi32(bytes, _MM_SHUFFLE(0, 1, 2, 3));
  bytes = _mm_shufflelo_epi16(bytes, _MM_SHUFFLE(2, 3, 0, 1));
  bytes = _mm_shufflehi_epi16(bytes, _MM_SHUFFLE(2, 3, 0, 1));
  return _mm_or_si128(_mm_slli_epi16(bytes, 8), _mm_srli_epi16(bytes, 8));
}

#define LIGHT(piece, place)    page.piece = _mm_set1_epi8(-1);
#define STRAIGHT(piece, place) page.piece = load(from + (place));
#define MIRRORED(piece, place) \
  page.piece = turned_round(load(from + LAST_PLACE - (place)));
#define TURN(piece, place) \
  page.piece = _mm_srl_epi16(_mm_xor_si128(page.piece, turn), bits);

/* A page from left to right, its bytes from some bit on; `turn` is all ones
** where dark and lit are exchanged. */
static inline struct page load_page(const uint8_t *state, const uint8_t *from,
                                    unsigned bit, __m128i turn)
{
  struct page page;
  if (state[SSD1815B_ENTIRE_ON] == 1) {
    EACH_PIECE(LIGHT)
    return page;
  }
  if (state[SSD1815B_COLUMN_DIRECTION] == 1) {
    EACH_PIECE(MIRRORED)
  } else {
    EACH_PIECE(STRAIGHT)
  }
  __m128i bits = _mm_cvtsi32_si128((int)bit);
  EACH_PIECE(TURN)
  return page;
}

#define LOWEST(piece, place) \
  store(row + (place), _mm_and_si128(page->piece, _mm_set1_epi8(1)));
#define SHIFT(piece, place)  page->piece = _mm_srli_epi16(page->piece, 1);
#define DARK(piece, place)   store(row + (place), _mm_setzero_si128());

/* Draws the page's lowest bits. */
static inline void draw_row(uint8_t *row, const struct page *page)
{
  EACH_PIECE(LOWEST)
}

/* Makes the next bits the lowest. */
static inline void next_row(struct page *page)
{
  EACH_PIECE(SHIFT)
}

/* Makes some rows dark; those of a narrow frame are one stretch. */
static void darken_rows(uint8_t *row, size_t width, size_t count)
{
  if (width == COLUMNS) {
    memset(row, 0, count * COLUMNS);
    return;
  }
  for (; count > 0; count--, row += width) {
    EACH_PIECE(DARK)
  }
}

/* ---- the frame ---- */

/* What a display that is on shows on its 64 rows, page by page from the start
** line on: k is the row in use, `first` the panel row of k = 0. */
static void draw_panel(uint8_t *frame, size_t width, const uint8_t *state,
                       const uint8_t *memory, __m128i turn)
{
  unsigned in_use = state[SSD1815B_MULTIPLEX] + 1u;
  unsigned top = ROWS + (ROWS - in_use) / 2 - state[SSD1815B_OFFSET];
  bool reversed = state[SSD1815B_ROW_DIRECTION] == 1;
  unsigned first = reversed ? top + in_use - 1 : top;
  unsigned step = reversed ? ROWS - 1 : 1;
  unsigned start = state[SSD1815B_START_LINE];
  for (unsigned k = 0; k < in_use;) {
    unsigned ram_row = (start + k) % ROWS;
    unsigned end = k + 8 - ram_row % 8;
    struct page page = load_page(state, memory + ram_row / 8 * COLUMNS,
                                 ram_row % 8, turn);
    for (; k < end && k < in_use; k++) {
      draw_row(frame + (first + step * k) % ROWS * width, &page);
      next_row(&page);
    }
  }
  unsigned dark = (top + in_use) % ROWS;
  unsigned below = ROWS - in_use < ROWS - dark ? ROWS - in_use : ROWS - dark;
  darken_rows(frame + dark * width, width, below);
  darken_rows(frame, width, ROWS - in_use - below);
}

/* A chip's rows, each so many places after the one before it. */
static void draw_half(uint8_t *frame, size_t width, const uint8_t *state,
                      const uint8_t *memory)
{
  if (state[SSD1815B_DISPLAY_ON] == 0) {
    darken_rows(frame, width, ICON_ROW + 1);
    return;
  }
  __m128i turn = _mm_set1_epi8((char)(0 - state[SSD1815B_REVERSE]));
  draw_panel(frame, width, state, memory, turn);
  struct page icons = load_page(state, memory + ICON_PAGE * COLUMNS, 0, turn);
  draw_row(frame + ICON_ROW * width, &icons);
}

uint8_t sse2_draw(const uint8_t *state, size_t state_len,
                  const uint8_t *memory, size_t memory_len, uint8_t *frame,
                  size_t frame_len)
{
  if (state_len < STATE_SIZE || memory_len < MEMORY_SIZE
      || frame_len < FRAME_SIZE) {
    return SSD1815B_TOO_SHORT;
  }
  if (!legal(state)) {
    return SSD1815B_OUT_OF_RANGE;
  }
  draw_half(frame, COLUMNS, state, memory);
  return SSD1815B_TAKEN;
}

uint8_t sse2_wide_draw(const uint8_t *left_state, size_t left_state_len,
                       const uint8_t *left_memory, size_t left_memory_len,
                       const uint8_t *right_state, size_t right_state_len,
                       const uint8_t *right_memory, size_t right_memory_len,
                       uint8_t *frame, size_t frame_len)
{
  if (left_state_len < STATE_SIZE || left_memory_len < MEMORY_SIZE
      || right_state_len < STATE_SIZE || right_memory_len < MEMORY_SIZE
      || frame_len < WIDE_FRAME_SIZE) {
    return SSD1815B_TOO_SHORT;
  }
  if (!legal(left_state) || !legal(right_state)) {
    return SSD1815B_OUT_OF_RANGE;
  }
  draw_half(frame, WIDE_COLUMNS, left_state, left_memory);
  draw_half(frame + COLUMNS, WIDE_COLUMNS, right_state, right_memory);
  return SSD1815B_TAKEN;
}

#endif
