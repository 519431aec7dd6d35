/*
** The rules of documents 01 and 02 in plain C, as fast as we could write them
** for gcc -O3: one function to a rule, nothing proved, no instruction by its
** name.  The bench holds the proved library beside it, and the C tests compare
** it with the oracle like the library, so what is measured is right.
**
** Registers live in the state image itself, by their places.  A byte that was
** just stored is read as a byte again: a wider load would wait for the store.
*/
#include "plain.h"

#include <stdbool.h>
#include <string.h>

enum {
  PAGE = SSD1815B_PAGE,
  COLUMN = SSD1815B_COLUMN,
  START_LINE = SSD1815B_START_LINE,
  OFFSET = SSD1815B_OFFSET,
  MULTIPLEX = SSD1815B_MULTIPLEX,
  CONTRAST = SSD1815B_CONTRAST,
  RATIO = SSD1815B_RESISTOR_RATIO,
  POWER = SSD1815B_POWER_CONTROL,
  BIAS = SSD1815B_BIAS,
  QUARTER_BIAS = SSD1815B_QUARTER_BIAS,
  BYTE_OF_A9 = SSD1815B_BYTE_OF_A9,
  PHASES = SSD1815B_FRAME_PHASES,
  COLUMN_DIRECTION = SSD1815B_COLUMN_DIRECTION,
  ROW_DIRECTION = SSD1815B_ROW_DIRECTION,
  ENTIRE_ON = SSD1815B_ENTIRE_ON,
  REVERSE = SSD1815B_REVERSE,
  DISPLAY_ON = SSD1815B_DISPLAY_ON,
  INDICATOR_ON = SSD1815B_INDICATOR_ON,
  INDICATOR_MODE = SSD1815B_INDICATOR_MODE,
  AWAITED = SSD1815B_AWAITED_CODE,
  MODIFY = SSD1815B_READ_MODIFY_WRITE,
  SAVED = SSD1815B_SAVED_COLUMN,
  FRESH = SSD1815B_FRESH,

  STATE_SIZE = SSD1815B_STATE_SIZE,
  MEMORY_SIZE = SSD1815B_MEMORY_SIZE,
  FRAME_SIZE = SSD1815B_FRAME_SIZE,
  WIDE_FRAME_SIZE = SSD1815B_WIDE_FRAME_SIZE,
  COLUMNS = SSD1815B_COLUMNS,
  WIDE_COLUMNS = SSD1815B_WIDE_COLUMNS,
  ROWS = SSD1815B_ROWS,
  ICON_PAGE = SSD1815B_ICON_PAGE,
  ICON_ROW = SSD1815B_ICON_ROW
};

/* ---- the image: power-on values and ranges ---- */

static const uint8_t power_on[STATE_SIZE] = {
  [MULTIPLEX] = 63, [CONTRAST] = 32, [RATIO] = 4, [FRESH] = 1
};

/* Whether a byte is an awaited code, or 0 for none. */
static const bool awaitable[256] = {
  [0x00] = true, [0x81] = true, [0xA8] = true, [0xA9] = true, [0xAD] = true,
  [0xD3] = true, [0xD4] = true
};

/* Whether each register is in its range, by bits that it must not have: one
** branch for all. */
static inline bool legal(const uint8_t *state)
{
  unsigned to_63 = state[START_LINE] | state[OFFSET] | state[MULTIPLEX]
                   | state[CONTRAST];
  unsigned to_7 = state[RATIO] | state[POWER];
  unsigned to_3 = state[PHASES] | state[INDICATOR_MODE];
  unsigned to_1 = state[BIAS] | state[QUARTER_BIAS] | state[COLUMN_DIRECTION]
                  | state[ROW_DIRECTION] | state[ENTIRE_ON] | state[REVERSE]
                  | state[DISPLAY_ON] | state[INDICATOR_ON] | state[MODIFY]
                  | state[FRESH];
  unsigned saved = state[SAVED] & (state[MODIFY] - 1u);
  return (to_63 >> 6 | to_7 >> 3 | to_3 >> 2 | to_1 >> 1 | saved
          | (state[PAGE] > ICON_PAGE) | !awaitable[state[AWAITED]]) == 0;
}

/* The memory's size, kept from gcc: so many bytes that are known it would clear
** by a repeated instruction, which is slower than the C library's memset. */
static const volatile size_t memory_size = MEMORY_SIZE;

static bool too_short(size_t state_len, size_t memory_len)
{
  return state_len < STATE_SIZE || memory_len < MEMORY_SIZE;
}

/* What is lent: 0, or 1 or 2. */
static uint8_t asked(const uint8_t *state, size_t state_len, size_t memory_len)
{
  if (too_short(state_len, memory_len)) {
    return SSD1815B_TOO_SHORT;
  }
  return legal(state) ? SSD1815B_TAKEN : SSD1815B_OUT_OF_RANGE;
}

/* ---- events on a legal image and a whole memory ---- */

static void software_reset(uint8_t *state)
{
  state[PAGE] = 0;
  state[COLUMN] = 0;
  state[START_LINE] = 0;
  state[ROW_DIRECTION] = 0;
  state[RATIO] = power_on[RATIO];
  state[CONTRAST] = power_on[CONTRAST];
  state[INDICATOR_ON] = 0;
  state[INDICATOR_MODE] = 0;
  state[MODIFY] = 0;
  state[SAVED] = 0;
}

/* Whether a code takes this n. */
static inline bool allowed(uint8_t code, uint8_t n)
{
  return (code != 0xD3 || n <= 0x3F)
         && (code != 0xD4 || (n <= 0x30 && n % 16 == 0));
}

/* Gives a code the n that it takes. */
static inline void set_n(uint8_t *state, uint8_t code, uint8_t n)
{
  switch (code) {
  case 0x81:
    state[CONTRAST] = n % 64;
    break;
  case 0xA8:
    state[MULTIPLEX] = n % 64;
    break;
  case 0xA9:
    state[BYTE_OF_A9] = n;
    break;
  case 0xAD:
    state[INDICATOR_ON] = 1;
    state[INDICATOR_MODE] = n % 4;
    break;
  case 0xD3:
    state[OFFSET] = n;
    break;
  default: /* D4 */
    state[PHASES] = n / 16;
    break;
  }
}

/* What a command byte does with no code awaited; 0 is a byte that is none. */
enum {
  NO_COMMAND, SETS, AWAITS, NO_SUCH_PAGE, TEST, INDICATOR_OFF, ENTER, RESET,
  LEAVE
};

/* A byte that sets: the register at a place keeps some bits, and others are
** those of the value. */
struct effect {
  uint8_t what;
  uint8_t place;
  uint8_t kept;
  uint8_t value;
};

#define EACH_4(DO, n)  DO(n), DO((n) + 1), DO((n) + 2), DO((n) + 3)
#define EACH_8(DO, n)  EACH_4(DO, n), EACH_4(DO, (n) + 4)
#define EACH_16(DO, n) EACH_8(DO, n), EACH_8(DO, (n) + 8)
#define EACH_64(DO, n) \
  EACH_16(DO, n), EACH_16(DO, (n) + 16), EACH_16(DO, (n) + 32), \
  EACH_16(DO, (n) + 48)

#define LOW_COLUMN(n)  [n] = { SETS, COLUMN, 0xF0, (n) % 16 }
#define HIGH_COLUMN(n) [n] = { SETS, COLUMN, 0x0F, (n) % 16 * 16 }
#define RATIO_IS(n)    [n] = { SETS, RATIO, 0, (n) % 8 }
#define POWER_IS(n)    [n] = { SETS, POWER, 0, (n) % 8 }
#define LINE_IS(n)     [n] = { SETS, START_LINE, 0, (n) % 64 }
#define PAGE_IS(n)     [n] = { SETS, PAGE, 0, (n) % 16 }
#define ROWS_ARE(n)    [n] = { SETS, ROW_DIRECTION, 0, (n) >= 0xC8 }
#define FLAG(n, p)     [n] = { SETS, p, 0, 0 }, [(n) + 1] = { SETS, p, 0, 1 }
#define CODE(n)        [n] = { .what = AWAITS }
#define NO_PAGE(n)     [n] = { .what = NO_SUCH_PAGE }
#define TESTS(n)       [n] = { .what = TEST }

static const struct effect effects[256] = {
  EACH_16(LOW_COLUMN, 0x00), EACH_16(HIGH_COLUMN, 0x10), EACH_8(RATIO_IS, 0x20),
  EACH_8(POWER_IS, 0x28), EACH_64(LINE_IS, 0x40), CODE(0x81),
  FLAG(0xA0, COLUMN_DIRECTION), FLAG(0xA2, BIAS), FLAG(0xA4, ENTIRE_ON),
  FLAG(0xA6, REVERSE), CODE(0xA8), CODE(0xA9), FLAG(0xAA, QUARTER_BIAS),
  [0xAC] = { .what = INDICATOR_OFF }, CODE(0xAD), FLAG(0xAE, DISPLAY_ON),
  EACH_8(PAGE_IS, 0xB0), PAGE_IS(0xB8), NO_PAGE(0xB9), NO_PAGE(0xBA),
  NO_PAGE(0xBB), EACH_4(NO_PAGE, 0xBC), EACH_16(ROWS_ARE, 0xC0), CODE(0xD3),
  CODE(0xD4), [0xE0] = { .what = ENTER }, [0xE2] = { .what = RESET },
  [0xE3] = { SETS, FRESH, 0, 1 }, [0xEE] = { .what = LEAVE },
  EACH_16(TESTS, 0xF0)
};

/* A byte that is refused, or does more than set one register. */
static inline uint8_t command_apart(uint8_t *state, uint8_t what)
{
  switch (what) {
  case INDICATOR_OFF:
    state[INDICATOR_ON] = 0;
    state[INDICATOR_MODE] = 0;
    break;
  case ENTER:
    if (state[MODIFY] == 0) {
      state[MODIFY] = 1;
      state[SAVED] = state[COLUMN];
    }
    break;
  case RESET:
    software_reset(state);
    break;
  case LEAVE:
    if (state[MODIFY] == 1) {
      state[MODIFY] = 0;
      state[COLUMN] = state[SAVED];
      state[SAVED] = 0;
    }
    break;
  case NO_SUCH_PAGE:
    return SSD1815B_NO_PAGE;
  case TEST:
    return SSD1815B_TEST_MODE;
  default:
    return SSD1815B_OUTSIDE_TABLE;
  }
  return SSD1815B_TAKEN;
}

/* What a byte that sets does. */
static inline void set_register(uint8_t *state, const struct effect *effect)
{
  uint8_t kept = state[effect->place] & effect->kept;
  state[effect->place] = kept | effect->value;
}

/* A command byte with this code awaited; *awaited is then the next one, and
** fresh is left to the caller. */
static inline uint8_t obey_byte(uint8_t *state, uint8_t byte, uint8_t *awaited)
{
  const struct effect *effect = &effects[byte];
  if (*awaited != 0) {
    if (!allowed(*awaited, byte)) {
      return SSD1815B_NOT_ALLOWED;
    }
    set_n(state, *awaited, byte);
    *awaited = 0;
  } else if (effect->what == SETS) {
    set_register(state, effect);
  } else if (effect->what == AWAITS) {
    *awaited = byte;
  } else {
    return command_apart(state, effect->what);
  }
  return SSD1815B_TAKEN;
}

static inline uint8_t command(uint8_t *state, uint8_t byte)
{
  uint8_t awaited = state[AWAITED];
  uint8_t number = obey_byte(state, byte, &awaited);
  if (number == SSD1815B_TAKEN) {
    state[AWAITED] = awaited;
    state[FRESH] = 1;
  }
  return number;
}

/* Whether data can be accessed now: 0, or 6 or 7. */
static uint8_t access(const uint8_t *state)
{
  if (state[AWAITED] != 0) {
    return SSD1815B_CODE_AWAITED;
  }
  return state[COLUMN] < COLUMNS ? SSD1815B_TAKEN : SSD1815B_COLUMN_ABOVE;
}

static size_t place(const uint8_t *state)
{
  return (size_t)state[PAGE] * COLUMNS + state[COLUMN];
}

static void move_on(uint8_t *state)
{
  state[COLUMN] = (uint8_t)(state[COLUMN] == COLUMNS - 1 ? 0
                                                         : state[COLUMN] + 1);
}

/* A write of which 6 and 7 are asked. */
static void store(uint8_t *state, uint8_t *memory, uint8_t byte)
{
  memory[place(state)] = state[PAGE] == ICON_PAGE ? byte & 1 : byte;
  state[FRESH] = 1;
  move_on(state);
}

static uint8_t write(uint8_t *state, uint8_t *memory, uint8_t byte)
{
  uint8_t number = access(state);
  if (number == SSD1815B_TAKEN) {
    store(state, memory, byte);
  }
  return number;
}

/* What a read that is not the dummy read answers. */
static uint8_t fetch(const uint8_t *state, const uint8_t *memory)
{
  uint8_t byte = memory[place(state)];
  return state[PAGE] == ICON_PAGE ? byte & 1 : byte;
}

/* A read of which 6 and 7 are asked and, in a run, 10. */
static void read(uint8_t *state)
{
  if (state[FRESH] == 1) {
    state[FRESH] = 0;
  } else if (state[MODIFY] == 0) {
    move_on(state);
  }
}

/* A read by itself, with what it answers. */
static uint8_t read_out(uint8_t *state, const uint8_t *memory, uint8_t *byte,
                        uint8_t *dummy)
{
  uint8_t number = access(state);
  if (number != SSD1815B_TAKEN) {
    return number;
  }
  *dummy = state[FRESH];
  if (state[FRESH] == 0) {
    *byte = fetch(state, memory);
  }
  read(state);
  return SSD1815B_TAKEN;
}

/* ---- starting and the four event calls ---- */

uint8_t plain_start_upright(uint8_t *state, size_t state_len, uint8_t *memory,
                            size_t memory_len)
{
  if (too_short(state_len, memory_len)) {
    return SSD1815B_TOO_SHORT;
  }
  memcpy(state, power_on, STATE_SIZE);
  memset(memory, 0, memory_size);
  return SSD1815B_TAKEN;
}

uint8_t plain_start(uint8_t *state, size_t state_len, uint8_t *memory,
                    size_t memory_len)
{
  uint8_t number = plain_start_upright(state, state_len, memory, memory_len);
  if (number == SSD1815B_TAKEN) {
    state[COLUMN_DIRECTION] = 1;
    state[ROW_DIRECTION] = 1;
  }
  return number;
}

uint8_t plain_command(uint8_t *state, size_t state_len, const uint8_t *memory,
                      size_t memory_len, uint8_t byte)
{
  (void)memory;
  uint8_t number = asked(state, state_len, memory_len);
  return number != SSD1815B_TAKEN ? number : command(state, byte);
}

uint8_t plain_write(uint8_t *state, size_t state_len, uint8_t *memory,
                    size_t memory_len, uint8_t byte)
{
  uint8_t number = asked(state, state_len, memory_len);
  return number != SSD1815B_TAKEN ? number : write(state, memory, byte);
}

uint8_t plain_read(uint8_t *state, size_t state_len, const uint8_t *memory,
                   size_t memory_len, uint8_t *byte, uint8_t *dummy)
{
  *byte = 0;
  *dummy = 0;
  uint8_t number = asked(state, state_len, memory_len);
  return number != SSD1815B_TAKEN ? number
                                  : read_out(state, memory, byte, dummy);
}

uint8_t plain_reset(uint8_t *state, size_t state_len, const uint8_t *memory,
                    size_t memory_len)
{
  (void)memory;
  if (too_short(state_len, memory_len)) {
    return SSD1815B_TOO_SHORT;
  }
  memcpy(state, power_on, STATE_SIZE);
  return SSD1815B_TAKEN;
}

/* ---- the run ---- */

enum { HEADER_SIZE = 4 };
enum { COMMANDS = 1, WRITTEN = 2, READ = 3, RESET_PIN = 4 };

static size_t two_bytes(const uint8_t *bytes)
{
  return (size_t)bytes[0] | (size_t)bytes[1] << 8;
}

/* Whether a whole record stands where so many bytes are left. */
static bool whole_record(const uint8_t *bytes, size_t left)
{
  return left >= HEADER_SIZE && left - HEADER_SIZE >= two_bytes(bytes);
}

uint8_t plain_record(const uint8_t *trace, size_t trace_len, size_t at,
                     size_t *kind, size_t *next)
{
  *kind = 0;
  *next = at;
  if (at >= trace_len) {
    return SSD1815B_TAKEN;
  }
  if (!whole_record(trace + at, trace_len - at)) {
    return SSD1815B_HEADER_CUT;
  }
  *kind = two_bytes(trace + at + 2);
  *next = at + HEADER_SIZE + two_bytes(trace + at);
  return SSD1815B_TAKEN;
}

/* A whole record's kind: 0, or 9. */
static uint8_t judge(size_t kind, size_t length)
{
  if (kind < COMMANDS || kind > RESET_PIN
      || (kind == RESET_PIN && length > 0)) {
    return SSD1815B_KIND_UNKNOWN;
  }
  return SSD1815B_TAKEN;
}

/* How many events of a record are taken, and the number of the one that is not,
** or 0. */
struct outcome {
  size_t taken;
  uint8_t number;
};

/* Command bytes that set, up to the first that does not; how many. */
static inline size_t set_registers(uint8_t *state, const uint8_t *bytes,
                                   size_t count)
{
  for (size_t i = 0; i < count; i++) {
    const struct effect *effect = &effects[bytes[i]];
    if (effect->what != SETS) {
      return i;
    }
    set_register(state, effect);
  }
  return count;
}

static struct outcome obey_commands(uint8_t *state, const uint8_t *bytes,
                                    size_t count)
{
  struct outcome outcome = { 0, SSD1815B_TAKEN };
  uint8_t awaited = state[AWAITED];
  while (outcome.taken < count) {
    if (awaited == 0) {
      outcome.taken += set_registers(state, bytes + outcome.taken,
                                     count - outcome.taken);
      if (outcome.taken == count) {
        break;
      }
    }
    outcome.number = obey_byte(state, bytes[outcome.taken], &awaited);
    if (outcome.number != SSD1815B_TAKEN) {
      break;
    }
    outcome.taken++;
  }
  if (outcome.taken > 0) {
    state[AWAITED] = awaited;
    state[FRESH] = 1;
  }
  return outcome;
}

/* How many of so many bytes go up to column 131. */
static size_t stretch(size_t column, size_t count)
{
  return count < COLUMNS - column ? count : COLUMNS - column;
}

/* The column that follows a stretch. */
static size_t after(size_t column)
{
  return column == COLUMNS ? 0 : column;
}

/* The page that is accessed. */
static size_t page_place(const uint8_t *state)
{
  return (size_t)state[PAGE] * COLUMNS;
}

/* Copies bit 0 of each byte. */
static void copy_icons(uint8_t *restrict to, const uint8_t *restrict from,
                       size_t count)
{
  for (size_t i = 0; i < count; i++) {
    to[i] = from[i] & 1;
  }
}

/* Data bytes written, at least one, of which 6 and 7 are asked: the first asks
** for all, as the column then stays below 132. */
static void store_all(uint8_t *state, uint8_t *restrict memory,
                      const uint8_t *restrict bytes, size_t count)
{
  uint8_t *page = memory + page_place(state);
  bool icons = state[PAGE] == ICON_PAGE;
  size_t column = state[COLUMN];
  while (count > 0) {
    size_t part = stretch(column, count);
    if (icons) {
      copy_icons(page + column, bytes, part);
    } else {
      memcpy(page + column, bytes, part);
    }
    bytes += part;
    count -= part;
    column = after(column + part);
  }
  state[COLUMN] = (uint8_t)column;
  state[FRESH] = 1;
}

/* How many recorded bytes, from the first on, are those of a page; on page 8
** their bit 0. */
static size_t count_same(const uint8_t *page, const uint8_t *recorded,
                         size_t count, uint8_t bits)
{
  if (bits == 0xFF && memcmp(page, recorded, count) == 0) {
    return count;
  }
  size_t same = 0;
  while (same < count && (page[same] & bits) == recorded[same]) {
    same++;
  }
  return same;
}

/* How many recorded bytes, from the first on, are one byte again and again. */
static size_t count_again(uint8_t byte, const uint8_t *recorded, size_t count)
{
  if (count > 16 && recorded[0] == byte
      && memcmp(recorded, recorded + 1, count - 1) == 0) {
    return count;
  }
  size_t same = 0;
  while (same < count && recorded[same] == byte) {
    same++;
  }
  return same;
}

/* Data bytes read, after the dummy read and not in read-modify-write; how many
** are as recorded. */
static size_t compare_all(uint8_t *state, const uint8_t *memory,
                          const uint8_t *recorded, size_t count)
{
  const uint8_t *page = memory + page_place(state);
  uint8_t bits = state[PAGE] == ICON_PAGE ? 0x01 : 0xFF;
  size_t column = state[COLUMN];
  size_t done = 0;
  while (done < count) {
    size_t part = stretch(column, count - done);
    size_t same = count_same(page + column, recorded + done, part, bits);
    done += same;
    column = after(column + same);
    if (same < part) {
      break;
    }
  }
  state[COLUMN] = (uint8_t)column;
  return done;
}

/* Data bytes read, at least one, of which 6 and 7 are asked; how many are
** taken.  With fresh 1 the first is the dummy read. */
static size_t read_all(uint8_t *state, const uint8_t *memory,
                       const uint8_t *recorded, size_t count)
{
  size_t dummies = state[FRESH];
  state[FRESH] = 0;
  recorded += dummies;
  count -= dummies;
  if (state[MODIFY] == 1) {
    return dummies + count_again(fetch(state, memory), recorded, count);
  }
  return dummies + compare_all(state, memory, recorded, count);
}

/* A record's payload. */
static struct outcome obey(uint8_t *state, uint8_t *memory, size_t kind,
                           const uint8_t *payload, size_t length)
{
  struct outcome nothing = { 0, SSD1815B_TAKEN };
  if (kind == COMMANDS) {
    return obey_commands(state, payload, length);
  }
  if (kind == RESET_PIN) {
    memcpy(state, power_on, STATE_SIZE);
    return nothing;
  }
  nothing.number = length > 0 ? access(state) : SSD1815B_TAKEN;
  if (length == 0 || nothing.number != SSD1815B_TAKEN) {
    return nothing;
  }
  if (kind == WRITTEN) {
    store_all(state, memory, payload, length);
    return (struct outcome){ length, SSD1815B_TAKEN };
  }
  size_t taken = read_all(state, memory, payload, length);
  return (struct outcome){
    taken, taken < length ? SSD1815B_READ_DIFFERS : SSD1815B_TAKEN
  };
}

uint8_t plain_run(uint8_t *state, size_t state_len, uint8_t *memory,
                  size_t memory_len, const uint8_t *trace, size_t trace_len,
                  size_t *offset, size_t *count)
{
  *offset = 0;
  *count = 0;
  uint8_t number = asked(state, state_len, memory_len);
  if (number != SSD1815B_TAKEN) {
    return number;
  }
  size_t at = 0;
  size_t records = 0;
  while (at < trace_len) {
    if (!whole_record(trace + at, trace_len - at)) {
      number = SSD1815B_HEADER_CUT;
      break;
    }
    size_t length = two_bytes(trace + at);
    size_t kind = two_bytes(trace + at + 2);
    number = judge(kind, length);
    if (number != SSD1815B_TAKEN) {
      break;
    }
    at += HEADER_SIZE;
    struct outcome outcome = obey(state, memory, kind, trace + at, length);
    at += outcome.taken;
    number = outcome.number;
    if (number != SSD1815B_TAKEN) {
      break;
    }
    records++;
  }
  *offset = at;
  *count = records;
  return number;
}

/* ---- the power state ---- */

uint8_t plain_power_state(const uint8_t *state, size_t state_len,
                          uint8_t *power)
{
  *power = SSD1815B_AWAKE;
  uint8_t number = asked(state, state_len, MEMORY_SIZE);
  if (number == SSD1815B_TAKEN && state[DISPLAY_ON] == 0
      && state[ENTIRE_ON] == 1) {
    *power = state[INDICATOR_ON] == 0 ? SSD1815B_SLEEP : SSD1815B_STANDBY;
  }
  return number;
}

/* ---- the frame ---- */

static uint64_t eight_bytes(const uint8_t *from)
{
  uint64_t word;
  memcpy(&word, from, sizeof word);
  return word;
}

static void put_eight(uint8_t *to, uint64_t word)
{
  memcpy(to, &word, sizeof word);
}

/* Eight bytes, the last of them first. */
static uint64_t turned_round(uint64_t word)
{
  word = (word >> 8 & 0x00FF00FF00FF00FF) | (word & 0x00FF00FF00FF00FF) << 8;
  word = (word >> 16 & 0x0000FFFF0000FFFF) | (word & 0x0000FFFF0000FFFF) << 16;
  return word >> 32 | word << 32;
}

enum { LAST_8 = COLUMNS - 8, LAST_4 = COLUMNS - 4 };

/* A page's 132 bytes, the last of them first. */
static void turn_page(uint8_t *restrict to, const uint8_t *restrict page)
{
  for (size_t x = 0; x < LAST_8; x += 8) {
    put_eight(to + x, turned_round(eight_bytes(page + LAST_8 - x)));
  }
  put_eight(to + LAST_8, turned_round(eight_bytes(page)));
}

/* All pages turned round: before the first row is drawn, so that no row waits
** for its page to be stored. */
static void turn_memory(uint8_t *restrict to, const uint8_t *restrict memory)
{
  for (size_t at = 0; at < MEMORY_SIZE; at += COLUMNS) {
    turn_page(to + at, memory + at);
  }
}

/* Two places of a row: one bit of two bytes, after their bits are turned by
** those of `turn`.  gcc does so for 16 places at once, and shifts by twos. */
static inline void draw_two(uint8_t *restrict places,
                            const uint8_t *restrict bytes, unsigned bit,
                            uint16_t turn)
{
  uint16_t two;
  memcpy(&two, bytes, sizeof two);
  two = (uint16_t)((two ^ turn) >> bit & 0x0101);
  memcpy(places, &two, sizeof two);
}

/* The last four places of a row, which are no 16. */
static inline void draw_four(uint8_t *restrict places,
                             const uint8_t *restrict bytes, unsigned bit,
                             uint16_t turn)
{
  uint32_t four;
  memcpy(&four, bytes, sizeof four);
  four = (four ^ turn * 0x00010001u) >> bit & 0x01010101;
  memcpy(places, &four, sizeof four);
}

/* A row that shows one bit of a page's bytes. */
static inline void draw_row(uint8_t *restrict row, const uint8_t *restrict page,
                            unsigned bit, uint16_t turn)
{
  for (size_t x = 0; x < LAST_4; x += 2) {
    draw_two(row + x, page + x, bit, turn);
  }
  draw_four(row + LAST_4, page + LAST_4, bit, turn);
}

/* Rows of a frame: the first place, how many places are drawn of each, and how
** many places after the row before it each begins. */
struct rows {
  uint8_t *frame;
  size_t places;
  size_t width;
};

/* Makes some rows all dark or all lit.  Those of half a wide frame are stored
** by eights: gcc would fill 132 places by a repeated instruction. */
static void fill_rows(struct rows rows, size_t first, size_t count,
                      uint8_t place)
{
  uint8_t *row = rows.frame + first * rows.width;
  if (rows.places == rows.width) {
    memset(row, place, count * rows.width);
    return;
  }
  uint64_t eight = place * 0x0101010101010101;
  for (; count > 0; count--) {
    for (size_t x = 0; x < LAST_8; x += 8) {
      put_eight(row + x, eight);
    }
    put_eight(row + LAST_8, eight);
    row += rows.width;
  }
}

/* Some of the 64 panel rows, from one on and round. */
static void fill_band(struct rows rows, size_t first, size_t count,
                      uint8_t place)
{
  size_t below = count < ROWS - first ? count : ROWS - first;
  fill_rows(rows, first, below, place);
  fill_rows(rows, 0, count - below, place);
}

/* Where the rows in use lie: row k of them on panel row first + step * k, round
** the 64; the dark ones follow from panel row `dark` on. */
struct band {
  unsigned in_use;
  unsigned top;
  unsigned dark;
  unsigned first;
  unsigned step;
};

static struct band band_of(const uint8_t *state)
{
  unsigned in_use = state[MULTIPLEX] + 1u;
  unsigned above = (ROWS - in_use) / 2;
  unsigned top = (above + ROWS - state[OFFSET]) % ROWS;
  bool reversed = state[ROW_DIRECTION] == 1;
  struct band band = { in_use, top, (top + in_use) % ROWS,
                       reversed ? top + in_use - 1 : top,
                       reversed ? ROWS - 1 : 1 };
  return band;
}

/* What the pages of a memory show, from left to right. */
static inline void draw_pages(struct rows rows, const uint8_t *state,
                              const uint8_t *memory)
{
  struct band band = band_of(state);
  unsigned start = state[START_LINE];
  uint16_t turn = state[REVERSE] == 1 ? 0xFFFF : 0x0000;
  fill_band(rows, band.dark, ROWS - band.in_use, 0);
  for (unsigned page = 0; page < ICON_PAGE; page++) {
    const uint8_t *bytes = memory + page * COLUMNS;
#define DRAW_BIT(bit)                                                     \
    {                                                                     \
      unsigned k = (8 * page + (bit) - start) % ROWS;                     \
      unsigned panel_row = (band.first + band.step * k) % ROWS;           \
      if (k < band.in_use) {                                              \
        draw_row(rows.frame + panel_row * rows.width, bytes, bit, turn);  \
      }                                                                   \
    }
    DRAW_BIT(0) DRAW_BIT(1) DRAW_BIT(2) DRAW_BIT(3)
    DRAW_BIT(4) DRAW_BIT(5) DRAW_BIT(6) DRAW_BIT(7)
  }
  draw_row(rows.frame + ICON_ROW * rows.width, memory + ICON_PAGE * COLUMNS, 0,
           turn);
}

/* What entire on shows: the rows in use and the icon line lit, the others
** dark. */
static void light_rows(struct rows rows, const uint8_t *state)
{
  struct band band = band_of(state);
  fill_band(rows, band.dark, ROWS - band.in_use, 0);
  fill_band(rows, band.top, band.in_use, 1);
  fill_rows(rows, ICON_ROW, 1, 1);
}

/* What a chip shows. */
static inline void draw(struct rows rows, const uint8_t *state,
                        const uint8_t *memory)
{
  uint8_t turned[MEMORY_SIZE];
  if (state[DISPLAY_ON] == 0) {
    fill_rows(rows, 0, ROWS + 1, 0);
  } else if (state[ENTIRE_ON] == 1) {
    light_rows(rows, state);
  } else if (state[COLUMN_DIRECTION] == 1) {
    turn_memory(turned, memory);
    draw_pages(rows, state, turned);
  } else {
    draw_pages(rows, state, memory);
  }
}

uint8_t plain_draw(const uint8_t *state, size_t state_len,
                   const uint8_t *memory, size_t memory_len, uint8_t *frame,
                   size_t frame_len)
{
  if (frame_len < FRAME_SIZE) {
    return SSD1815B_TOO_SHORT;
  }
  uint8_t number = asked(state, state_len, memory_len);
  if (number != SSD1815B_TAKEN) {
    return number;
  }
  draw((struct rows){ frame, COLUMNS, COLUMNS }, state, memory);
  return SSD1815B_TAKEN;
}

/* ---- the listing ---- */

static uint8_t *put_text(uint8_t *to, const char *text)
{
  size_t length = strlen(text);
  memcpy(to, text, length);
  return to + length;
}

static uint8_t *put_number(uint8_t *to, size_t value)
{
  uint8_t digits[20];
  size_t count = 0;
  do {
    digits[count++] = (uint8_t)('0' + value % 10);
    value /= 10;
  } while (value != 0);
  while (count > 0) {
    *to++ = digits[--count];
  }
  return to;
}

/* The places of a row as text, and how long each is. */
struct decimal {
  uint8_t digits[3];
  uint8_t length;
};

#define ONE(a, b, c)   { { c }, 1 }
#define TWO(a, b, c)   { { b, c }, 2 }
#define THREE(a, b, c) { { a, b, c }, 3 }
#define TEN(DO, a, b) \
  DO(a, b, '0'), DO(a, b, '1'), DO(a, b, '2'), DO(a, b, '3'), DO(a, b, '4'), \
  DO(a, b, '5'), DO(a, b, '6'), DO(a, b, '7'), DO(a, b, '8'), DO(a, b, '9')

static const struct decimal decimals[] = {
  TEN(ONE, 0, 0), TEN(TWO, 0, '1'), TEN(TWO, 0, '2'), TEN(TWO, 0, '3'),
  TEN(TWO, 0, '4'), TEN(TWO, 0, '5'), TEN(TWO, 0, '6'), TEN(TWO, 0, '7'),
  TEN(TWO, 0, '8'), TEN(TWO, 0, '9'), TEN(THREE, '1', '0'),
  TEN(THREE, '1', '1'), TEN(THREE, '1', '2'), TEN(THREE, '1', '3'),
  TEN(THREE, '1', '4'), TEN(THREE, '1', '5'), TEN(THREE, '1', '6'),
  TEN(THREE, '1', '7'), TEN(THREE, '1', '8'), TEN(THREE, '1', '9'),
  TEN(THREE, '2', '0'), TEN(THREE, '2', '1'), TEN(THREE, '2', '2'),
  TEN(THREE, '2', '3'), TEN(THREE, '2', '4'), TEN(THREE, '2', '5'),
  TEN(THREE, '2', '6')
};

/* Puts a place and what follows it.  It stores four bytes: what comes after
** them in the text is stored later. */
static uint8_t *put_place(uint8_t *to, size_t place, uint8_t then)
{
  _Static_assert(sizeof(struct decimal) == 4, "a place is stored at once");
  size_t length = decimals[place].length;
  memcpy(to, &decimals[place], sizeof(struct decimal));
  to[length] = then;
  return to + length + 1;
}

/* Eight places as bits, the first the lowest: the product has each of them once
** in its high byte. */
static uint64_t eight_lit(const uint8_t *places)
{
  _Static_assert(__BYTE_ORDER__ == __ORDER_LITTLE_ENDIAN__,
                 "the first place is the low byte of a word");
  const uint64_t low_7 = 0x7F7F7F7F7F7F7F7F;
  uint64_t word = eight_bytes(places);
  uint64_t lit = (((word & low_7) + low_7) | word) >> 7 & 0x0101010101010101;
  return lit * 0x0102040810204080 >> 56;
}

/* Up to 64 places of a row as bits: a multiple of eight, or four more, which
** are the last of the row. */
static uint64_t lit_places(const uint8_t *places, size_t count)
{
  uint64_t lit = 0;
  for (size_t x = 0; x + 8 <= count; x += 8) {
    lit |= eight_lit(places + x) << x;
  }
  if (count % 8 != 0) {
    lit |= eight_lit(places + count - 8) >> 4 << (count - 4);
  }
  return lit;
}

/* Puts a row's runs: each bit of `turns` is a place that is not as the one
** before it, a run's first or the one after its last. */
static uint8_t *put_row(uint8_t *to, const uint8_t *row, size_t width,
                        size_t number)
{
  uint8_t *begun = put_place(to, number, ' ');
  uint8_t *end = begun;
  uint64_t before = 0;
  for (size_t from = 0; from < width; from += 64) {
    size_t left = width - from;
    uint64_t lit = lit_places(row + from, left < 64 ? left : 64);
    uint64_t turns = lit ^ (lit << 1 | before);
    before = lit >> 63;
    for (; turns != 0; turns &= turns - 1) {
      size_t bit = (size_t)__builtin_ctzll(turns);
      size_t first = lit >> bit & 1;
      end = put_place(end, from + bit - 1 + first, first ? '-' : ' ');
    }
  }
  if (end == begun) {
    return to;
  }
  end[-1] = '\n';
  return end;
}

/* The listing into a text that is long enough for any; its length. */
static size_t put_listing(uint8_t *text, uint8_t number, size_t offset,
                          const uint8_t *frame, size_t width)
{
  uint8_t *to = text;
  if (number != SSD1815B_TAKEN) {
    to = put_text(to, "refused ");
    to = put_number(to, number);
    to = put_text(to, " at ");
    to = put_number(to, offset);
    *to++ = '\n';
  }
  to = put_text(to, "frame ");
  to = put_number(to, width);
  to = put_text(to, " 65\n");
  for (size_t row = 0; row <= ICON_ROW; row++) {
    to = put_row(to, frame + row * width, width, row);
  }
  to = put_text(to, "end\n");
  return (size_t)(to - text);
}

/* The listing into any text; one of `enough` bytes holds every listing. */
static uint8_t list(uint8_t number, size_t offset, const uint8_t *frame,
                    size_t width, uint8_t *text, size_t text_len,
                    size_t enough, size_t *length)
{
  if (text_len >= enough) {
    *length = put_listing(text, number, offset, frame, width);
    return SSD1815B_TAKEN;
  }
  uint8_t room[SSD1815B_WIDE_TEXT_SIZE];
  size_t needed = put_listing(room, number, offset, frame, width);
  if (text_len < needed) {
    return SSD1815B_TOO_SHORT;
  }
  memcpy(text, room, needed);
  *length = needed;
  return SSD1815B_TAKEN;
}

uint8_t plain_list(uint8_t number, size_t offset, const uint8_t *frame,
                   size_t frame_len, uint8_t *text, size_t text_len,
                   size_t *length)
{
  *length = 0;
  if (frame_len < FRAME_SIZE) {
    return SSD1815B_TOO_SHORT;
  }
  return list(number, offset, frame, COLUMNS, text, text_len,
              SSD1815B_TEXT_SIZE, length);
}

/* ---- where two frames differ ---- */

/* Whether a byte of either frame is above 1. */
static bool any_above_1(const uint8_t *first, const uint8_t *second)
{
  uint8_t bits = 0;
  for (size_t i = 0; i < FRAME_SIZE; i++) {
    bits |= first[i] | second[i];
  }
  return bits > 1;
}

/* Whether a row is the same in both frames. */
static bool same_row(const uint8_t *first, const uint8_t *second)
{
  return memcmp(first, second, COLUMNS) == 0;
}

/* How many runs a row has: one begins at each place that differs, and is not
** as the place before it. */
static size_t count_runs(const uint8_t *first, const uint8_t *second)
{
  uint8_t runs = first[0] != second[0];
  for (size_t x = 1; x < COLUMNS; x++) {
    uint8_t differs = first[x] ^ second[x];
    uint8_t turned = (first[x] ^ first[x - 1]) | (second[x] ^ second[x - 1]);
    runs = (uint8_t)(runs + (differs & turned));
  }
  return runs;
}

/* How many runs two frames have. */
static size_t count_all_runs(const uint8_t *first, const uint8_t *second)
{
  size_t runs = 0;
  for (size_t at = 0; at < FRAME_SIZE; at += COLUMNS) {
    if (!same_row(first + at, second + at)) {
      runs += count_runs(first + at, second + at);
    }
  }
  return runs;
}

/* Puts a row's runs into a list that is long enough; the place after them. */
static uint8_t *put_runs(uint8_t *restrict to, const uint8_t *restrict first,
                         const uint8_t *restrict second, size_t row)
{
  for (size_t x = 0; x < COLUMNS; x++) {
    if (first[x] == second[x]) {
      continue;
    }
    size_t from = x;
    while (x + 1 < COLUMNS && first[x + 1] == first[from]
           && second[x + 1] == second[from]) {
      x++;
    }
    to[SSD1815B_RUN_ROW] = (uint8_t)row;
    to[SSD1815B_RUN_FIRST] = (uint8_t)from;
    to[SSD1815B_RUN_LAST] = (uint8_t)x;
    to[SSD1815B_RUN_WAS] = first[from];
    to[SSD1815B_RUN_IS] = second[from];
    to += SSD1815B_FRAME_ENTRY_SIZE;
  }
  return to;
}

/* All runs into a list that is long enough for them; how many. */
static size_t put_all_runs(uint8_t *list, const uint8_t *first,
                           const uint8_t *second)
{
  uint8_t *to = list;
  for (size_t row = 0; row <= ICON_ROW; row++) {
    size_t at = row * COLUMNS;
    if (!same_row(first + at, second + at)) {
      to = put_runs(to, first + at, second + at, row);
    }
  }
  return (size_t)(to - list) / SSD1815B_FRAME_ENTRY_SIZE;
}

uint8_t plain_compare_frames(const uint8_t *first, size_t first_len,
                             const uint8_t *second, size_t second_len,
                             uint8_t *list, size_t list_len, size_t *count)
{
  *count = 0;
  if (first_len < FRAME_SIZE || second_len < FRAME_SIZE) {
    return SSD1815B_TOO_SHORT;
  }
  if (memcmp(first, second, FRAME_SIZE) == 0) {
    return any_above_1(first, first) ? SSD1815B_FRAME_BYTE_ABOVE
                                     : SSD1815B_TAKEN;
  }
  if (any_above_1(first, second)) {
    return SSD1815B_FRAME_BYTE_ABOVE;
  }
  if (list_len < SSD1815B_FRAME_LIST_SIZE
      && list_len < count_all_runs(first, second) * SSD1815B_FRAME_ENTRY_SIZE) {
    return SSD1815B_LIST_TOO_SMALL;
  }
  *count = put_all_runs(list, first, second);
  return SSD1815B_TAKEN;
}

/* ---- where two memories differ ---- */

/* Whether a page is the same in both memories, in all of its bits. */
static bool same_page(const uint8_t *first, const uint8_t *second)
{
  return memcmp(first, second, COLUMNS) == 0;
}

/* The bits of a page's bytes that count. */
static uint8_t bits_of(size_t page)
{
  return page == ICON_PAGE ? 0x01 : 0xFF;
}

/* How many bytes of a page differ, in some of their bits. */
static size_t count_bytes(const uint8_t *first, const uint8_t *second,
                          uint8_t bits)
{
  uint8_t bytes = 0;
  for (size_t x = 0; x < COLUMNS; x++) {
    bytes = (uint8_t)(bytes + ((first[x] & bits) != (second[x] & bits)));
  }
  return bytes;
}

/* How many bytes of two memories differ. */
static size_t count_all_bytes(const uint8_t *first, const uint8_t *second)
{
  size_t bytes = 0;
  for (size_t page = 0; page <= ICON_PAGE; page++) {
    size_t at = page * COLUMNS;
    if (!same_page(first + at, second + at)) {
      bytes += count_bytes(first + at, second + at, bits_of(page));
    }
  }
  return bytes;
}

/* Puts the bytes of the page at a place that differ, in some of their bits,
** into a list that is long enough; the place after them. */
static uint8_t *put_bytes(uint8_t *restrict to, const uint8_t *restrict first,
                          const uint8_t *restrict second, size_t at,
                          uint8_t bits)
{
  for (size_t i = at; i < at + COLUMNS; i++) {
    uint8_t was = first[i] & bits;
    uint8_t is = second[i] & bits;
    if (was != is) {
      to[0] = (uint8_t)i;
      to[1] = (uint8_t)(i >> 8);
      to[2] = was;
      to[3] = is;
      to += SSD1815B_MEMORY_ENTRY_SIZE;
    }
  }
  return to;
}

/* All bytes into a list that is long enough for them; how many. */
static size_t put_all_bytes(uint8_t *list, const uint8_t *first,
                            const uint8_t *second)
{
  uint8_t *to = list;
  for (size_t page = 0; page <= ICON_PAGE; page++) {
    size_t at = page * COLUMNS;
    if (!same_page(first + at, second + at)) {
      to = put_bytes(to, first, second, at, bits_of(page));
    }
  }
  return (size_t)(to - list) / SSD1815B_MEMORY_ENTRY_SIZE;
}

uint8_t plain_compare_memories(const uint8_t *first, size_t first_len,
                               const uint8_t *second, size_t second_len,
                               uint8_t *list, size_t list_len, size_t *count)
{
  *count = 0;
  if (first_len < MEMORY_SIZE || second_len < MEMORY_SIZE) {
    return SSD1815B_TOO_SHORT;
  }
  if (memcmp(first, second, MEMORY_SIZE) == 0) {
    return SSD1815B_TAKEN;
  }
  if (list_len < SSD1815B_MEMORY_LIST_SIZE
      && list_len < count_all_bytes(first, second)
                    * SSD1815B_MEMORY_ENTRY_SIZE) {
    return SSD1815B_LIST_TOO_SMALL;
  }
  *count = put_all_bytes(list, first, second);
  return SSD1815B_TAKEN;
}

/* ---- the wide terminal: what is lent, and the selection ---- */

enum { LEFT = SSD1815B_LEFT, RIGHT = SSD1815B_RIGHT, BOTH = SSD1815B_BOTH };

/* Whether something lent of two chips is too short. */
static bool either_too_short(size_t left_state_len, size_t left_memory_len,
                             size_t right_state_len, size_t right_memory_len)
{
  return too_short(left_state_len, left_memory_len)
         || too_short(right_state_len, right_memory_len);
}

/* What is lent of two chips: 0, or 1 or 2. */
static uint8_t wide_asked(const uint8_t *left_state, size_t left_state_len,
                          size_t left_memory_len, const uint8_t *right_state,
                          size_t right_state_len, size_t right_memory_len)
{
  if (either_too_short(left_state_len, left_memory_len, right_state_len,
                       right_memory_len)) {
    return SSD1815B_TOO_SHORT;
  }
  return legal(left_state) && legal(right_state) ? SSD1815B_TAKEN
                                                 : SSD1815B_OUT_OF_RANGE;
}

/* Whether a byte selects left, right or both. */
static bool selects(uint8_t selection)
{
  return selection >= LEFT && selection <= BOTH;
}

/* ---- events for both chips: neither changes unless both take them ---- */

/* What a command byte is refused by while this code is awaited: 0, or 3 to 5 or
** 15. */
static inline uint8_t refusal(uint8_t awaited, uint8_t byte)
{
  static const uint8_t numbers[] = {
    [NO_COMMAND] = SSD1815B_OUTSIDE_TABLE, [NO_SUCH_PAGE] = SSD1815B_NO_PAGE,
    [TEST] = SSD1815B_TEST_MODE, [LEAVE] = SSD1815B_TAKEN
  };
  if (awaited == 0) {
    return numbers[effects[byte].what];
  }
  return allowed(awaited, byte) ? SSD1815B_TAKEN : SSD1815B_NOT_ALLOWED;
}

/* What a chip with this code awaited would take of command bytes. */
static struct outcome judge_commands(uint8_t awaited, const uint8_t *bytes,
                                     size_t count)
{
  for (size_t i = 0; i < count; i++) {
    uint8_t number = refusal(awaited, bytes[i]);
    if (number != SSD1815B_TAKEN) {
      return (struct outcome){ i, number };
    }
    bool awaits = awaited == 0 && effects[bytes[i]].what == AWAITS;
    awaited = awaits ? bytes[i] : 0;
  }
  return (struct outcome){ count, SSD1815B_TAKEN };
}

/* Command bytes for both: up to the first that either refuses, and the left's
** number if it is one byte. */
static struct outcome obey_commands_both(uint8_t *left, uint8_t *right,
                                         const uint8_t *bytes, size_t count)
{
  struct outcome outcome = judge_commands(left[AWAITED], bytes, count);
  if (left[AWAITED] != right[AWAITED]) {
    struct outcome other = judge_commands(right[AWAITED], bytes, count);
    outcome = other.taken < outcome.taken ? other : outcome;
  }
  obey_commands(left, bytes, outcome.taken);
  obey_commands(right, bytes, outcome.taken);
  return outcome;
}

/* A command byte: both are asked before either takes it. */
static uint8_t command_both(uint8_t *left, uint8_t *right, uint8_t byte)
{
  uint8_t number = refusal(left[AWAITED], byte);
  if (number == SSD1815B_TAKEN) {
    number = refusal(right[AWAITED], byte);
  }
  if (number == SSD1815B_TAKEN) {
    command(left, byte);
    command(right, byte);
  }
  return number;
}

/* Whether data can be accessed in both: 0, or 6 or 7. */
static uint8_t access_both(const uint8_t *left, const uint8_t *right)
{
  uint8_t number = access(left);
  return number != SSD1815B_TAKEN ? number : access(right);
}

/* A data byte written: both are asked before either stores. */
static uint8_t write_both(uint8_t *left_state, uint8_t *left_memory,
                          uint8_t *right_state, uint8_t *right_memory,
                          uint8_t byte)
{
  uint8_t number = access_both(left_state, right_state);
  if (number == SSD1815B_TAKEN) {
    store(left_state, left_memory, byte);
    store(right_state, right_memory, byte);
  }
  return number;
}

/* ---- the four wide event calls ---- */

uint8_t plain_wide_command(uint8_t *left_state, size_t left_state_len,
                           const uint8_t *left_memory, size_t left_memory_len,
                           uint8_t *right_state, size_t right_state_len,
                           const uint8_t *right_memory,
                           size_t right_memory_len, uint8_t selection,
                           uint8_t byte)
{
  (void)left_memory;
  (void)right_memory;
  uint8_t number = wide_asked(left_state, left_state_len, left_memory_len,
                              right_state, right_state_len, right_memory_len);
  if (number != SSD1815B_TAKEN) {
    return number;
  }
  switch (selection) {
  case LEFT:
    return command(left_state, byte);
  case RIGHT:
    return command(right_state, byte);
  case BOTH:
    return command_both(left_state, right_state, byte);
  default:
    return SSD1815B_NO_SELECTION;
  }
}

uint8_t plain_wide_write(uint8_t *left_state, size_t left_state_len,
                         uint8_t *left_memory, size_t left_memory_len,
                         uint8_t *right_state, size_t right_state_len,
                         uint8_t *right_memory, size_t right_memory_len,
                         uint8_t selection, uint8_t byte)
{
  uint8_t number = wide_asked(left_state, left_state_len, left_memory_len,
                              right_state, right_state_len, right_memory_len);
  if (number != SSD1815B_TAKEN) {
    return number;
  }
  switch (selection) {
  case LEFT:
    return write(left_state, left_memory, byte);
  case RIGHT:
    return write(right_state, right_memory, byte);
  case BOTH:
    return write_both(left_state, left_memory, right_state, right_memory, byte);
  default:
    return SSD1815B_NO_SELECTION;
  }
}

uint8_t plain_wide_reset(uint8_t *left_state, size_t left_state_len,
                         const uint8_t *left_memory, size_t left_memory_len,
                         uint8_t *right_state, size_t right_state_len,
                         const uint8_t *right_memory, size_t right_memory_len,
                         uint8_t selection)
{
  (void)left_memory;
  (void)right_memory;
  if (either_too_short(left_state_len, left_memory_len, right_state_len,
                       right_memory_len)) {
    return SSD1815B_TOO_SHORT;
  }
  if (!selects(selection)) {
    return SSD1815B_NO_SELECTION;
  }
  if (selection & LEFT) {
    memcpy(left_state, power_on, STATE_SIZE);
  }
  if (selection & RIGHT) {
    memcpy(right_state, power_on, STATE_SIZE);
  }
  return SSD1815B_TAKEN;
}

uint8_t plain_wide_read(uint8_t *left_state, size_t left_state_len,
                        const uint8_t *left_memory, size_t left_memory_len,
                        uint8_t *right_state, size_t right_state_len,
                        const uint8_t *right_memory, size_t right_memory_len,
                        uint8_t selection, uint8_t *byte, uint8_t *dummy)
{
  *byte = 0;
  *dummy = 0;
  uint8_t number = wide_asked(left_state, left_state_len, left_memory_len,
                              right_state, right_state_len, right_memory_len);
  if (number != SSD1815B_TAKEN) {
    return number;
  }
  switch (selection) {
  case LEFT:
    return read_out(left_state, left_memory, byte, dummy);
  case RIGHT:
    return read_out(right_state, right_memory, byte, dummy);
  case BOTH:
    return SSD1815B_BOTH_SELECTED;
  default:
    return SSD1815B_NO_SELECTION;
  }
}

/* ---- the wide run ---- */

enum { SELECT = 5 };

/* Two chips, and which of them a run has selected. */
struct terminal {
  uint8_t *left_state;
  uint8_t *left_memory;
  uint8_t *right_state;
  uint8_t *right_memory;
  uint8_t selection;
};

/* A whole record's kind and, of a select record, its payload: 0, or 9 or 13. */
static uint8_t wide_judge(size_t kind, const uint8_t *payload, size_t length)
{
  if (kind != SELECT) {
    return judge(kind, length);
  }
  return length == 1 && selects(payload[0]) ? SSD1815B_TAKEN
                                            : SSD1815B_NO_SELECTION;
}

/* A record's payload for both chips. */
static struct outcome obey_both(const struct terminal *both, size_t kind,
                                const uint8_t *payload, size_t length)
{
  struct outcome nothing = { 0, SSD1815B_TAKEN };
  if (kind == COMMANDS) {
    return obey_commands_both(both->left_state, both->right_state, payload,
                              length);
  }
  if (kind == RESET_PIN) {
    memcpy(both->left_state, power_on, STATE_SIZE);
    memcpy(both->right_state, power_on, STATE_SIZE);
    return nothing;
  }
  if (length == 0) {
    return nothing;
  }
  nothing.number = kind == READ
                     ? SSD1815B_BOTH_SELECTED
                     : access_both(both->left_state, both->right_state);
  if (nothing.number != SSD1815B_TAKEN) {
    return nothing;
  }
  store_all(both->left_state, both->left_memory, payload, length);
  store_all(both->right_state, both->right_memory, payload, length);
  return (struct outcome){ length, SSD1815B_TAKEN };
}

/* A record of a wide trace, whose kind is judged. */
static struct outcome wide_obey(struct terminal *terminal, size_t kind,
                                const uint8_t *payload, size_t length)
{
  if (kind == SELECT) {
    terminal->selection = payload[0];
    return (struct outcome){ length, SSD1815B_TAKEN };
  }
  switch (terminal->selection) {
  case LEFT:
    return obey(terminal->left_state, terminal->left_memory, kind, payload,
                length);
  case RIGHT:
    return obey(terminal->right_state, terminal->right_memory, kind, payload,
                length);
  default:
    return obey_both(terminal, kind, payload, length);
  }
}

/* All records; *at and *records are where it stopped and how many it did. */
static uint8_t wide_walk(struct terminal *terminal, const uint8_t *trace,
                         size_t trace_len, size_t *at, size_t *records)
{
  while (*at < trace_len) {
    size_t kind;
    size_t next;
    uint8_t number = plain_record(trace, trace_len, *at, &kind, &next);
    if (number != SSD1815B_TAKEN) {
      return number;
    }
    const uint8_t *payload = trace + *at + HEADER_SIZE;
    size_t length = next - *at - HEADER_SIZE;
    number = wide_judge(kind, payload, length);
    if (number != SSD1815B_TAKEN) {
      return number;
    }
    struct outcome outcome = wide_obey(terminal, kind, payload, length);
    *at += HEADER_SIZE + outcome.taken;
    if (outcome.number != SSD1815B_TAKEN) {
      return outcome.number;
    }
    ++*records;
  }
  return SSD1815B_TAKEN;
}

uint8_t plain_wide_run(uint8_t *left_state, size_t left_state_len,
                       uint8_t *left_memory, size_t left_memory_len,
                       uint8_t *right_state, size_t right_state_len,
                       uint8_t *right_memory, size_t right_memory_len,
                       const uint8_t *trace, size_t trace_len, size_t *offset,
                       size_t *count)
{
  *offset = 0;
  *count = 0;
  uint8_t number = wide_asked(left_state, left_state_len, left_memory_len,
                              right_state, right_state_len, right_memory_len);
  if (number != SSD1815B_TAKEN) {
    return number;
  }
  struct terminal terminal = { left_state, left_memory, right_state,
                               right_memory, BOTH };
  return wide_walk(&terminal, trace, trace_len, offset, count);
}

/* ---- the wide frame, one page, the wide listing ---- */

/* Whether both halves are dark, or have the same rows lit. */
static bool filled_alike(const uint8_t *left, const uint8_t *right)
{
  if (left[DISPLAY_ON] == 0 || right[DISPLAY_ON] == 0) {
    return left[DISPLAY_ON] == right[DISPLAY_ON];
  }
  return left[ENTIRE_ON] == 1 && right[ENTIRE_ON] == 1
         && left[MULTIPLEX] == right[MULTIPLEX]
         && left[OFFSET] == right[OFFSET];
}

uint8_t plain_wide_draw(const uint8_t *left_state, size_t left_state_len,
                        const uint8_t *left_memory, size_t left_memory_len,
                        const uint8_t *right_state, size_t right_state_len,
                        const uint8_t *right_memory, size_t right_memory_len,
                        uint8_t *frame, size_t frame_len)
{
  if (frame_len < WIDE_FRAME_SIZE) {
    return SSD1815B_TOO_SHORT;
  }
  uint8_t number = wide_asked(left_state, left_state_len, left_memory_len,
                              right_state, right_state_len, right_memory_len);
  if (number != SSD1815B_TAKEN) {
    return number;
  }
  if (filled_alike(left_state, right_state)) {
    draw((struct rows){ frame, WIDE_COLUMNS, WIDE_COLUMNS }, left_state,
         left_memory);
    return SSD1815B_TAKEN;
  }
  draw((struct rows){ frame, COLUMNS, WIDE_COLUMNS }, left_state, left_memory);
  draw((struct rows){ frame + COLUMNS, COLUMNS, WIDE_COLUMNS }, right_state,
       right_memory);
  return SSD1815B_TAKEN;
}

uint8_t plain_wide_page(const uint8_t *left_memory, size_t left_memory_len,
                        const uint8_t *right_memory, size_t right_memory_len,
                        uint8_t side, uint8_t page, size_t *place_of_page,
                        size_t *length)
{
  (void)left_memory;
  (void)right_memory;
  *place_of_page = 0;
  *length = 0;
  if (left_memory_len < MEMORY_SIZE || right_memory_len < MEMORY_SIZE) {
    return SSD1815B_TOO_SHORT;
  }
  if (side != LEFT && side != RIGHT) {
    return SSD1815B_NO_SELECTION;
  }
  if (page > ICON_PAGE) {
    return SSD1815B_NO_PAGE;
  }
  *place_of_page = (size_t)page * COLUMNS;
  *length = COLUMNS;
  return SSD1815B_TAKEN;
}

uint8_t plain_wide_list(uint8_t number, size_t offset, const uint8_t *frame,
                        size_t frame_len, uint8_t *text, size_t text_len,
                        size_t *length)
{
  *length = 0;
  if (frame_len < WIDE_FRAME_SIZE) {
    return SSD1815B_TOO_SHORT;
  }
  return list(number, offset, frame, WIDE_COLUMNS, text, text_len,
              SSD1815B_WIDE_TEXT_SIZE, length);
}
