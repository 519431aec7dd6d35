/*
** A model of the SSD1815B display driver: what a C host calls.
**
** The model goes from bus events to registers, display memory and the frame
** on the glass, by the rules of documents 01 and 02.  It is proved: for every
** input, refused ones too, each call below answers and leaves what is said
** here.
**
** The caller owns all memory.  The library allocates nothing, keeps nothing
** between calls, and reads and writes only what it is lent:
**
**   state    the registers as an image of 23 bytes, SSD1815B_PAGE and so on
**   memory   the display memory, 1,188 bytes: page p, column c at 132p + c
**   frame    the picture, 8,580 bytes, 0 dark and 1 lit: panel rows 0 to 63
**            and then the icon line, each 132 wide
**   trace    recorded bus traffic, any number of bytes
**   list     where two frames or two memories differ, entry by entry
**
** A wide terminal has two chips side by side; its calls, ssd1815b_wide_..., are
** lent a state and a memory for each, and stand at the end of this file.
**
** A typical host:
**
**     uint8_t state[SSD1815B_STATE_SIZE];
**     uint8_t memory[SSD1815B_MEMORY_SIZE];
**     uint8_t frame[SSD1815B_FRAME_SIZE];
**
**     ssd1815b_start(state, sizeof state, memory, sizeof memory);
**     ssd1815b_command(state, sizeof state, memory, sizeof memory, 0xAF);
**     ssd1815b_write(state, sizeof state, memory, sizeof memory, 0x03);
**     ssd1815b_draw(state, sizeof state, memory, sizeof memory,
**                   frame, sizeof frame);
**
** now panel rows 63 and 62 are lit at their last place; in an old cabinet, from
** ssd1815b_start_upright(), rows 0 and 1 at their first.
**
**
** LENGTHS
**
** A length may be anything.  One that is too small is answered by
** SSD1815B_TOO_SHORT, that of a list by SSD1815B_LIST_TOO_SMALL; one that is
** larger than needed is taken, and the bytes past the needed ones are neither
** used nor changed.  Contents may be anything too: an image that no chip can
** have is answered by SSD1815B_OUT_OF_RANGE, a frame to be compared that is
** none by SSD1815B_FRAME_BYTE_ABOVE.  There is no byte sequence that a call
** does not answer.
**
**
** WHAT THE CALLER MUST SEE TO
**
** No proof can know what a pointer points to.  So, at every call:
**
**   *  A pointer points to as many bytes as the length that follows it says,
**      to be read, and to be written too where it is not to const.  An out
**      parameter points to one object of its type.  No pointer is null, not
**      even where the length is 0.
**   *  No two things lent to one call overlap, out parameters included; two
**      that are only read may be one.
**   *  Nothing else reads or writes what is lent for writing, or writes what
**      is lent for reading, before the call returns: no other thread, no
**      signal handler, no device.
**
** Calls that are lent different things may run at the same time.
*/
#ifndef SSD1815B_H
#define SSD1815B_H

#include <stddef.h>
#include <stdint.h>

#ifdef __cplusplus
extern "C" {
#endif

/*
** Version
**
** As text, and as the number 1000000 * major + 1000 * minor + patch, so that
** a program can ask `#if SSD1815B_VERSION_NUMBER >= 4000000`.
*/
#define SSD1815B_VERSION         "4.5.0"
#define SSD1815B_VERSION_NUMBER  4005000

/*
** Sizes
**
** The panel has SSD1815B_ROWS panel rows and, as one row more of the frame,
** the icon line; SSD1815B_COLUMNS places each.  The sizes of state, memory
** and frame are what the calls need; SSD1815B_TEXT_SIZE is enough for any
** listing, SSD1815B_FRAME_LIST_SIZE and SSD1815B_MEMORY_LIST_SIZE for any list
** of differences, and most are shorter.  A buffer may be longer.
*/
#define SSD1815B_COLUMNS     132
#define SSD1815B_ROWS         64
#define SSD1815B_FRAME_ROWS   65  /* the panel rows and the icon line */
#define SSD1815B_PAGES         9
#define SSD1815B_ICON_PAGE     8  /* bit 0 of its bytes is the icon line */
#define SSD1815B_ICON_ROW     64  /* the icon line's row of the frame */

#define SSD1815B_STATE_SIZE   23
#define SSD1815B_MEMORY_SIZE  1188
#define SSD1815B_FRAME_SIZE   8580
#define SSD1815B_TEXT_SIZE    27408  /* holds every listing (proved) */

#define SSD1815B_WIDE_COLUMNS     264    /* the left chip's, then the right's */
#define SSD1815B_WIDE_FRAME_SIZE  17160
#define SSD1815B_WIDE_TEXT_SIZE   61728  /* holds every wide listing (proved) */

#define SSD1815B_FRAME_ENTRY_SIZE   5  /* of a list of differing runs */
#define SSD1815B_MEMORY_ENTRY_SIZE  4  /* of a list of differing bytes */
#define SSD1815B_FRAME_LIST_SIZE    42900  /* holds every such list (proved) */
#define SSD1815B_MEMORY_LIST_SIZE   4752

/*
** Numbers given
**
** SSD1815B_TAKEN, or why not.  The event calls answer 0 to 7 and 15 (a command
** byte 0 to 5 and 15, a data byte 0 to 2, 6 and 7, the reset pin 0 and 1), the
** run any of these and 8 to 10, drawing and the power state 0 to 2, starting
** and listing 0 and 1, the record at an offset 0 and 8, comparing frames 0, 1,
** 11 and 12, comparing memories 0, 1 and 11.  A wide call answers what its
** narrow one does, and of 13 and 14 those that it says; the page call, which
** has no narrow one, 0, 1, 4 and 13.
**
** Where several reasons hold, the lower of 1 and 2 goes first, and after them
** 13 for what a wide call is given; of a record 8 before 9 and 13; then 14
** before 6 before 7 before 10; and 1 before 12 before 11.
**
** F0 to FF were 3 before version 4.5.  A program that is linked with the shared
** object gets 15 without being compiled again, and of a later version maybe a
** number above its own SSD1815B_LAST_NUMBER.
*/
#define SSD1815B_TAKEN          0
#define SSD1815B_TOO_SHORT      1  /* state, memory, frame or text is shorter
                                   ** than needed */
#define SSD1815B_OUT_OF_RANGE   2  /* the state image is out of its ranges */
#define SSD1815B_OUTSIDE_TABLE  3  /* a byte that is no command, B9 to BF and
                                   ** F0 to FF apart, with no code awaited */
#define SSD1815B_NO_PAGE        4  /* B9 to BF, with no code awaited; a page
                                   ** above 8 in the page call */
#define SSD1815B_NOT_ALLOWED    5  /* n of D3 or D4; the code stays awaited */
#define SSD1815B_CODE_AWAITED   6  /* data access while a code is awaited */
#define SSD1815B_COLUMN_ABOVE   7  /* data access with column above 131 */
#define SSD1815B_HEADER_CUT     8  /* 1 to 3 bytes for a header, or payload
                                   ** past the end of the trace */
#define SSD1815B_KIND_UNKNOWN   9  /* kind not 1 to 4 (in a wide run 1 to 5),
                                   ** or 4 with a payload */
#define SSD1815B_READ_DIFFERS  10  /* the byte read is not the recorded one */
#define SSD1815B_LIST_TOO_SMALL    11  /* too small for all entries */
#define SSD1815B_FRAME_BYTE_ABOVE  12  /* a byte of a frame is above 1 */
#define SSD1815B_NO_SELECTION      13  /* not left, right or both: a select
                                       ** record's payload, or what a wide call
                                       ** is given */
#define SSD1815B_BOTH_SELECTED     14  /* a read with both chips selected */
#define SSD1815B_TEST_MODE         15  /* F0 to FF, a real chip's test mode,
                                       ** with no code awaited */
#define SSD1815B_LAST_NUMBER  SSD1815B_TEST_MODE  /* of this version */

/*
** The state image
**
** The place of each register in the 23 bytes, with its range and its value
** at power-on (0 unless given).  A flag is 0 or 1.
*/
#define SSD1815B_PAGE               0  /* 0 to 8 */
#define SSD1815B_COLUMN             1  /* 0 to 255; data access needs <= 131 */
#define SSD1815B_START_LINE         2  /* 0 to 63 */
#define SSD1815B_OFFSET             3  /* 0 to 63 */
#define SSD1815B_MULTIPLEX          4  /* 0 to 63, at power-on 63; dot rows in
                                       ** use are one more */
#define SSD1815B_CONTRAST           5  /* 0 to 63, at power-on 32 */
#define SSD1815B_RESISTOR_RATIO     6  /* 0 to 7, at power-on 4 */
#define SSD1815B_POWER_CONTROL      7  /* 0 to 7 */
#define SSD1815B_BIAS               8  /* flag */
#define SSD1815B_QUARTER_BIAS       9  /* flag */
#define SSD1815B_BYTE_OF_A9        10  /* any */
#define SSD1815B_FRAME_PHASES      11  /* 0 to 3 */
#define SSD1815B_COLUMN_DIRECTION  12  /* flag: 1 is mirrored */
#define SSD1815B_ROW_DIRECTION     13  /* flag: 1 is reversed */
#define SSD1815B_ENTIRE_ON         14  /* flag */
#define SSD1815B_REVERSE           15  /* flag */
#define SSD1815B_DISPLAY_ON        16  /* flag */
#define SSD1815B_INDICATOR_ON      17  /* flag */
#define SSD1815B_INDICATOR_MODE    18  /* 0 to 3 */
#define SSD1815B_AWAITED_CODE      19  /* 00, 81, A8, A9, AD, D3 or D4 (hex);
                                       ** 00 if none is awaited */
#define SSD1815B_READ_MODIFY_WRITE 20  /* flag */
#define SSD1815B_SAVED_COLUMN      21  /* 0 to 255; 0 while the flag is 0 */
#define SSD1815B_FRESH             22  /* flag, at power-on 1: the next read is
                                       ** the dummy read */

/*
** Start
**
** Puts a starting image into the first 23 bytes of state and zeros into the
** first 1,188 of memory.
**
** ssd1815b_start() is for a new cabinet, which hangs the module upside down:
** SSD1815B_COLUMN_DIRECTION and SSD1815B_ROW_DIRECTION are 1, and all else is
** as at power-on.  ssd1815b_start_upright() is for an old cabinet, and for
** what was recorded in one: all is as at power-on.  Up to version 4.2
** ssd1815b_start() was that: a program for old cabinets has to call
** ssd1815b_start_upright() now.  One that is linked with the shared object has
** the new start as soon as that is replaced, without being compiled again.
**
** Both answer 0; or 1 if state is shorter than 23 or memory shorter than
** 1,188, and then nothing is written.
**
** The reset pin and E2 do as the chip does, whichever the start was:
** ssd1815b_reset() gives the power-on image, upright, and leaves memory as it
** is; E2 puts the row direction to 0 and leaves the column direction.
*/
uint8_t ssd1815b_start(
  uint8_t *state, size_t state_len,    /* written */
  uint8_t *memory, size_t memory_len   /* written */
);
uint8_t ssd1815b_start_upright(
  uint8_t *state, size_t state_len,    /* written */
  uint8_t *memory, size_t memory_len   /* written */
);

/*
** A command byte
**
** The chip is given one command byte.  If a code is awaited, the byte is its
** n, even if it looks like a command.
**
** Answers 0 with the new image in the first 23 bytes of state; or 1 to 5 or
** 15, and then nothing is written.  After 5 the code is still awaited.
**
** memory is not used and not changed, but its length is asked.
*/
uint8_t ssd1815b_command(
  uint8_t *state, size_t state_len,          /* read, and written if 0 */
  const uint8_t *memory, size_t memory_len,
  uint8_t byte
);

/*
** A data byte written
**
** The byte is stored at the page and column of the image (on page 8 its bit
** 0, and zeros above), fresh becomes 1, and the column moves on; after 131
** comes 0 of the same page.  No other byte of memory changes.
**
** Answers 0 with the new image in state and the byte in memory; or 1, 2, 6
** or 7, and then nothing is written.
*/
uint8_t ssd1815b_write(
  uint8_t *state, size_t state_len,    /* read, and written if 0 */
  uint8_t *memory, size_t memory_len,  /* one byte written if 0 */
  uint8_t byte
);

/*
** A data byte read
**
** With fresh 1 this is the dummy read: *dummy is 1, *byte is 0, fresh
** becomes 0 and the column stays.  With fresh 0, *dummy is 0 and *byte is
** the byte at the page and column (on page 8 its bit 0 alone); the column
** moves on, except in read-modify-write.
**
** Answers 0 with the new image in state; or 1, 2, 6 or 7, and then state is
** not written.  *byte and *dummy are always written, both 0 on a refusal.
**
** memory is not changed.
*/
uint8_t ssd1815b_read(
  uint8_t *state, size_t state_len,          /* read, and written if 0 */
  const uint8_t *memory, size_t memory_len,
  uint8_t *byte,                             /* OUT: the byte read */
  uint8_t *dummy                             /* OUT: 1 for the dummy read */
);

/*
** A pulse on the reset pin
**
** Puts the power-on image into the first 23 bytes of state, whatever was
** there: this one event call does not ask for the image's ranges.
**
** Answers 0; or 1 if state or memory is too short, and then nothing is
** written.  memory is not changed.
*/
uint8_t ssd1815b_reset(
  uint8_t *state, size_t state_len,          /* written if 0 */
  const uint8_t *memory, size_t memory_len
);

/*
** Recorded bus traffic
**
** Runs a trace: records, one after the other, each of a payload length (two
** bytes), a kind (two bytes) and the payload; numbers are little-endian.
**
**   kind 1   command bytes
**   kind 2   data bytes written
**   kind 3   bytes that the firmware read: one read event each, compared
**            with what the model reads; a dummy read is not compared
**   kind 4   the reset pin, length 0
**
** Kinds 1 to 3 may have length 0.  The run stops at the first event or
** header that is refused; what came before it stands, events of the same
** record too.  A header is judged before any of its payload acts.
**
** Answers the number, and always writes *offset and *count:
**
**   0         all was taken; *offset is trace_len
**   1, 2      state and memory, asked before the first header (and also for
**             an empty trace); nothing is written, *offset and *count are 0
**   3 to 7    the event's refusal, 15 too; *offset is that of the refused
**             byte
**   8, 9      the header's; *offset is that of the record's first byte
**   10        a read differs, and has not happened; *offset is that of the
**             recorded byte
**
** *count is the number of whole records done.
*/
uint8_t ssd1815b_run(
  uint8_t *state, size_t state_len,       /* read and written */
  uint8_t *memory, size_t memory_len,     /* read and written */
  const uint8_t *trace, size_t trace_len,
  size_t *offset,                         /* OUT: where the run stopped */
  size_t *count                           /* OUT: whole records done */
);

/*
** The record at an offset
**
** Says which record stands at the offset `at` of a trace, by lengths alone:
** no chip takes part, and the kind is not judged (9 is the run's).
**
** Answers 0 where a whole record stands there: *kind is its kind, *next the
** offset after it, and its payload lies from at + 4 to *next.  Answers 0 with
** *kind 0 and *next == at where no byte is left: `at` is trace_len or more.
** Answers 8 where one to three bytes are left, or the payload is past the
** end: *kind is 0 and *next == at.  *kind and *next are always written.
**
** This visits every whole record:
**
**     size_t at = 0, kind, next;
**     while (ssd1815b_record(trace, trace_len, at, &kind, &next) == 0
**            && next != at) {
**       ...
**       at = next;
**     }
**
** and as a run of whole records followed by a run of the rest leaves what one
** run of both does, a long trace can be run in parts.
*/
uint8_t ssd1815b_record(
  const uint8_t *trace, size_t trace_len,
  size_t at,
  size_t *kind,                            /* OUT: its kind, or 0 */
  size_t *next                             /* OUT: the offset after it */
);

/*
** The power state
**
** Display off with entire on is power save: sleep with the indicator off,
** standby with it on.
**
** Answers 0 with the power state in *power; or 1 if state is shorter than 23,
** or 2 if the image is out of its ranges.  *power is always written, and is
** SSD1815B_AWAKE on a refusal.  state is not changed.
*/
#define SSD1815B_AWAKE    0
#define SSD1815B_SLEEP    1
#define SSD1815B_STANDBY  2

uint8_t ssd1815b_power_state(
  const uint8_t *state, size_t state_len,
  uint8_t *power                           /* OUT: one of the three above */
);

/*
** The frame on the glass
**
** Draws what the panel shows into the first 8,580 bytes of frame: row r,
** place x at 132r + x, 0 dark and 1 lit, the icon line as row 64.
**
** With M rows in use they lie in the middle: with offset 0 from panel row
** (64 - M) / 2, rounded down, on (M = 16: 24 to 39), and each step of the
** offset moves them up by one, round the 64.  The others are dark.  Up to
** version 4.1.0 they lay from panel row 0 on with offset 0 (M = 16: 0 to 15).
**
** Answers 0; or 1 if state, memory or frame is too short, or 2 if the image
** is out of its ranges, and then nothing is written.  state and memory are
** not changed.
*/
uint8_t ssd1815b_draw(
  const uint8_t *state, size_t state_len,
  const uint8_t *memory, size_t memory_len,
  uint8_t *frame, size_t frame_len           /* written if 0 */
);

/*
** A frame as text
**
** Writes the listing of a frame.  For a frame with panel row 0 lit at places
** 0 and 1 and the icon line lit at its last place:
**
**     frame 132 65
**     0 0-1
**     64 131-131
**     end
**
** with a line for each row that has lit places, its runs left to right; each
** line ends in one newline byte.  If number is not 0, the line
** `refused NUMBER at OFFSET` comes first.  number and offset are those that
** a run answered; any others are printed just so.  In frame 0 is dark and
** any other byte lit.
**
** Answers 0 with the text in the first *length bytes of text, the rest of
** text unchanged; no byte 0 ends it.  Answers 1 if frame is shorter than
** 8,580 or text shorter than the listing, which a text of SSD1815B_TEXT_SIZE
** bytes never is; then text is not written and *length is 0.
*/
uint8_t ssd1815b_list(
  uint8_t number,
  size_t offset,
  const uint8_t *frame, size_t frame_len,
  uint8_t *text, size_t text_len,          /* written if 0 */
  size_t *length                           /* OUT: bytes of text */
);

/*
** Where two frames differ
**
** Lists each run of differing places, row by row and left to right: places
** side by side in one row that differ in the same way, as many as there are.
** Lit-to-dark beside dark-to-lit is two runs.  Entry i lies in bytes 5i to
** 5i + 4 of list:
**
**   SSD1815B_RUN_ROW     the row, 0 to 64; the icon line is 64
**   SSD1815B_RUN_FIRST   the run's first column, 0 to 131
**   SSD1815B_RUN_LAST    its last column
**   SSD1815B_RUN_WAS     its places in the first frame: 0 dark, 1 lit
**   SSD1815B_RUN_IS      its places in the second
**
** Answers 0 with the number of entries in *count, the rest of list unchanged;
** the count is 0 exactly where the frames are equal in their first 8,580
** bytes, and then a list of no bytes is enough.  Answers 1 if a frame is
** shorter than 8,580; else 12 if a byte among the first 8,580 of either is
** above 1, which no drawn frame has; else 11 if list is shorter than the
** entries, which a list of SSD1815B_FRAME_LIST_SIZE bytes never is.  Then list
** is not written and *count is 0.
**
** Putting the runs into the first frame gives the second:
**
**     for (size_t i = 0; i < count; i++) {
**       const uint8_t *run = list + i * SSD1815B_FRAME_ENTRY_SIZE;
**       memset(first + run[SSD1815B_RUN_ROW] * SSD1815B_COLUMNS
**                + run[SSD1815B_RUN_FIRST], run[SSD1815B_RUN_IS],
**              (size_t)(run[SSD1815B_RUN_LAST] - run[SSD1815B_RUN_FIRST] + 1));
**     }
*/
#define SSD1815B_RUN_ROW    0
#define SSD1815B_RUN_FIRST  1
#define SSD1815B_RUN_LAST   2
#define SSD1815B_RUN_WAS    3
#define SSD1815B_RUN_IS     4

uint8_t ssd1815b_compare_frames(
  const uint8_t *first, size_t first_len,
  const uint8_t *second, size_t second_len,
  uint8_t *list, size_t list_len,          /* written if 0 */
  size_t *count                            /* OUT: entries */
);

/*
** Where two memories differ
**
** Lists each differing byte once, in rising order; bytes of page 8 differ if
** their bit 0 does, and their contents are listed by bit 0, as 0 or 1.  Entry
** i lies in bytes 4i to 4i + 3 of list:
**
**   SSD1815B_BYTE_PLACE_LOW    the byte's place in the memory, 0 to 1,187: its
**   SSD1815B_BYTE_PLACE_HIGH   low byte, then its high byte
**   SSD1815B_BYTE_WAS          its content in the first memory
**   SSD1815B_BYTE_IS           its content in the second
**
** Answers 0 with the number of entries in *count, the rest of list unchanged;
** the count is 0 exactly where the memories hold the same 8,580 bits, and then
** a list of no bytes is enough.  Answers 1 if a memory is shorter than 1,188;
** else 11 if list is shorter than the entries, which a list of
** SSD1815B_MEMORY_LIST_SIZE bytes never is.  Then list is not written and
** *count is 0.
**
** Putting the bytes into the first memory gives the second in all 8,580 bits:
**
**     for (size_t i = 0; i < count; i++) {
**       const uint8_t *byte = list + i * SSD1815B_MEMORY_ENTRY_SIZE;
**       first[byte[SSD1815B_BYTE_PLACE_LOW]
**             + 256 * byte[SSD1815B_BYTE_PLACE_HIGH]] = byte[SSD1815B_BYTE_IS];
**     }
*/
#define SSD1815B_BYTE_PLACE_LOW   0
#define SSD1815B_BYTE_PLACE_HIGH  1
#define SSD1815B_BYTE_WAS         2
#define SSD1815B_BYTE_IS          3

uint8_t ssd1815b_compare_memories(
  const uint8_t *first, size_t first_len,
  const uint8_t *second, size_t second_len,
  uint8_t *list, size_t list_len,          /* written if 0 */
  size_t *count                            /* OUT: entries */
);

/*
** The wide terminal
**
** Two chips side by side on one bus, 264 dots wide.  Each has a state and a
** memory of its own, and a selection says which of them an event is for:
*/
#define SSD1815B_LEFT   1
#define SSD1815B_RIGHT  2
#define SSD1815B_BOTH   3

/*
** A wide call is lent what both chips have, and asks all of it: 1 if either
** state is shorter than 23 or either memory shorter than 1,188, and then 2 if
** either image is out of its ranges, whichever chips are selected.  (A pulse on
** the reset pin asks no 2; the page call is lent no state, and the listing a
** frame alone.)
**
** A terminal starts as its two chips do: call ssd1815b_start(), or
** ssd1815b_start_upright() for an old cabinet, once for each.  The library does
** not keep the selection; the host passes it to each event.
**
** Commands, writes and the reset pin go to each selected chip.  If any selected
** chip refuses, neither changes; the number is that of the one that refuses,
** and the left's where both do.  A chip that is not selected never changes.
*/

/*
** A command byte, a data byte written, a pulse on the reset pin
**
** For each selected chip what ssd1815b_command(), ssd1815b_write() and
** ssd1815b_reset() do for one.
**
** Each answers 0 with what the selected chips are then in their states and
** memories; or 1 or 2, as above; or 13 if selection is none of 1 to 3; or the
** number of a selected chip, 3 to 5 or 15 for a command byte, 6 or 7 for a data
** byte; and then nothing is written.
*/
uint8_t ssd1815b_wide_command(
  uint8_t *left_state, size_t left_state_len,           /* written if 0 */
  const uint8_t *left_memory, size_t left_memory_len,
  uint8_t *right_state, size_t right_state_len,         /* written if 0 */
  const uint8_t *right_memory, size_t right_memory_len,
  uint8_t selection,                       /* SSD1815B_LEFT, _RIGHT or _BOTH */
  uint8_t byte
);
uint8_t ssd1815b_wide_write(
  uint8_t *left_state, size_t left_state_len,           /* written if 0 */
  uint8_t *left_memory, size_t left_memory_len,         /* written if 0 */
  uint8_t *right_state, size_t right_state_len,         /* written if 0 */
  uint8_t *right_memory, size_t right_memory_len,       /* written if 0 */
  uint8_t selection,
  uint8_t byte
);
uint8_t ssd1815b_wide_reset(
  uint8_t *left_state, size_t left_state_len,           /* written if 0 */
  const uint8_t *left_memory, size_t left_memory_len,
  uint8_t *right_state, size_t right_state_len,         /* written if 0 */
  const uint8_t *right_memory, size_t right_memory_len,
  uint8_t selection
);

/*
** A data byte read
**
** From the one selected chip, as ssd1815b_read() does.  With both selected it
** is refused: two chips would drive one bus.
**
** Answers 0 with the new image in that chip's state; or 1 or 2, as above; or 13
** if selection is none of 1 to 3; or 14 if it is both; or 6 or 7; and then no
** state is written.  *byte and *dummy are always written, both 0 on a refusal.
*/
uint8_t ssd1815b_wide_read(
  uint8_t *left_state, size_t left_state_len,           /* written if 0 */
  const uint8_t *left_memory, size_t left_memory_len,
  uint8_t *right_state, size_t right_state_len,         /* written if 0 */
  const uint8_t *right_memory, size_t right_memory_len,
  uint8_t selection,
  uint8_t *byte,                                        /* OUT */
  uint8_t *dummy                                        /* OUT */
);

/*
** Recorded bus traffic of a wide terminal
**
** As ssd1815b_run(), with one kind of record more:
**
**   kind 5   a select record, length 1: 1 selects left, 2 right, 3 both
**
** Each run starts with both selected; the reset pin keeps the selection.  The
** next run starts with both again, whatever this one ended with: to run a long
** trace in parts, cut it where both are selected, or begin the next part with a
** select record.  To know what is selected at a place, walk the trace up to it
** with ssd1815b_record(): the payload of the last record of kind 5 tells, and
** without one both are.  A trace without select records and reads does to both
** chips what ssd1815b_run() does to one, up to the first byte that either
** refuses.
**
** Answers as ssd1815b_run() does, and:
**
**   13        a select record's payload is not one byte of 1 to 3; *offset is
**             that of the record's first byte, as for 8 and 9
**   14        a read with both selected; *offset is that of the recorded byte.
**             A read record of length 0 reads nothing, and is taken
*/
uint8_t ssd1815b_wide_run(
  uint8_t *left_state, size_t left_state_len,           /* read and written */
  uint8_t *left_memory, size_t left_memory_len,         /* read and written */
  uint8_t *right_state, size_t right_state_len,         /* read and written */
  uint8_t *right_memory, size_t right_memory_len,       /* read and written */
  const uint8_t *trace, size_t trace_len,
  size_t *offset,                                       /* OUT */
  size_t *count                                         /* OUT */
);

/*
** The wide frame
**
** Draws what both halves show into the first 17,160 bytes of frame: row r,
** place x at 264r + x; places 0 to 131 of each row are the left chip's frame,
** 132 to 263 the right chip's.  Each half is what ssd1815b_draw() draws of its
** chip, and so two wide screens are compared by ssd1815b_compare_frames(), half
** by half.
**
** Answers 0; or 1 if a state, a memory or frame is too short, or 2 if either
** image is out of its ranges, and then nothing is written.
*/
uint8_t ssd1815b_wide_draw(
  const uint8_t *left_state, size_t left_state_len,
  const uint8_t *left_memory, size_t left_memory_len,
  const uint8_t *right_state, size_t right_state_len,
  const uint8_t *right_memory, size_t right_memory_len,
  uint8_t *frame, size_t frame_len                      /* written if 0 */
);

/*
** One page of a chip's memory
**
** Says where a page lies in the caller's own buffer; nothing is copied.  Its
** 132 bytes are
**
**     (side == SSD1815B_LEFT ? left_memory : right_memory) + place
**
** Answers 0 with *place, 132 * page, and *length, 132; or 1 if either memory is
** shorter than 1,188; else 13 if side is neither SSD1815B_LEFT nor
** SSD1815B_RIGHT; else 4 if page is above 8; and then *place and *length are 0.
** Page 8 is handed back as it lies there, its bits 1 to 7 too.
*/
uint8_t ssd1815b_wide_page(
  const uint8_t *left_memory, size_t left_memory_len,
  const uint8_t *right_memory, size_t right_memory_len,
  uint8_t side,                               /* SSD1815B_LEFT or _RIGHT */
  uint8_t page,
  size_t *place,                                        /* OUT */
  size_t *length                                        /* OUT: 132, or 0 */
);

/*
** A wide frame as text
**
** As ssd1815b_list(), of a frame of 17,160 bytes, 264 to a row: the text begins
** with `frame 264 65`, and runs cross the middle.  Answers 1 if frame is
** shorter than 17,160 or text shorter than the listing, which a text of
** SSD1815B_WIDE_TEXT_SIZE bytes never is.
*/
uint8_t ssd1815b_wide_list(
  uint8_t number,
  size_t offset,
  const uint8_t *frame, size_t frame_len,
  uint8_t *text, size_t text_len,                       /* written if 0 */
  size_t *length                                        /* OUT: bytes of text */
);

#ifdef __cplusplus
}
#endif

#endif /* SSD1815B_H */
