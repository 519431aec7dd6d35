/*
** The oracle's stream of test cases (oracle/README.md, version 4), read from
** standard input one case at a time.
**
** A stream that is not in that form ends the program with status 2: that is
** no difference between two models.
*/
#ifndef STREAM_H
#define STREAM_H

#include <stddef.h>
#include <stdint.h>

enum { TAG_END = 0, TAG_SINGLE = 1, TAG_SEQUENCE = 2, TAG_RUN = 3,
       TAG_DRAW = 4, TAG_LISTING = 5, TAG_FRAMES = 6, TAG_MEMORIES = 7,
       TAG_START = 8, TAG_WIDE_EVENT = 9, TAG_WIDE_RUN = 10, TAG_WIDE_DRAW = 11,
       TAG_PAGE = 12, TAG_WIDE_LISTING = 13 };

enum { EVENT_COMMAND = 1, EVENT_WRITE = 2, EVENT_READ = 3, EVENT_RESET = 4 };

/* How the module hangs: Order 3's start, or the old one. */
enum start { START_UPSIDE_DOWN = 0, START_UPRIGHT = 1 };

/* The body of a case, and how much of it was taken. */
struct body {
  const uint8_t *bytes;
  size_t length;
  size_t taken;
};

/* Some bytes of a body. */
struct bytes {
  const uint8_t *at;
  size_t length;
};

struct event {
  uint8_t kind;
  uint8_t byte;
};

struct answer {
  uint8_t number;
  uint8_t byte;
  uint8_t dummy;
};

/* What an event changes of the memory: one byte if flag is 1. */
struct change {
  uint8_t flag;
  uint16_t index;
  uint8_t value;
};

/* Reads the header; answers the seed. */
uint64_t stream_begin(void);

/* Reads the next case, or the end; answers its tag.  The body is good until
** the next call. */
uint8_t stream_next(struct body *body);

/* Takes the next thing of a body. */
uint8_t take_u8(struct body *body);
uint16_t take_u16(struct body *body);
uint32_t take_u32(struct body *body);
uint64_t take_u64(struct body *body);
struct bytes take_bytes(struct body *body, size_t length);
struct bytes take_lent(struct body *body);
enum start take_start(struct body *body);
struct event take_event(struct body *body);
struct answer take_answer(struct body *body);
struct change take_change(struct body *body);

/* All of the body must have been taken. */
void take_nothing_more(const struct body *body);

/* Ends the program: the stream is not in its form. */
_Noreturn void malformed(const char *why);

#endif
