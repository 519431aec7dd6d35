#include "stream.h"

#include <stdbool.h>
#include <stdio.h>
#include <stdlib.h>
#include <string.h>

enum { LONGEST_BODY = 300000 };

static uint8_t room[LONGEST_BODY];

_Noreturn void malformed(const char *why)
{
  fprintf(stderr, "compare: not a stream of cases: %s\n", why);
  exit(2);
}

static void fill(uint8_t *to, size_t length)
{
  if (fread(to, 1, length, stdin) != length) {
    malformed(ferror(stdin) ? "standard input cannot be read"
                            : "it is cut short");
  }
}

uint64_t stream_begin(void)
{
  fill(room, 20);
  struct body header = { room, 20, 0 };
  if (memcmp(take_bytes(&header, 8).at, "1815CASE", 8) != 0) {
    malformed("it does not begin with 1815CASE");
  }
  if (take_u32(&header) != 4) {
    malformed("its version is not 4");
  }
  return take_u64(&header);
}

uint8_t stream_next(struct body *body)
{
  fill(room, 5);
  struct body head = { room, 5, 0 };
  uint8_t tag = take_u8(&head);
  uint32_t length = take_u32(&head);
  if (length > LONGEST_BODY) {
    malformed("a case is too long");
  }
  fill(room, length);
  *body = (struct body){ room, length, 0 };
  if (tag == TAG_END && getchar() != EOF) {
    malformed("something follows its end");
  }
  return tag;
}

struct bytes take_bytes(struct body *body, size_t length)
{
  if (length > body->length - body->taken) {
    malformed("a case is shorter than what it has to hold");
  }
  struct bytes taken = { body->bytes + body->taken, length };
  body->taken += length;
  return taken;
}

void take_nothing_more(const struct body *body)
{
  if (body->taken != body->length) {
    malformed("a case is longer than what it has to hold");
  }
}

static uint64_t take_number(struct body *body, size_t size)
{
  struct bytes taken = take_bytes(body, size);
  uint64_t number = 0;
  for (size_t i = size; i > 0; i--) {
    number = number << 8 | taken.at[i - 1];
  }
  return number;
}

uint8_t take_u8(struct body *body)
{
  return (uint8_t)take_number(body, 1);
}

uint16_t take_u16(struct body *body)
{
  return (uint16_t)take_number(body, 2);
}

uint32_t take_u32(struct body *body)
{
  return (uint32_t)take_number(body, 4);
}

uint64_t take_u64(struct body *body)
{
  return take_number(body, 8);
}

struct bytes take_lent(struct body *body)
{
  size_t length = take_u16(body);
  return take_bytes(body, length);
}

enum start take_start(struct body *body)
{
  uint8_t start = take_u8(body);
  if (start != START_UPSIDE_DOWN && start != START_UPRIGHT) {
    malformed("a start that is none of the two");
  }
  return start;
}

struct event take_event(struct body *body)
{
  struct event event;
  event.kind = take_u8(body);
  event.byte = take_u8(body);
  if (event.kind < EVENT_COMMAND || event.kind > EVENT_RESET) {
    malformed("an event of no kind");
  }
  return event;
}

struct answer take_answer(struct body *body)
{
  struct answer answer;
  answer.number = take_u8(body);
  answer.byte = take_u8(body);
  answer.dummy = take_u8(body);
  return answer;
}

struct change take_change(struct body *body)
{
  struct change change;
  change.flag = take_u8(body);
  change.index = take_u16(body);
  change.value = take_u8(body);
  return change;
}
