#define _DEFAULT_SOURCE /* MAP_ANONYMOUS */
#include "room.h"

#include <stdio.h>
#include <stdlib.h>
#include <string.h>
#include <sys/mman.h>
#include <unistd.h>

enum { LEAST_GUARD = 64 };

/* What the guard bytes of every room are, by their place; none is 0 or 1, as
** dots are, and neighbours differ. */
static uint8_t guard[LARGEST_ROOM];

static void make_guard(void)
{
  for (size_t i = 0; i < LARGEST_ROOM; i++) {
    guard[i] = (uint8_t)(2 + (i * 151 + i / 254) % 254);
  }
}

static _Noreturn void no_room(const char *why)
{
  fprintf(stderr, "compare: no room to lend from: %s\n", why);
  exit(2);
}

void room_open(struct room *room, size_t longest)
{
  size_t page = (size_t)sysconf(_SC_PAGESIZE);
  size_t size = (longest + LEAST_GUARD + page - 1) / page * page;
  if (size > LARGEST_ROOM) {
    no_room("it would be too large");
  }
  uint8_t *all = mmap(NULL, size + 2 * page, PROT_NONE,
                      MAP_PRIVATE | MAP_ANONYMOUS, -1, 0);
  if (all == MAP_FAILED
      || mprotect(all + page, size, PROT_READ | PROT_WRITE) != 0) {
    no_room("the system gives none");
  }
  if (guard[0] == 0) {
    make_guard();
  }
  *room = (struct room){ all + page, size, all + page, 0, false };
  room_mend(room);
}

uint8_t *room_lend(struct room *room, const uint8_t *contents, size_t length)
{
  if (length + LEAST_GUARD > room->size) {
    no_room("a buffer is too long");
  }
  memcpy(room->lent, guard + (room->lent - room->first), room->length);
  room->at_end = !room->at_end;
  room->lent = room->at_end ? room->first + room->size - length : room->first;
  room->length = length;
  if (length > 0) {
    memcpy(room->lent, contents, length);
  }
  return room->lent;
}

bool room_intact(const struct room *room)
{
  size_t before = (size_t)(room->lent - room->first);
  size_t until = before + room->length;
  return memcmp(room->first, guard, before) == 0
         && memcmp(room->first + until, guard + until, room->size - until) == 0;
}

void room_mend(struct room *room)
{
  size_t before = (size_t)(room->lent - room->first);
  size_t until = before + room->length;
  memcpy(room->first, guard, before);
  memcpy(room->first + until, guard + until, room->size - until);
}
