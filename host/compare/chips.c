#include "chips.h"

#include "report.h"

enum { LONGEST = 2000 };

struct room chip_rooms[PARTS];

/* The buffers as they are told. */
static const enum thing things[PARTS] = {
  [LEFT_STATE] = THE_LEFT_STATE, [LEFT_MEMORY] = THE_LEFT_MEMORY,
  [RIGHT_STATE] = THE_RIGHT_STATE, [RIGHT_MEMORY] = THE_RIGHT_MEMORY
};

void chips_open(void)
{
  for (int part = 0; part < PARTS; part++) {
    room_open(&chip_rooms[part], LONGEST);
  }
}

struct chips take_chips(struct body *body)
{
  struct chips chips;
  for (int part = 0; part < PARTS; part++) {
    chips.part[part] = take_lent(body);
  }
  return chips;
}

struct chips take_chips_after(struct body *body, const struct chips *before)
{
  struct chips after;
  for (int part = 0; part < PARTS; part++) {
    after.part[part] = take_bytes(body, before->part[part].length);
  }
  return after;
}

void lend_chips(const struct chips *chips)
{
  for (int part = 0; part < PARTS; part++) {
    room_lend(&chip_rooms[part], chips->part[part].at,
              chips->part[part].length);
  }
}

bool same_guards_of_chips(void)
{
  bool same = true;
  for (int part = 0; part < PARTS; part++) {
    same &= same_guards(things[part], &chip_rooms[part]);
  }
  return same;
}

bool same_chips(const struct chips *expected)
{
  bool same = same_guards_of_chips();
  for (int part = 0; part < PARTS; part++) {
    same &= same_bytes(things[part], expected->part[part].at,
                       chip_rooms[part].lent, expected->part[part].length);
  }
  return same;
}
