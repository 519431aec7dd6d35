/* One page of a wide terminal's memories. */
#include "cases.h"

#include <string.h>

#include "chips.h"
#include "report.h"
#include "room.h"
#include "ssd1815b.h"
#include "tally.h"

static struct room place_room, length_room;

void pages_open(void)
{
  room_open(&place_room, sizeof(size_t));
  room_open(&length_room, sizeof(size_t));
}

void compare_page(struct body *body)
{
  uint8_t side = take_u8(body);
  struct chips chips = { 0 }; /* no state is lent */
  chips.part[LEFT_MEMORY] = take_lent(body);
  chips.part[RIGHT_MEMORY] = take_lent(body);
  uint8_t page = take_u8(body);
  uint8_t number = take_u8(body);
  uint16_t place = take_u16(body);
  uint16_t length = take_u16(body);
  take_nothing_more(body);

  uint8_t junk[sizeof(size_t)];
  memset(junk, 0xEE, sizeof junk);
  lend_chips(&chips);
  size_t *found_place = (void *)room_lend(&place_room, junk, sizeof(size_t));
  size_t *found_length = (void *)room_lend(&length_room, junk, sizeof(size_t));

  report_call("wide_page");
  uint8_t found = ssd1815b_wide_page(LENT(LEFT_MEMORY), LENT(RIGHT_MEMORY),
                                     side, page, found_place, found_length);
  tally_add(CALL_WIDE_PAGE, found);
  same_number(THE_NUMBER, number, found);
  same_number(THE_PLACE, place, *found_place);
  same_number(THE_LENGTH, length, *found_length);
  same_chips(&chips);
  same_guards(THE_PLACE, &place_room);
  same_guards(THE_LENGTH, &length_room);
}
