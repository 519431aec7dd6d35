// The header as a C++ program takes it: document 01's trace, from either start,
// and on a wide terminal.
#include "ssd1815b.h"

#include <cstddef>
#include <cstdint>
#include <cstdio>
#include <cstring>
#include <string>
#include <vector>

namespace {

const std::uint8_t trace[] = { 0x01, 0x00, 0x01, 0x00, 0xAF, 0x02,
                               0x00, 0x02, 0x00, 0x03, 0x01 };

struct Chip {
  std::vector<std::uint8_t> state;
  std::vector<std::uint8_t> memory;
  std::vector<std::uint8_t> frame;

  Chip()
    : state(SSD1815B_STATE_SIZE), memory(SSD1815B_MEMORY_SIZE),
      frame(SSD1815B_FRAME_SIZE)
  {
  }
};

// Document 01: Order 3 keeps its output when run with the old start.
const char upright_listing[] = "frame 132 65\n0 0-1\n1 0-0\nend\n";

// Order 3's second: the same dots, turned by half a turn.
const char upside_down_listing[] =
    "frame 132 65\n62 131-131\n63 130-131\nend\n";

// What the trace has changed of a dark frame, from the new start, and of a
// zero memory.
const std::uint8_t runs[] = { 62, 131, 131, 0, 1, 63, 130, 131, 0, 1 };
const std::uint8_t bytes[] = { 0, 0, 0, 3, 1, 0, 0, 1 };

// Whether the trace, run from the state that a start has left, lists so.
bool lists(Chip &chip, const std::string &listing)
{
  std::vector<std::uint8_t> text(SSD1815B_TEXT_SIZE);
  std::size_t offset = 0;
  std::size_t count = 0;
  std::size_t length = 0;
  const std::uint8_t number =
      ssd1815b_run(chip.state.data(), chip.state.size(), chip.memory.data(),
                   chip.memory.size(), trace, sizeof trace, &offset, &count);
  ssd1815b_draw(chip.state.data(), chip.state.size(), chip.memory.data(),
                chip.memory.size(), chip.frame.data(), chip.frame.size());
  ssd1815b_list(number, offset, chip.frame.data(), chip.frame.size(),
                text.data(), text.size(), &length);
  return number == SSD1815B_TAKEN && offset == sizeof trace && count == 2
         && length == listing.size()
         && std::memcmp(text.data(), listing.data(), length) == 0;
}

// Whether the power state and the record at an offset are as they should be.
bool asks(const Chip &chip)
{
  std::uint8_t power = SSD1815B_STANDBY;
  ssd1815b_power_state(chip.state.data(), chip.state.size(), &power);
  std::size_t kind = 0;
  std::size_t next = 0;
  ssd1815b_record(trace, sizeof trace, 5, &kind, &next);
  return power == SSD1815B_AWAKE && kind == 2 && next == sizeof trace;
}

// Whether a dark frame and a zero memory differ from the chip's so.
bool differs(const Chip &chip)
{
  const Chip dark;
  std::vector<std::uint8_t> differing_runs(SSD1815B_FRAME_LIST_SIZE);
  std::vector<std::uint8_t> differing_bytes(SSD1815B_MEMORY_LIST_SIZE);
  std::size_t run_count = 0;
  std::size_t byte_count = 0;
  ssd1815b_compare_frames(dark.frame.data(), dark.frame.size(),
                          chip.frame.data(), chip.frame.size(),
                          differing_runs.data(), differing_runs.size(),
                          &run_count);
  ssd1815b_compare_memories(dark.memory.data(), dark.memory.size(),
                            chip.memory.data(), chip.memory.size(),
                            differing_bytes.data(), differing_bytes.size(),
                            &byte_count);
  return run_count == 2 && byte_count == 2
         && std::memcmp(differing_runs.data(), runs, sizeof runs) == 0
         && std::memcmp(differing_bytes.data(), bytes, sizeof bytes) == 0;
}

// Order 4: after document 01's trace, which goes to both chips, the left one is
// selected and its columns are turned back.
const std::uint8_t wide_trace[] = { 0x01, 0x00, 0x01, 0x00, 0xAF, 0x02, 0x00,
                                    0x02, 0x00, 0x03, 0x01, 0x01, 0x00, 0x05,
                                    0x00, 0x01, 0x01, 0x00, 0x01, 0x00, 0xA0 };

// Each chip's dots, turned by half a turn in the right half; in the left one
// turned upside down alone.
const char wide_listing[] =
    "frame 264 65\n62 0-0 263-263\n63 0-1 262-263\nend\n";

// Whether the wide trace, run from the start of new cabinets, lists so.
bool lists_wide(Chip &left, Chip &right, const std::string &listing)
{
  std::vector<std::uint8_t> frame(SSD1815B_WIDE_FRAME_SIZE);
  std::vector<std::uint8_t> text(SSD1815B_WIDE_TEXT_SIZE);
  std::size_t offset = 0;
  std::size_t count = 0;
  std::size_t length = 0;
  const std::uint8_t number = ssd1815b_wide_run(
      left.state.data(), left.state.size(), left.memory.data(),
      left.memory.size(), right.state.data(), right.state.size(),
      right.memory.data(), right.memory.size(), wide_trace, sizeof wide_trace,
      &offset, &count);
  ssd1815b_wide_draw(left.state.data(), left.state.size(), left.memory.data(),
                     left.memory.size(), right.state.data(),
                     right.state.size(), right.memory.data(),
                     right.memory.size(), frame.data(), frame.size());
  ssd1815b_wide_list(number, offset, frame.data(), frame.size(), text.data(),
                     text.size(), &length);
  return number == SSD1815B_TAKEN && offset == sizeof wide_trace && count == 4
         && length == listing.size()
         && std::memcmp(text.data(), listing.data(), length) == 0;
}

// Whether a wide page lies where it should, and a read of both is refused.
bool asks_wide(Chip &left, Chip &right)
{
  std::size_t place = 0;
  std::size_t length = 0;
  ssd1815b_wide_page(left.memory.data(), left.memory.size(),
                     right.memory.data(), right.memory.size(), SSD1815B_RIGHT,
                     SSD1815B_ICON_PAGE, &place, &length);
  std::uint8_t byte = 1;
  std::uint8_t dummy = 1;
  const std::uint8_t number = ssd1815b_wide_read(
      left.state.data(), left.state.size(), left.memory.data(),
      left.memory.size(), right.state.data(), right.state.size(),
      right.memory.data(), right.memory.size(), SSD1815B_BOTH, &byte, &dummy);
  return place == 1056 && length == 132 && number == SSD1815B_BOTH_SELECTED
         && byte == 0 && dummy == 0;
}

// A chip as it starts in a new cabinet.
Chip started()
{
  Chip chip;
  ssd1815b_start(chip.state.data(), chip.state.size(), chip.memory.data(),
                 chip.memory.size());
  return chip;
}

} // namespace

int main()
{
  Chip chip = started();
  Chip left = started();
  Chip right_half = started();
  Chip upright;
  ssd1815b_start_upright(upright.state.data(), upright.state.size(),
                         upright.memory.data(), upright.memory.size());

  const bool right = lists(chip, upside_down_listing)
                     && lists(upright, upright_listing) && asks(chip)
                     && differs(chip)
                     && lists_wide(left, right_half, wide_listing)
                     && asks_wide(left, right_half);
  std::printf("header: the listings from C++ are %s\n",
              right ? "right" : "wrong");
  return right ? 0 : 1;
}
