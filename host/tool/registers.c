#include "registers.h"

#include "ssd1815b.h"

static const char *const names[SSD1815B_STATE_SIZE] = {
  [SSD1815B_PAGE] = "page",
  [SSD1815B_COLUMN] = "column",
  [SSD1815B_START_LINE] = "start line",
  [SSD1815B_OFFSET] = "offset",
  [SSD1815B_MULTIPLEX] = "multiplex",
  [SSD1815B_CONTRAST] = "contrast",
  [SSD1815B_RESISTOR_RATIO] = "resistor ratio",
  [SSD1815B_POWER_CONTROL] = "power control",
  [SSD1815B_BIAS] = "bias",
  [SSD1815B_QUARTER_BIAS] = "quarter bias",
  [SSD1815B_BYTE_OF_A9] = "byte of A9",
  [SSD1815B_FRAME_PHASES] = "frame phases",
  [SSD1815B_COLUMN_DIRECTION] = "column direction",
  [SSD1815B_ROW_DIRECTION] = "row direction",
  [SSD1815B_ENTIRE_ON] = "entire on",
  [SSD1815B_REVERSE] = "reverse",
  [SSD1815B_DISPLAY_ON] = "display on",
  [SSD1815B_INDICATOR_ON] = "indicator on",
  [SSD1815B_INDICATOR_MODE] = "indicator mode",
  [SSD1815B_AWAITED_CODE] = "awaited code",
  [SSD1815B_READ_MODIFY_WRITE] = "read-modify-write",
  [SSD1815B_SAVED_COLUMN] = "saved column",
  [SSD1815B_FRESH] = "fresh",
};

const char *register_name(int place)
{
  return names[place];
}
