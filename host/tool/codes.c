#include "codes.h"

#include <stddef.h>

static const struct code table[] = {
  { 0x00, 0x0F, "low four bits of the column", NULL },
  { 0x10, 0x1F, "high four bits of the column", NULL },
  { 0x20, 0x27, "resistor ratio", NULL },
  { 0x28, 0x2F, "power control", NULL },
  { 0x40, 0x7F, "start line", NULL },
  { 0x81, 0x81, "contrast", NULL },
  { 0xA0, 0xA1, "column direction", NULL },
  { 0xA2, 0xA3, "bias", NULL },
  { 0xA4, 0xA5, "entire on", NULL },
  { 0xA6, 0xA7, "reverse", NULL },
  { 0xA8, 0xA8, "multiplex", NULL },
  { 0xA9, 0xA9, "n is held", NULL },
  { 0xAA, 0xAB, "quarter bias", NULL },
  { 0xAC, 0xAC, "indicator off", NULL },
  { 0xAD, 0xAD, "indicator on", NULL },
  { 0xAE, 0xAF, "display off, on", NULL },
  { 0xB0, 0xB8, "page", NULL },
  { 0xC0, 0xC7, "rows normal", NULL },
  { 0xC8, 0xCF, "rows reversed", NULL },
  { 0xD3, 0xD3, "offset", "00 to 3F" },
  { 0xD4, 0xD4, "frame phases", "00, 10, 20 or 30" },
  { 0xE0, 0xE0, "enter read-modify-write", NULL },
  { 0xE2, 0xE2, "software reset", NULL },
  { 0xE3, 0xE3, "nothing", NULL },
  { 0xEE, 0xEE, "leave read-modify-write", NULL },
};

enum { ROWS = sizeof table / sizeof *table };

const struct code *code_above(uint8_t byte)
{
  size_t i = 0;
  while (i < ROWS && table[i].first <= byte) {
    i++;
  }
  return i < ROWS ? &table[i] : NULL;
}

const struct code *code_below(uint8_t byte)
{
  size_t i = ROWS;
  while (i > 0 && table[i - 1].last >= byte) {
    i--;
  }
  return i > 0 ? &table[i - 1] : NULL;
}

const struct code *code_of(uint8_t byte)
{
  size_t i = 0;
  while (i < ROWS && table[i].last < byte) {
    i++;
  }
  return i < ROWS && table[i].first <= byte ? &table[i] : NULL;
}
