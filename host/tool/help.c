#include "help.h"

#include "picture.h"
#include "ssd1815b.h"

#ifndef MODEL
#define MODEL "unknown"
#endif

static const char all[] =
  "usage: ssd1815b COMMAND [OPTION...] [--] [TRACE]\n"
  "       ssd1815b diff [OPTION...] [--] FIRST SECOND\n"
  "       ssd1815b check [OPTION...] [--] [TRACE...]\n"
  "       ssd1815b COMMAND --help | help COMMAND | --help | --version\n"
  "\n"
  "Plays a trace of recorded bus traffic on a model of the SSD1815B, from\n"
  "power-on with zero memory, but with column and row direction 1, as new\n"
  "cabinets hang the module upside down.  A recording from an old cabinet\n"
  "wants --upright, or its picture may be turned or mirrored; COMMAND --help\n"
  "says more.  A trace of a wide terminal, two chips side by side, wants\n"
  "--wide.  TRACE is a file of any length; without one, or with -, it is\n"
  "standard input.\n"
  "\n"
  "  list      the lit places of the final frame, a line for each row; takes\n"
  "            at most 65,536 bytes\n"
  "  show      the final frame drawn, and why it is dark if it is\n"
  "  picture   the final frame as a PBM or PNG file\n"
  "  state     the registers by name\n"
  "  memory    the display memory in hex, and the bytes read\n"
  "  diff      where two screens differ, each of a trace or a listing\n"
  "  check     a line for each trace: taken, or refused and where\n"
  "\n"
  "  --upright          the start of old cabinets, column and row direction 0\n"
  "  --wide             a wide terminal: two chips, select records\n"
  "  --after N          stop after N whole records (not for check)\n"
  "  --scale N          picture, diff: each dot N by N, 1 to 64, else 4\n"
  "  --png              picture: PNG, not PBM\n"
  "  -o, --output FILE  picture: to FILE.png or FILE.pbm\n"
  "  --memory           diff: the memories, not the screens\n"
  "  --show             diff: the screen, its differing places marked\n"
  "  --picture FILE     diff: the same in colours, to FILE.png or FILE.ppm\n"
  "  -q, --brief        diff: one line\n"
  "  --refused          diff: a refused run counts as it stands\n"
  "  --                 ends the options\n"
  "\n"
  "An option's value may follow = too: --scale=4.\n"
  "\n"
  "A run that is refused is shown as it stands at that place.  The number and\n"
  "the place, what the number means and what would have been taken are said\n"
  "in words; by list and picture on standard error.\n"
  "\n"
  "Status 0: all taken.  1: refused.  2: a wrong command line, or input or\n"
  "output that fails.  diff: 0 the same, 1 different, 2 trouble.\n";

static const char upright[] =
  "\n"
  "  --upright   start as old cabinets hang the module, column and row\n"
  "              direction 0; without it as new ones do, upside down, both 1\n";

static const char wide[] =
  "  --wide      a wide terminal: two chips side by side, both started so; a\n"
  "              record of kind 5 selects left (01), right (02) or both (03),\n"
  "              before the first of them both are selected, and a read is\n"
  "              from one alone\n";

static const char after[] =
  "  --after N   stop after N whole records; where there are fewer, all is\n"
  "              played, and standard error says so\n";

/* For the commands that tell of the picture. */
static const char which_start[] =
  "\n"
  "Which start: the cabinet says, not the picture.  A recording from an old\n"
  "one wants --upright.  Without it the picture is turned by half a turn, the\n"
  "icon line mirrored in its place; where the trace has set the rows alone,\n"
  "by E2 or C0 to CF, left and right are exchanged, and where it has set the\n"
  "columns alone, by A0 or A1, top and bottom.  Once it has set both, or a\n"
  "reset record came, the picture is the same from either start; number,\n"
  "offset, memory and bytes read always are.  What a reader of a new cabinet\n"
  "sees upright is printed turned by half a turn, as rows and columns are\n"
  "counted on the module, and nothing turns it back.  The reset pin puts both\n"
  "directions to 0; of the two, E2 puts the rows to 0 and leaves the columns.\n"
  "All this is so for each half of a wide terminal by itself, by what its own\n"
  "chip was sent, and the halves do not change places.\n";

/* For those that do not. */
static const char either_start[] =
  "\n"
  "All that is printed here is the same from either start.\n";

static const char *const usage[COMMANDS] = {
  [LIST] =
    "usage: ssd1815b list [--upright] [--wide] [--after N] [TRACE]\n"
    "\n"
    "Prints what document 01's listing program does: `refused R at O` if the\n"
    "run was stopped, `frame 132 65`, a line for each row with lit places (64\n"
    "is the icon line), `end`.  With --wide it is `frame 264 65`, and the\n"
    "right chip's places are 132 to 263.  More than 65,536 bytes are `input\n"
    "too long`, status 2; with --after the bytes of those records count.  Why\n"
    "a run was stopped is said on standard error.\n",
  [SHOW] =
    "usage: ssd1815b show [--upright] [--wide] [--after N] [TRACE]\n"
    "\n"
    "Draws the final frame, two panel rows to a line, the icon line apart, on\n"
    "a UTF-8 terminal 134 wide.  With --wide it is 266 wide; on a terminal\n"
    "that is narrower its halves stand one below the other, the left first.\n"
    "Below it: why all is dark, or a half is, and why the run was stopped, if\n"
    "it was.\n",
  [PICTURE] =
    "usage: ssd1815b picture [OPTION...] [TRACE] > FILE.pbm\n"
    "       ssd1815b picture [OPTION...] -o FILE.png [TRACE]\n"
    "\n"
    "Writes the final frame as a file: lit dots black, the icon line apart, a\n"
    "margin round it.  Nothing is sent to a terminal.\n"
    "\n"
    "  --scale N          each dot N by N, 1 to 64, else 4\n"
    "  --png              PNG, not PBM, on standard output\n"
    "  -o, --output FILE  to this file, PNG or PBM by its ending, .png or\n"
    "                     .pbm; one that is there is written over\n"
    "\n"
    "A tool that was built without PNG says so and writes PBM, to\n"
    "FILE.png.pbm where FILE.png is asked for.\n",
  [STATE] =
    "usage: ssd1815b state [--upright] [--wide] [--after N] [TRACE]\n"
    "\n"
    "Prints the registers by name, which panel rows are in use, whether the\n"
    "registers are power save, the image in hex, the start, and what the run\n"
    "answered.  With --wide those of both chips, the left's first, and what\n"
    "is selected at the end.\n",
  [MEMORY] =
    "usage: ssd1815b memory [--upright] [--wide] [--after N] [TRACE]\n"
    "\n"
    "Prints the display memory in hex, page by page, 16 columns to a line; of\n"
    "page 8 bit 0 is the icon line.  Then a line for each byte that the trace\n"
    "read: its offset and record, page and column, what the model reads\n"
    "(dummy for the dummy read) and what was recorded.  With --wide the\n"
    "memories of both chips, the left's first, and which of them each byte\n"
    "was read from.\n",
  [DIFF] =
    "usage: ssd1815b diff [OPTION...] FIRST SECOND\n"
    "\n"
    "Compares two screens.  FIRST and SECOND are each a trace, whose final\n"
    "frame is compared, or a listing as list prints it; one may be -, which\n"
    "is standard input.  Prints a line for each run of places side by side\n"
    "that differ in the same way, row by row and left to right, and a line\n"
    "about all of them:\n"
    "\n"
    "  row 12, 40 to 47: lit, then dark\n"
    "  row 64 (the icon line), 3: dark, then lit\n"
    "  2 runs differ, 9 places in 2 rows\n"
    "\n"
    "What stands first is of FIRST.  Rows and places count from 0.\n"
    "\n"
    "  --memory        the memories that two traces leave, a line for each\n"
    "                  byte that differs, in hex; of page 8 bit 0 counts\n"
    "  --show          the screen before the lines, in colours on a terminal\n"
    "                  (NO_COLOR declines them), in letters elsewhere\n"
    "  --picture FILE  the screen in colours to this file, PNG or PPM by its\n"
    "                  ending, .png or .ppm: gray is lit in both, blue in\n"
    "                  the first alone, orange in the second alone; one that\n"
    "                  is there is written over\n"
    "  --scale N       each dot of the picture N by N, 1 to 64, else 4\n"
    "  -q, --brief     one line, with the names\n"
    "  --refused       status 0 or 1 where a run was refused, too\n"
    "\n"
    "A trace that is refused part-way is compared as it stands there, and so\n"
    "is a listing that begins with `refused`; standard error names it, the\n"
    "number and the offset, and without --refused the status is 2.  Of a wide\n"
    "terminal's trace it says what was selected, since when, and which chip\n"
    "refused.\n"
    "\n"
    "With --wide both are of wide terminals, a listing too (`frame 264 65`),\n"
    "and they are compared half by half, the left first:\n"
    "\n"
    "  left half, row 12, 40 to 47: lit, then dark\n"
    "  left half: 1 run differs, 8 places in 1 row\n"
    "  right half: the same, no place differs\n"
    "\n"
    "Places count from 0 in each half; of the right half, list --wide prints\n"
    "them 132 higher.  With --memory it is the left chip, then the right.\n"
    "\n"
    "--upright is for both traces and for no listing: where both are listings\n"
    "it is refused.  Of an old and a new cabinet's trace, the listing of the\n"
    "one (list --upright) is compared with the trace of the other.\n"
    "\n"
    "A tool that was built without PNG says so and writes PPM, to\n"
    "FILE.png.ppm where FILE.png is asked for.\n"
    "\n"
    "Status 0: the same.  1: different.  2: trouble: a run that was refused,\n"
    "a listing that list does not print, a wrong command line, or input or\n"
    "output that fails.\n",
  [CHECK] =
    "usage: ssd1815b check [--upright] [--wide] [TRACE...]\n"
    "\n"
    "Plays each trace by itself and prints a line for each:\n"
    "\n"
    "  FILE: taken, N records\n"
    "  FILE: refused R at O: what R means\n"
    "  FILE: cannot be read\n"
    "\n"
    "With --wide standard error says of a refused one what was selected,\n"
    "since when, and which chip refused.\n"
    "\n"
    "Status 0: all taken.  1: one is refused.  2: one cannot be read.\n",
};

void help_print(FILE *out, enum command command)
{
  if (command == COMMANDS) {
    fputs(all, out);
    return;
  }
  bool draws = command != MEMORY && command != CHECK;
  fputs(usage[command], out);
  fputs(upright, out);
  fputs(wide, out);
  if (command != CHECK) {
    fputs(after, out);
  }
  fputs(draws ? which_start : either_start, out);
}

void version_print(FILE *out)
{
  fprintf(out, "ssd1815b %s\nmodel: %s\npictures: PBM%s\n", SSD1815B_VERSION,
          MODEL, png_built() ? " and PNG" : ", no PNG");
}
