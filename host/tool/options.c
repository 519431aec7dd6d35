#define _POSIX_C_SOURCE 200809L /* strcasecmp */
#include "options.h"

#include <errno.h>
#include <inttypes.h>
#include <stdio.h>
#include <stdlib.h>
#include <string.h>
#include <strings.h>

enum { LARGEST_SCALE = 64, USUAL_SCALE = 4 };

static const char *const command_names[COMMANDS] = {
  [LIST] = "list",   [SHOW] = "show",     [PICTURE] = "picture",
  [STATE] = "state", [MEMORY] = "memory", [DIFF] = "diff",
  [CHECK] = "check"
};

void options_wrong(const char *why, const char *what)
{
  fprintf(stderr, "ssd1815b: %s%s\nssd1815b --help says more\n", why, what);
}

/* ---- options and their values ---- */

/* A number in decimal digits and nothing else. */
static bool number_of(const char *text, uintmax_t *number)
{
  char *end;
  errno = 0;
  *number = strtoumax(text, &end, 10);
  return *text >= '0' && *text <= '9' && *end == '\0' && errno == 0;
}

static bool take_scale(struct options *options, const char *text)
{
  uintmax_t number;
  if (!number_of(text, &number) || number < 1 || number > LARGEST_SCALE) {
    options_wrong("a scale is a number from 1 to 64, not ", text);
    return false;
  }
  options->scale = (unsigned)number;
  return true;
}

static bool take_after(struct options *options, const char *text)
{
  uintmax_t number;
  if (!number_of(text, &number) || number >= ALL_RECORDS) {
    options_wrong("--after takes a number of records, not ", text);
    return false;
  }
  options->records = (size_t)number;
  return true;
}

static bool take_upright(struct options *options, const char *text)
{
  (void)text;
  options->hung = HUNG_UPRIGHT;
  return true;
}

static bool take_wide(struct options *options, const char *text)
{
  (void)text;
  options->wide = true;
  return true;
}

static bool take_png(struct options *options, const char *text)
{
  (void)text;
  options->png = true;
  return true;
}

/* A picture's file.  Its ending is asked, so that a trace that is named here
** by mistake is not written over. */
static bool take_file(struct options *options, const char *text,
                      const char *other)
{
  const char *ending = strrchr(text, '.');
  bool png = ending != NULL && strcasecmp(ending, ".png") == 0;
  if (!png && (ending == NULL || strcasecmp(ending, other) != 0)) {
    fprintf(stderr, "ssd1815b: a picture's file is named FILE.png or FILE%s,"
            " not %s\nssd1815b --help says more\n", other, text);
    return false;
  }
  options->output = text;
  return true;
}

static bool take_output(struct options *options, const char *text)
{
  return take_file(options, text, ".pbm");
}

static bool take_picture(struct options *options, const char *text)
{
  return take_file(options, text, ".ppm");
}

static bool take_memory(struct options *options, const char *text)
{
  (void)text;
  options->memory = true;
  return true;
}

static bool take_show(struct options *options, const char *text)
{
  (void)text;
  options->show = true;
  return true;
}

static bool take_brief(struct options *options, const char *text)
{
  (void)text;
  options->brief = true;
  return true;
}

static bool take_refused(struct options *options, const char *text)
{
  (void)text;
  options->refused = true;
  return true;
}

struct option {
  const char *name;
  const char *value;   /* what it needs, or null */
  unsigned commands;   /* that take it, a bit each */
  const char *whose;   /* what is said to the others; null if there are none */
  bool (*take)(struct options *options, const char *text);
};

enum {
  FOR_PICTURE = 1 << PICTURE,
  FOR_DIFF = 1 << DIFF,
  NOT_FOR_CHECK = (1 << CHECK) - 1,
  FOR_ALL = (1 << COMMANDS) - 1
};

static const struct option table[] = {
  { "--after", "a number", NOT_FOR_CHECK, "is not for check", take_after },
  { "--upright", NULL, FOR_ALL, NULL, take_upright },
  { "--wide", NULL, FOR_ALL, NULL, take_wide },
  { "--scale", "a number", FOR_PICTURE | FOR_DIFF,
    "is for picture and diff alone", take_scale },
  { "--png", NULL, FOR_PICTURE, "is for picture alone", take_png },
  { "--output", "a file", FOR_PICTURE, "is for picture alone", take_output },
  { "-o", "a file", FOR_PICTURE, "is for picture alone", take_output },
  { "--picture", "a file", FOR_DIFF, "is for diff alone", take_picture },
  { "--memory", NULL, FOR_DIFF, "is for diff alone", take_memory },
  { "--show", NULL, FOR_DIFF, "is for diff alone", take_show },
  { "--brief", NULL, FOR_DIFF, "is for diff alone", take_brief },
  { "-q", NULL, FOR_DIFF, "is for diff alone", take_brief },
  { "--refused", NULL, FOR_DIFF, "is for diff alone", take_refused },
};

/* The option of which this is the name, or the name, = and a value. */
static const struct option *option_of(const char *text)
{
  size_t length = strcspn(text, "=");
  for (size_t i = 0; i < sizeof table / sizeof *table; i++) {
    if (strlen(table[i].name) == length
        && strncmp(table[i].name, text, length) == 0) {
      return &table[i];
    }
  }
  return NULL;
}

/* Takes the option at place *i of the command line, and moves *i on to its
** value where that stands apart. */
static bool take_option(int argc, char **argv, int *i, struct options *options)
{
  const char *text = argv[*i];
  const struct option *option = option_of(text);
  if (option == NULL) {
    options_wrong("no such option: ", text);
    return false;
  }
  if ((option->commands >> options->command & 1) == 0) {
    fprintf(stderr, "ssd1815b: %s %s\n", option->name, option->whose);
    return false;
  }
  const char *value = strchr(text, '=');
  if (option->value == NULL) {
    if (value != NULL) {
      options_wrong("no value is taken by ", option->name);
      return false;
    }
    return option->take(options, NULL);
  }
  if (value != NULL) {
    return option->take(options, value + 1);
  }
  if (++*i == argc) {
    fprintf(stderr, "ssd1815b: %s needs %s\n", option->name, option->value);
    return false;
  }
  return option->take(options, argv[*i]);
}

/* ---- the command line ---- */

#define NO_COMMAND "no such command: "

/* The command of that name; COMMANDS if there is none. */
static enum command command_of(const char *text)
{
  int i = 0;
  while (i < COMMANDS && strcmp(text, command_names[i]) != 0) {
    i++;
  }
  return (enum command)i;
}

static bool is_help(const char *text)
{
  return strcmp(text, "help") == 0;
}

/* Help is asked for: as the command, or by its options before any `--`. */
static bool help_wanted(int argc, char **argv)
{
  bool wanted = argc > 1 && is_help(argv[1]);
  for (int i = 1; i < argc && strcmp(argv[i], "--") != 0; i++) {
    wanted = wanted || strcmp(argv[i], "--help") == 0
             || strcmp(argv[i], "-h") == 0;
  }
  return wanted;
}

/* Finds the command that help is asked for, the first word or the one after
** `help`: COMMANDS where an option stands there, or nothing.  Answers whether
** that is a command; says so if it is none. */
static bool find_explained(int argc, char **argv, enum command *command)
{
  int i = is_help(argv[1]) ? 2 : 1;
  bool named = i < argc && argv[i][0] != '-' && !is_help(argv[i]);
  *command = named ? command_of(argv[i]) : COMMANDS;
  if (named && *command == COMMANDS) {
    options_wrong(NO_COMMAND, argv[i]);
    return false;
  }
  return true;
}

/* Options and traces; the names of the traces are moved to the front. */
static bool take_words(int argc, char **argv, struct options *options)
{
  bool options_end = false;
  for (int i = 2; i < argc; i++) {
    if (options_end || argv[i][0] != '-' || argv[i][1] == '\0') {
      options->traces[options->trace_count++] = argv[i];
    } else if (strcmp(argv[i], "--") == 0) {
      options_end = true;
    } else if (!take_option(argc, argv, &i, options)) {
      return false;
    }
  }
  return true;
}

/* As many traces as the command takes. */
static bool traces_fit(const struct options *options)
{
  int most = options->command == DIFF ? 2 : 1;
  if (options->trace_count > most && options->command != CHECK) {
    options_wrong(options->command == DIFF
                    ? "diff compares two, and this is a third: "
                    : "more than one trace, which check alone takes: ",
                  options->traces[most]);
    return false;
  }
  if (options->command == DIFF && options->trace_count < 2) {
    options_wrong("diff compares two, each a trace or a listing: FIRST SECOND",
                  "");
    return false;
  }
  if (options->command == DIFF && strcmp(options->traces[0], "-") == 0
      && strcmp(options->traces[1], "-") == 0) {
    options_wrong("standard input cannot be both FIRST and SECOND", "");
    return false;
  }
  return true;
}

/* What diff is asked for goes together. */
static bool diff_fits(const struct options *options)
{
  const char *wrong =
    options->memory && options->show
      ? "--memory has no screen for --show"
    : options->memory && options->output != NULL
      ? "--memory has no screen for --picture"
    : options->brief && options->show
      ? "--brief is one line, and --show a screen"
    : options->scale != 0 && options->output == NULL
      ? "--scale is for --picture" : NULL;
  if (wrong != NULL) {
    options_wrong(wrong, "");
  }
  return wrong == NULL;
}

/* The picture's form is that of its file. */
static bool output_fits(struct options *options)
{
  if (options->output != NULL) {
    bool png = strcasecmp(strrchr(options->output, '.'), ".png") == 0;
    if (options->png && !png) {
      options_wrong("--png, but the file is ", options->output);
      return false;
    }
    options->png = png;
  }
  return true;
}

/* What no option shows by itself. */
static bool fit_together(struct options *options)
{
  if (!traces_fit(options) || !output_fits(options)
      || (options->command == DIFF && !diff_fits(options))) {
    return false;
  }
  options->scale = options->scale == 0 ? USUAL_SCALE : options->scale;
  return true;
}

enum wish options_of(int argc, char **argv, struct options *options)
{
  static char dash[] = "-";
  static char *standard_input[] = { dash };
  *options = (struct options){ .command = COMMANDS, .records = ALL_RECORDS };
  if (argc < 2) {
    options_wrong("no command", "");
    return WISH_NONE;
  }
  if (help_wanted(argc, argv)) {
    return find_explained(argc, argv, &options->command) ? WISH_HELP
                                                         : WISH_NONE;
  }
  if (strcmp(argv[1], "--version") == 0) {
    return WISH_VERSION;
  }
  options->command = command_of(argv[1]);
  if (options->command == COMMANDS) {
    options_wrong(option_of(argv[1]) != NULL
                    ? "the command stands before its options, and first is "
                    : NO_COMMAND, argv[1]);
    return WISH_NONE;
  }
  options->traces = argv + 2;
  if (!take_words(argc, argv, options) || !fit_together(options)) {
    return WISH_NONE;
  }
  if (options->trace_count == 0) {
    options->traces = standard_input;
    options->trace_count = 1;
  }
  return WISH_COMMAND;
}
