/*
** The kinds of records, by document 01, and by document 02 of a wide trace.
*/
#ifndef KINDS_H
#define KINDS_H

enum { HEADER_SIZE = 4, LONGEST_PAYLOAD = 65535 };

enum {
  KIND_COMMANDS = 1,
  KIND_WRITTEN,
  KIND_READ,
  KIND_RESET_PIN,
  KIND_SELECT  /* of a wide trace alone */
};

#endif
