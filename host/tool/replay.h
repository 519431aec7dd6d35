/*
** A played trace once more, event by event, for what a run does not tell.
*/
#ifndef REPLAY_H
#define REPLAY_H

#include "played.h"

/* An event that was taken, as one chip had it. */
struct event {
  size_t offset;         /* of its byte; the reset pin's is its record's */
  size_t record;         /* which it is, from 0 */
  size_t first;          /* the record's first byte */
  size_t next;           /* the offset after the record */
  size_t kind;
  uint8_t selection;     /* the chips that have it */
  enum side side;        /* the one of them that this is about */
  const uint8_t *before; /* that chip's state image before it */
  const uint8_t *after;
  uint8_t byte;          /* what a read answered */
  uint8_t dummy;
};

typedef void visitor(const struct event *event, void *context);

/* Visits the events that the run took, in their order; one that both chips have
** twice, the left's first. */
void replay(const struct played *played, visitor *visit, void *context);

#endif
