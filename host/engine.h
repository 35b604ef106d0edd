/* The speech engine, played: what it has in hand, a prompt or on a recognizer a recognition, ends after its time, or by
 * a line on standard input: `report CAUSE [ID]`, on a recognizer `report CAUSE SCORE [ID]`. Among these lines `back N`
 * is a technician's, and asks for an edition of the settings.
 *
 * It is also the example of what firmware has to do about reports, which name no request: the library takes one for
 * the first that is held. So the engine is made to follow the channel before anything is reported: engine_follow
 * compares the first held id with the request in hand, and starts, stops, pauses or resumes. And a report is kept with
 * the id of the request that it is about: where that is no longer the first held one, the report comes late and is not
 * made; where it is paused, the library refuses the report, and it is made again when the prompt goes on. */
#ifndef ENGINE_H
#define ENGINE_H

#include <stddef.h>
#include <stdint.h>

#include "../include/klarvesimo.h"

enum { LONGEST_LINE = 80, BY_LINES_ALONE = -1 };

struct engine {
  int recognizes; /* it is a recognizer's */
  int64_t takes;  /* how long a prompt or a recognition takes, in milliseconds; or BY_LINES_ALONE */
  int has, runs;  /* a request is in hand; and it is not paused */
  uint64_t request;
  int64_t left, since; /* what it had left when it last began to run, and when that was */
  int asks;            /* a line has asked for an edition, this one: until that is answered no line is taken */
  uint32_t edition;
  int due; /* a report is to be made: until then no line is read and no time runs out */
  uint32_t cause;
  float score;
  int about, said; /* the report is about a request, this one; and it was said that it waits */
  uint64_t reported;
  int ended, skips; /* standard input has ended; the rest of a line that is too long is passed over */
  unsigned long line;
  size_t length;
  char text[LONGEST_LINE];
};

/* What a request in hand is called. */
const char *engine_word(const struct engine *e);

/* Starts, pauses, resumes or stops a request, as the channel says. */
void engine_follow(struct engine *e, const uint64_t *channel, int64_t now);

/* Whether a report is due: one that was, or the next line's, or, the time being over, that of a normal end or a certain
 * success. Asked after engine_follow. The lines are taken up to one that is a report, or asks for an edition. */
int engine_due(struct engine *e, int64_t now);

/* The edition that a line asks for into number: whether there is such a line, which is answered by that. */
int engine_asks(struct engine *e, uint32_t *number);

/* Whether the report that is due comes late: it is about another request than the first held one. */
int engine_late(const struct engine *e);

/* The report that is due has been made, and its request has ended; or it will never be made. */
void engine_reported(struct engine *e);
void engine_forget(struct engine *e);

/* How long until the request has ended, for poll: -1 where nothing will end by itself. */
int engine_wait(const struct engine *e, int64_t now);

/* Whether lines are wanted; and reads what is there. An unreadable line is an error in the log with its number. */
int engine_wants_lines(const struct engine *e);
void engine_read_lines(struct engine *e);

#endif
