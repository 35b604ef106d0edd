#define _POSIX_C_SOURCE 200809L
#include "engine.h"

#include <errno.h>
#include <inttypes.h>
#include <stdio.h>
#include <string.h>
#include <unistd.h>

#include "log.h"
#include "now.h"
#include "number.h"
#include "score.h"

enum { CERTAIN = 1 }; /* the score of a recognition that ends after its time */

const char *engine_word(const struct engine *e) { return e->recognizes ? "recognition" : "prompt"; }

static void start(struct engine *e, uint64_t request) {
  e->has = 1;
  e->runs = 0;
  e->request = request;
  e->left = e->takes;
}

static void stop(struct engine *e) {
  log_line("%s %" PRIu64 " stopped", engine_word(e), e->request);
  e->has = e->runs = 0;
}

static void run(struct engine *e, int runs) {
  const char *begins = e->recognizes ? "begins" : "speaks";
  log_line("%s %" PRIu64 " %s", engine_word(e), e->request, runs ? begins : "paused");
  e->runs = runs;
}

/* Ids rise, so a request with the same id is the same one, however many calls were made since. */
void engine_follow(struct engine *e, const uint64_t *channel, int64_t now) {
  uint64_t held[KLARVESIMO_MOST_HELD], count, state = channel[KLARVESIMO_CHANNEL_STATE];
  int runs = state == KLARVESIMO_SPEAKING || state == KLARVESIMO_RECOGNIZING;
  klarvesimo_held(channel, held, KLARVESIMO_MOST_HELD, &count); /* refused: none */
  if (e->runs) e->left -= now - e->since;
  e->since = now;
  if (e->has && (count == 0 || held[0] != e->request)) stop(e);
  int starts = !e->has && count > 0;
  if (starts) start(e, held[0]);
  if (e->has && (starts || e->runs != runs)) run(e, runs);
}

static int timed(const struct engine *e) { return e->takes != BY_LINES_ALONE && e->has && e->runs && !e->due; }

/* a report of the request in hand */
static void due(struct engine *e, uint32_t cause, float score) {
  e->due = 1;
  e->cause = cause;
  e->score = score;
  e->about = e->has;
  e->reported = e->request;
  e->said = 0;
}

int engine_late(const struct engine *e) { return e->about && !(e->has && e->request == e->reported); }

void engine_forget(struct engine *e) { e->due = 0; }

void engine_reported(struct engine *e) {
  log_begin();
  log_add("%s %" PRIu64 " has ended, cause %" PRIu32, engine_word(e), e->request, e->cause);
  if (e->recognizes) log_add(", score %g", (double)e->score);
  log_end();
  e->has = e->runs = 0;
  engine_forget(e);
}

/* the line's end in the text, NULL where it has not come */
static char *line_end(struct engine *e) { return memchr(e->text, '\n', e->length); }

static void drop_line(struct engine *e, char *end) {
  e->length -= (size_t)(end + 1 - e->text);
  memmove(e->text, end + 1, e->length);
}

/* the next word, NULL where there is none; what is behind it is left */
static char *next_word(char **rest) {
  char *word = *rest, *space = word ? strchr(word, ' ') : NULL;
  if (space) *space = 0;
  *rest = space ? space + 1 : NULL;
  return word;
}

/* The words behind `report `: the cause, which the library judges; a recognizer's score; and the request, if one is
 * named. NULL, or what is wrong. */
static const char *take_report(struct engine *e, char *words) {
  uint64_t cause = 0, request = 0;
  float score = 0;
  const char *wrong = number_read(next_word(&words), UINT32_MAX, &cause);
  if (!wrong && e->recognizes)
    wrong = words ? score_read(next_word(&words), &score) : "a recognizer's report wants a score: report CAUSE SCORE";
  if (!wrong && words) wrong = number_read(words, UINT32_MAX, &request);
  if (wrong) return wrong;
  due(e, (uint32_t)cause, score);
  if (words) e->about = 1, e->reported = request;
  return NULL;
}

/* The words behind `back `: the number of an edition, which the library judges. */
static const char *take_back(struct engine *e, const char *words) {
  uint64_t edition = 0;
  const char *wrong = number_read(words, UINT32_MAX, &edition);
  if (wrong) return wrong;
  e->asks = 1;
  e->edition = (uint32_t)edition;
  return NULL;
}

static void take_line(struct engine *e, char *end) {
  static const char report[] = "report ", back[] = "back ";
  const char *wrong = "no such command";
  e->line++;
  *end = 0;
  if (strlen(e->text) != (size_t)(end - e->text)) /* a byte 0 */
    wrong = "a byte that no line has";
  else if (strncmp(e->text, report, strlen(report)) == 0)
    wrong = take_report(e, e->text + strlen(report));
  else if (strncmp(e->text, back, strlen(back)) == 0)
    wrong = take_back(e, e->text + strlen(back));
  if (wrong) log_line("standard input, line %lu: %s", e->line, wrong);
}

/* Lines, until one is a report or asks for an edition; what is left of a line that was too long is none. */
static void take_lines(struct engine *e) {
  for (char *end; !e->due && !e->asks && (end = line_end(e)); drop_line(e, end)) {
    if (!e->skips) take_line(e, end);
    e->skips = 0;
  }
}

int engine_due(struct engine *e, int64_t now) {
  take_lines(e);
  uint32_t cause = e->recognizes ? KLARVESIMO_RECOGNITION_SUCCESS : KLARVESIMO_CAUSE_NORMAL;
  if (timed(e) && now - e->since >= e->left) due(e, cause, CERTAIN);
  return e->due;
}

int engine_asks(struct engine *e, uint32_t *number) {
  int asks = e->asks;
  *number = e->edition;
  e->asks = 0;
  return asks;
}

int engine_wait(const struct engine *e, int64_t now) { return timed(e) ? until_ms(e->since + e->left, now) : -1; }

int engine_wants_lines(const struct engine *e) { return !e->ended && !e->due; }

static void pass_over_long_line(struct engine *e) {
  if (!e->skips) log_line("standard input, line %lu: a line that is too long", ++e->line);
  e->skips = 1;
  e->length = 0;
}

void engine_read_lines(struct engine *e) {
  ssize_t count = read(STDIN_FILENO, e->text + e->length, sizeof e->text - e->length);
  if (count < 0 && (errno == EINTR || errno == EAGAIN)) return;
  if (count < 0) /* also where it is a terminal, and the board in the background */
    log_line("standard input: %s; no line is read from now on", strerror(errno));
  if (count <= 0) {
    e->ended = 1;
    if (e->length > 0) e->text[e->length++] = '\n'; /* the last line need not have one */
    return;
  }
  e->length += (size_t)count;
  if (e->length == sizeof e->text && !line_end(e)) pass_over_long_line(e);
}
