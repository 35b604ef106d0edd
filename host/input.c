#include "input.h"

#include <string.h>

enum { GROUP = 7, MORE = 1 << GROUP, FITTED = 128 };

/* by what the first byte says */
static const enum verb verbs[] = {COMMAND_FRAME,  COMMAND_READ,    COMMAND_OPEN, COMMAND_MESSAGE, COMMAND_REPORT,
                                  COMMAND_NUMBER, COMMAND_CHANNEL, COMMAND_SHOW, COMMAND_WHOSE,   COMMAND_BACK,
                                  COMMAND_EDITIONS};
enum { VERBS = sizeof verbs / sizeof *verbs };

static int has_bytes(enum verb verb) {
  return verb == COMMAND_FRAME || verb == COMMAND_READ || verb == COMMAND_WHOSE || verb == COMMAND_OPEN ||
         verb == COMMAND_MESSAGE;
}

static int has_room(enum verb verb) { return verb == COMMAND_MESSAGE || verb == COMMAND_REPORT || verb == COMMAND_SHOW; }

/* where the numbers of a channel begin that the command has; they go on to the last */
static size_t first_number(enum verb verb) {
  if (verb == COMMAND_CHANNEL) return 0;
  return verb == COMMAND_EDITIONS ? KLARVESIMO_CHANNEL_EDITIONS : KLARVESIMO_CHANNEL;
}

static unsigned next_byte(struct input *in) {
  if (in->left == 0) return 0;
  in->left--;
  return *in->at++;
}

static uint64_t next_number(struct input *in) {
  uint64_t number = 0;
  for (unsigned shift = 0; shift < 64; shift += GROUP) {
    unsigned group = next_byte(in);
    number |= (uint64_t)(group % MORE) << shift;
    if (group < MORE) break;
  }
  return number;
}

/* the opening of a message with `rest` bytes behind it: how long it is */
static size_t opening_for(size_t rest, char *opening) {
  size_t length = 0;
  for (size_t stated = rest; length == 0 || stated != rest + length;) {
    stated = rest + length;
    length = (size_t)snprintf(opening, KLARVESIMO_LONGEST_OPENING + 1, "MRCP/2.0 %zu ", stated);
  }
  return length;
}

static void next_bytes(struct input *in, int fitted, struct command *c) {
  char opening[KLARVESIMO_LONGEST_OPENING + 1];
  uint64_t stated = next_number(in);
  size_t count = stated < in->left ? (size_t)stated : in->left, front = fitted ? opening_for(count, opening) : 0;
  memcpy(c->bytes, opening, front);
  memcpy(c->bytes + front, in->at, count);
  c->count = front + count;
  in->at += count, in->left -= count;
}

int input_next(struct input *in, struct command *c) {
  if (in->left == 0) return 0;
  unsigned first = next_byte(in);
  c->verb = verbs[first % FITTED % VERBS];
  if (c->verb == COMMAND_REPORT) c->cause = (uint32_t)next_number(in), c->score = (uint32_t)next_number(in);
  if (c->verb == COMMAND_NUMBER) c->place = (size_t)(next_number(in) % KLARVESIMO_CHANNEL), c->value = next_number(in);
  if (c->verb == COMMAND_BACK) c->edition = (uint32_t)next_number(in);
  for (size_t i = first_number(c->verb); i < KLARVESIMO_CHANNEL; i++) c->channel[i] = next_number(in);
  if (has_room(c->verb)) {
    uint64_t room = next_number(in);
    c->room = room < INPUT_MOST_ROOM ? (size_t)room : INPUT_MOST_ROOM;
  }
  if (has_bytes(c->verb)) next_bytes(in, first & FITTED, c);
  return 1;
}

static void put_number(FILE *to, uint64_t number) {
  for (; number >= MORE; number >>= GROUP) fputc((int)(number % MORE) | MORE, to);
  fputc((int)number, to);
}

/* how long the opening is where it is the one that fits; else 0 */
static size_t fitted(const struct command *c) {
  char opening[KLARVESIMO_LONGEST_OPENING + 1];
  for (size_t length = 1; length <= KLARVESIMO_LONGEST_OPENING && length <= c->count; length++)
    if (opening_for(c->count - length, opening) == length && memcmp(opening, c->bytes, length) == 0) return length;
  return 0;
}

void input_put(FILE *to, const struct command *c) {
  size_t which = 0, front = has_bytes(c->verb) ? fitted(c) : 0;
  while (which < VERBS && verbs[which] != c->verb) which++;
  if (which == VERBS) return;
  fputc((int)which + (front > 0 ? FITTED : 0), to);
  if (c->verb == COMMAND_REPORT) put_number(to, c->cause), put_number(to, c->score);
  if (c->verb == COMMAND_NUMBER) put_number(to, c->place), put_number(to, c->value);
  if (c->verb == COMMAND_BACK) put_number(to, c->edition);
  for (size_t i = first_number(c->verb); i < KLARVESIMO_CHANNEL; i++) put_number(to, c->channel[i]);
  if (has_room(c->verb)) put_number(to, c->verb == COMMAND_SHOW ? KLARVESIMO_MOST_HELD : c->room);
  if (!has_bytes(c->verb)) return;
  put_number(to, c->count - front);
  fwrite(c->bytes + front, 1, c->count - front, to);
}
