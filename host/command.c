#include "command.h"

#include <stdlib.h>
#include <string.h>

#include "channel.h"
#include "level.h"

struct command command_make(void) {
  struct command c = {.bytes = malloc(MOST_BYTES)};
  if (!c.bytes) {
    perror("no memory for a line");
    exit(1);
  }
  return c;
}

static uint32_t number32(const struct script *s, const char *word) { return (uint32_t)script_number(s, word, UINT32_MAX); }

static size_t room_of(const struct script *s, const char *word) { return (size_t)script_number(s, word, MOST_ROOM); }

/* the parts of a list `7,8`; `-` has none */
static char *parts_of(char *word) { return strcmp(word, "-") == 0 ? NULL : word; }

/* the first of them, which is taken from the rest; NULL where there is none */
static char *next_part(char **rest, char between) {
  char *part = *rest;
  if (!part) return NULL;
  char *end = strchr(part, between);
  if (end) *end = 0;
  *rest = end ? end + 1 : NULL;
  return part;
}

/* frame, read, whose and open HEX */
static void take_bytes(const struct script *s, struct command *c) { c->count = script_bytes(s, s->word[1], c->bytes); }

/* message ROOM HEX */
static void take_message(const struct script *s, struct command *c) {
  c->room = room_of(s, s->word[1]);
  c->count = script_bytes(s, s->word[2], c->bytes);
}

/* report CAUSE ROOM [SCORE] */
static void take_report(const struct script *s, struct command *c) {
  c->cause = number32(s, s->word[1]);
  c->room = room_of(s, s->word[2]);
  c->score = s->words == 4 ? script_bits(s, s->word[3]) : 0;
}

static uint32_t request_state(const struct script *s, const char *word) {
  if (strcmp(word, "PENDING") == 0) return KLARVESIMO_PENDING;
  if (strcmp(word, "IN-PROGRESS") == 0) return KLARVESIMO_IN_PROGRESS;
  if (strcmp(word, "COMPLETE") == 0) return KLARVESIMO_COMPLETE;
  script_unreadable(s, "no such request state");
  return 0;
}

/* respond STATE STATUS ID HEX IDS ROOM */
static void take_respond(const struct script *s, struct command *c) {
  c->state = request_state(s, s->word[1]);
  c->status = (uint32_t)script_number(s, s->word[2], 999);
  c->id = number32(s, s->word[3]);
  c->count = script_bytes(s, s->word[4], c->bytes);
  c->listed = 0;
  char *rest = parts_of(s->word[5]);
  for (char *part; (part = next_part(&rest, ','));) {
    if (c->listed == KLARVESIMO_MOST_HELD) script_unreadable(s, "more than 16 ids");
    c->ids[c->listed++] = number32(s, part);
  }
  c->room = room_of(s, s->word[6]);
}

/* complete CAUSE ID HEX ROOM */
static void take_complete(const struct script *s, struct command *c) {
  c->cause = number32(s, s->word[1]);
  c->id = number32(s, s->word[2]);
  c->count = script_bytes(s, s->word[3], c->bytes);
  c->room = room_of(s, s->word[4]);
}

static uint64_t state_of(const struct script *s, const char *word) {
  if (strcmp(word, "idle") == 0) return KLARVESIMO_IDLE;
  if (strcmp(word, "speaking") == 0) return KLARVESIMO_SPEAKING;
  if (strcmp(word, "paused") == 0) return KLARVESIMO_PAUSED;
  if (strcmp(word, "recognizing") == 0) return KLARVESIMO_RECOGNIZING;
  if (strcmp(word, "recognized") == 0) return KLARVESIMO_RECOGNIZED;
  return script_number(s, word, UINT64_MAX);
}

/* `7+` or `7-`, as a number of the queue */
static uint64_t prompt_of(const struct script *s, char *part) {
  size_t end = strlen(part);
  char sign = end > 0 ? part[end - 1] : 0;
  if (sign != '+' && sign != '-') script_unreadable(s, "a queue entry without `+` or `-`");
  part[end - 1] = 0;
  return script_number(s, part, UINT64_MAX / 2) * 2 + (sign == '+');
}

/* `7:3f000000`, as a number of the queue and the threshold */
static uint64_t recognition_of(const struct script *s, char *part, uint64_t *threshold) {
  char *colon = strchr(part, ':');
  if (!colon) script_unreadable(s, "a recognizer's queue entry without `:`");
  *colon = 0;
  *threshold = level_of_bits(script_bits(s, colon + 1));
  return script_number(s, part, UINT64_MAX / 2) * 2 + 1;
}

/* `7+,8-`, or on a recognizer `7:3f000000`, into the queue of a channel that has its name: how many */
static uint64_t queue_of(const struct script *s, char *word, uint64_t *channel) {
  uint64_t count = 0, *queue = channel + KLARVESIMO_CHANNEL_QUEUE;
  uint64_t *thresholds = channel + KLARVESIMO_CHANNEL_THRESHOLDS;
  char *rest = parts_of(word);
  for (char *part; (part = next_part(&rest, ',')); count++) {
    if (count == channel_places(channel)) script_unreadable(s, "more queue entries than there are places");
    queue[count] = channel_recognizes(channel) ? recognition_of(s, part, thresholds + count) : prompt_of(s, part);
  }
  return count;
}

/* channel HEX STATE LAST QUEUE [COUNT]: the size is that of the name given, of its bytes as many as fit are kept; with
 * one edition, all unset */
static void take_channel(const struct script *s, struct command *c) {
  uint64_t *to = c->channel;
  memset(to, 0, sizeof c->channel);
  size_t size = script_bytes(s, s->word[1], c->bytes);
  to[KLARVESIMO_CHANNEL_SIZE] = size;
  for (size_t i = 0; i < size && i < KLARVESIMO_LONGEST_NAME; i++) to[KLARVESIMO_CHANNEL_NAME + i] = c->bytes[i];
  to[KLARVESIMO_CHANNEL_STATE] = state_of(s, s->word[2]);
  if (strcmp(s->word[3], "-") != 0) to[KLARVESIMO_CHANNEL_LAST] = script_number(s, s->word[3], UINT64_MAX - 1) + 1;
  to[KLARVESIMO_CHANNEL_COUNT] = queue_of(s, s->word[4], to);
  if (s->words == 6) to[KLARVESIMO_CHANNEL_COUNT] = script_number(s, s->word[5], UINT64_MAX);
  to[KLARVESIMO_CHANNEL_EDITIONS] = 1;
}

/* number PLACE VALUE */
static void take_number(const struct script *s, struct command *c) {
  c->place = (size_t)script_number(s, s->word[1], KLARVESIMO_CHANNEL - 1);
  c->value = script_number(s, s->word[2], UINT64_MAX);
}

/* back N */
static void take_back(const struct script *s, struct command *c) { c->edition = number32(s, s->word[1]); }

/* `-`, `true`, `false`, `250` or `:3f000000`, as a sort and a value */
static void setting_of(const struct script *s, const char *part, uint64_t *to) {
  int yes = strcmp(part, "true") == 0;
  if (strcmp(part, "-") == 0)
    to[0] = KLARVESIMO_UNSET, to[1] = 0;
  else if (yes || strcmp(part, "false") == 0)
    to[0] = KLARVESIMO_FLAG, to[1] = (uint64_t)yes;
  else if (*part == ':')
    to[0] = KLARVESIMO_LEVEL, to[1] = level_of_bits(script_bits(s, part + 1));
  else
    to[0] = KLARVESIMO_MILLIS, to[1] = script_number(s, part, UINT64_MAX);
}

/* `true/250`, or on a recognizer `5000/:3f000000/-` */
static void edition_of(const struct script *s, char *rest, size_t settings, uint64_t *to) {
  size_t count = 0;
  for (char *part; (part = next_part(&rest, '/')); count++) {
    if (count == settings) script_unreadable(s, "more values in an edition than the channel has settings");
    setting_of(s, part, to + 2 * count);
  }
  if (count < settings) script_unreadable(s, "fewer values in an edition than the channel has settings");
}

/* settings [EDITIONS [COUNT]] */
static void take_settings(const struct script *s, struct command *c) {
  uint64_t count = 0, *to = c->channel + KLARVESIMO_CHANNEL_SETTINGS;
  if (s->words == 1) return;
  c->verb = COMMAND_EDITIONS;
  memset(to, 0, (KLARVESIMO_CHANNEL - KLARVESIMO_CHANNEL_SETTINGS) * sizeof *to);
  char *rest = parts_of(s->word[1]);
  for (char *part; (part = next_part(&rest, ',')); count++) {
    if (count == KLARVESIMO_MOST_EDITIONS) script_unreadable(s, "more editions than are kept");
    edition_of(s, part, channel_settings(c->current), to + KLARVESIMO_EDITION_NUMBERS * count);
  }
  if (s->words == 3) count = script_number(s, s->word[2], UINT64_MAX);
  c->channel[KLARVESIMO_CHANNEL_EDITIONS] = count;
}

static void take_nothing(const struct script *s, struct command *c) { (void)s, (void)c; }

static const struct {
  const char *name;
  enum verb verb;
  int fewest, most; /* words */
  void (*take)(const struct script *s, struct command *c);
} commands[] = {
    {"frame", COMMAND_FRAME, 2, 2, take_bytes},       {"read", COMMAND_READ, 2, 2, take_bytes},
    {"whose", COMMAND_WHOSE, 2, 2, take_bytes},       {"open", COMMAND_OPEN, 2, 2, take_bytes},
    {"message", COMMAND_MESSAGE, 3, 3, take_message}, {"report", COMMAND_REPORT, 3, 4, take_report},
    {"respond", COMMAND_RESPOND, 7, 7, take_respond}, {"complete", COMMAND_COMPLETE, 5, 5, take_complete},
    {"channel", COMMAND_CHANNEL, 5, 6, take_channel}, {"number", COMMAND_NUMBER, 3, 3, take_number},
    {"numbers", COMMAND_NUMBERS, 1, 1, take_nothing}, {"show", COMMAND_SHOW, 1, 1, take_nothing},
    {"back", COMMAND_BACK, 2, 2, take_back},          {"settings", COMMAND_SETTINGS, 1, 3, take_settings},
};

int command_next(struct script *s, struct command *c, const uint64_t *channel) {
  if (!script_next(s)) return 0;
  c->current = channel;
  for (size_t i = 0; i < sizeof commands / sizeof *commands; i++)
    if (strcmp(s->word[0], commands[i].name) == 0) {
      if (s->words < commands[i].fewest || s->words > commands[i].most) script_unreadable(s, "this command wants another number of words");
      c->verb = commands[i].verb;
      commands[i].take(s, c);
      return 1;
    }
  script_unreadable(s, "no such command");
  return 0;
}

void command_set(const struct command *c, uint64_t *channel) {
  if (c->verb == COMMAND_CHANNEL) memcpy(channel, c->channel, sizeof c->channel);
  if (c->verb == COMMAND_NUMBER) channel[c->place] = c->value;
  for (size_t i = KLARVESIMO_CHANNEL_EDITIONS; c->verb == COMMAND_EDITIONS && i < KLARVESIMO_CHANNEL; i++)
    channel[i] = c->channel[i];
}
