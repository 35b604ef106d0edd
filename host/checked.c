#include "checked.h"

#include <string.h>

#include "channel.h"
#include "lend.h"
#include "level.h"
#include "message.h"
#include "score.h"

enum { ALL = KLARVESIMO_CHANNEL * sizeof(uint64_t) };

static const uint64_t MOST_MILLIS = UINT64_C(9999999999999999999);

/* lent for as long as it is in use, and again at each opening */
static uint64_t *channel;

void checked_begin(void) {
  channel = memset(lend(CHANNEL, ALL), 0, ALL);
  channel[KLARVESIMO_CHANNEL_EDITIONS] = 1;
}

uint64_t *checked_channel(void) { return channel; }

int checked_written(uint32_t number, const uint8_t *out, uint64_t written, size_t room) {
  return written <= room && (number == 0 || written == 0) && lend_untouched(out + written, room - (size_t)written);
}

/* the stated length, as framing alone gives it, where the message was taken */
static uint64_t consumed_by(uint32_t number, const uint8_t *bytes, size_t count) {
  uint64_t frame[KLARVESIMO_FRAME_NUMBERS] = {0};
  if (number == 0 || number == KLARVESIMO_MALFORMED_LINE || number == KLARVESIMO_NO_REQUEST)
    klarvesimo_frame(bytes, count, frame, KLARVESIMO_FRAME_NUMBERS);
  return frame[KLARVESIMO_FRAME_LENGTH];
}

static int frame_fits(const uint64_t *frame, size_t count) {
  uint64_t opening = frame[KLARVESIMO_FRAME_OPENING], length = frame[KLARVESIMO_FRAME_LENGTH];
  return opening <= KLARVESIMO_LONGEST_OPENING && opening <= length && length <= KLARVESIMO_LONGEST_MESSAGE &&
         length <= count;
}

struct checked checked_frame(const uint8_t *from, size_t count, uint64_t *numbers) {
  enum { SIZE = KLARVESIMO_FRAME_NUMBERS * sizeof(uint64_t) };
  struct checked c = {0};
  const uint8_t *bytes = lend_copy(INPUT, from, count);
  uint64_t *out = lend(OUTPUT, SIZE);
  c.number = klarvesimo_frame(bytes, count, out, KLARVESIMO_FRAME_NUMBERS);
  c.holds = c.number ? lend_untouched(out, SIZE) : frame_fits(out, count);
  memcpy(numbers, out, SIZE);
  out = lend(OUTPUT, SIZE - sizeof *out); /* a number short */
  uint32_t number = klarvesimo_frame(bytes, count, out, KLARVESIMO_FRAME_NUMBERS - 1);
  c.holds &= number == (c.number ? c.number : KLARVESIMO_NO_ROOM) && lend_untouched(out, SIZE - sizeof *out) &&
             memcmp(bytes, from, count) == 0;
  return c;
}

static int inside(const uint64_t *part, uint64_t size) { return part[0] <= size && part[1] <= size - part[0]; }

static int is_gap(uint8_t byte) { return byte == ' ' || byte == '\t' || byte == '\r' || byte == '\n'; }

/* neither end of a value is a blank, or of a line's end */
static int is_trimmed(const uint8_t *value, uint64_t size) {
  return size == 0 || (!is_gap(value[0]) && !is_gap(value[size - 1]));
}

/* no number leads out of the message or out of its range */
static int numbers_fit(const uint8_t *bytes, const uint64_t *out, uint64_t size) {
  int fit = out[KLARVESIMO_KIND] >= KLARVESIMO_REQUEST && out[KLARVESIMO_KIND] <= KLARVESIMO_EVENT &&
            out[KLARVESIMO_STATE] <= KLARVESIMO_COMPLETE && out[KLARVESIMO_STATUS] <= 999 &&
            out[KLARVESIMO_ID] <= UINT32_MAX && out[KLARVESIMO_GOOD] <= 1 && inside(out + KLARVESIMO_NAME, size) &&
            inside(out + KLARVESIMO_BODY, size);
  for (uint64_t f = 0; f < out[KLARVESIMO_FIELDS]; f++) {
    const uint64_t *field = out + KLARVESIMO_HEAD + KLARVESIMO_FIELD_NUMBERS * f;
    fit &= inside(field + KLARVESIMO_FIELD_NAME, size) && inside(field + KLARVESIMO_FIELD_VALUE, size) &&
           is_trimmed(bytes + field[KLARVESIMO_FIELD_VALUE], field[KLARVESIMO_FIELD_VALUE_LENGTH]);
  }
  return fit;
}

/* Reads into an output of `room` numbers, which becomes the numbers written. */
static struct checked reads(const uint8_t *bytes, size_t count, size_t room, uint64_t *numbers) {
  uint64_t *out = lend(OUTPUT, room * sizeof *out), *consumed = lend(COUNTS, sizeof *consumed);
  struct checked c = {.number = klarvesimo_read(bytes, count, out, room, consumed)};
  size_t written = 0;
  c.consumed = *consumed;
  if (c.number == 0) {
    if (room < KLARVESIMO_HEAD || out[KLARVESIMO_FIELDS] > KLARVESIMO_MOST_FIELDS) return c;
    written = (size_t)(KLARVESIMO_HEAD + KLARVESIMO_FIELD_NUMBERS * out[KLARVESIMO_FIELDS]);
    if (written > room || c.consumed > count || !numbers_fit(bytes, out, c.consumed)) return c;
  }
  memcpy(numbers, out, written * sizeof *out);
  c.holds = c.consumed == consumed_by(c.number, bytes, count) && lend_untouched(out + written, (room - written) * sizeof *out);
  return c;
}

/* the same numbers from an output that is exactly as long as needed, and a refusal from one that is a number short */
static int reads_again(const uint8_t *bytes, size_t count, const uint64_t *first) {
  uint64_t again[KLARVESIMO_MOST];
  size_t needed = (size_t)(KLARVESIMO_HEAD + KLARVESIMO_FIELD_NUMBERS * first[KLARVESIMO_FIELDS]);
  struct checked c = reads(bytes, count, needed, again);
  if (!c.holds || c.number != 0 || memcmp(first, again, needed * sizeof *again) != 0) return 0;
  c = reads(bytes, count, needed - 1, again);
  return c.holds && c.number == KLARVESIMO_NO_ROOM;
}

struct checked checked_read(const uint8_t *from, size_t count, uint64_t *numbers) {
  const uint8_t *bytes = lend_copy(INPUT, from, count);
  struct checked c = reads(bytes, count, KLARVESIMO_MOST, numbers);
  if (c.holds && c.number == 0) c.holds = reads_again(bytes, count, numbers);
  c.holds &= memcmp(bytes, from, count) == 0;
  return c;
}

/* Once the whole message is there, reading gives the same; before, and where it is too long, there is an id, a
 * malformed line, or none yet. */
static int whose_agrees(uint32_t number, uint64_t id, const uint8_t *bytes, size_t count) {
  uint64_t numbers[KLARVESIMO_MOST], consumed;
  uint32_t whole = klarvesimo_read(bytes, count, numbers, KLARVESIMO_MOST, &consumed);
  if (whole == 0) return number == 0 && id == numbers[KLARVESIMO_ID];
  if (whole == KLARVESIMO_MORE_BYTES || whole == KLARVESIMO_TOO_LONG)
    return number == 0 || number == KLARVESIMO_MORE_BYTES || number == KLARVESIMO_MALFORMED_LINE;
  return number == whole;
}

struct checked checked_whose(const uint8_t *from, size_t count, uint64_t *id) {
  struct checked c = {0};
  size_t looked = count < KLARVESIMO_LOOKED_AT ? count : KLARVESIMO_LOOKED_AT;
  const uint8_t *bytes = lend_copy(INPUT, from, count);
  uint64_t *out = lend(OUTPUT, sizeof *out);
  c.number = klarvesimo_whose(bytes, count, out);
  *id = *out;
  c.holds = (c.number ? lend_untouched(out, sizeof *out) : *id <= UINT32_MAX) &&
            whose_agrees(c.number, *id, bytes, count) && memcmp(bytes, from, count) == 0;
  bytes = lend_copy(INPUT, from, looked); /* the same without what is not looked at */
  out = lend(OUTPUT, sizeof *out);
  c.holds &= klarvesimo_whose(bytes, looked, out) == c.number && *out == *id;
  return c;
}

/* klarvesimo_held with `room` gives the number, and on 0 the ids of the channel's own queue and no more */
static int held_gives(uint32_t number, size_t room) {
  uint64_t held = number ? 0 : channel[KLARVESIMO_CHANNEL_COUNT];
  uint64_t *ids = lend(IDS, room * sizeof *ids), *count = lend(COUNTS, sizeof *count);
  if (klarvesimo_held(channel, ids, room, count) != number || *count != held) return 0;
  for (uint64_t i = 0; i < held; i++)
    if (ids[i] != channel[KLARVESIMO_CHANNEL_QUEUE + i] / 2) return 0;
  return lend_untouched(ids + held, (room - held) * sizeof *ids);
}

/* with room to spare, with just enough and with one too few; where the channel is not sound, whatever the room */
static int held_agrees(int sound) {
  uint64_t before[KLARVESIMO_CHANNEL], count = channel[KLARVESIMO_CHANNEL_COUNT];
  memcpy(before, channel, ALL);
  int agrees = sound ? count <= KLARVESIMO_MOST_HELD && held_gives(0, KLARVESIMO_MOST_HELD) && held_gives(0, (size_t)count) &&
                           (count == 0 || held_gives(KLARVESIMO_NO_ROOM, (size_t)count - 1))
                     : held_gives(KLARVESIMO_NOT_SOUND, KLARVESIMO_MOST_HELD) && held_gives(KLARVESIMO_NOT_SOUND, 0);
  return agrees && memcmp(before, channel, ALL) == 0;
}

struct checked checked_held(size_t room) {
  uint64_t before[KLARVESIMO_CHANNEL], written;
  struct checked c = {0};
  memcpy(before, channel, ALL);
  /* what is no cause of either kind is refused whatever the channel, but for one that is not sound */
  uint32_t refused = klarvesimo_report(channel, KLARVESIMO_RECOGNITION_CAUSES, 0, NULL, 0, &written);
  if (refused == KLARVESIMO_NOT_SOUND)
    c.number = KLARVESIMO_NOT_SOUND;
  else if (channel[KLARVESIMO_CHANNEL_COUNT] > room)
    c.number = KLARVESIMO_NO_ROOM;
  c.holds = (refused == KLARVESIMO_NOT_SOUND || refused == KLARVESIMO_NO_CAUSE) && held_gives(c.number, room) &&
            memcmp(before, channel, ALL) == 0;
  return c;
}

static int zero(size_t from, size_t to) {
  for (size_t i = from; i < to; i++)
    if (channel[i] != 0) return 0;
  return 1;
}

/* a value as a call writes it: of its sort and in its range; or unset, and 0 */
static int value_fits(const uint64_t *value, uint64_t sort) {
  uint64_t most = sort == KLARVESIMO_FLAG ? 1 : sort == KLARVESIMO_MILLIS ? MOST_MILLIS : LEVEL_ONE;
  return value[0] == KLARVESIMO_UNSET ? value[1] == 0 : value[0] == sort && value[1] <= most;
}

/* one to four editions with such values, and 0 past these */
static int editions_fit(void) {
  uint64_t count = channel[KLARVESIMO_CHANNEL_EDITIONS];
  size_t settings = channel_settings(channel), at = KLARVESIMO_CHANNEL_SETTINGS;
  if (count < 1 || count > KLARVESIMO_MOST_EDITIONS) return 0;
  for (size_t edition = 1; edition <= count; edition++, at += KLARVESIMO_EDITION_NUMBERS) {
    for (size_t i = 0; i < settings; i++)
      if (!value_fits(channel_value(channel, edition, i), channel_setting(channel, i)->sort)) return 0;
    if (!zero(at + 2 * settings, at + KLARVESIMO_EDITION_NUMBERS)) return 0;
  }
  return zero(at, KLARVESIMO_CHANNEL);
}

/* a refused call leaves every number as it was, a handled one 0 past the counts and the size */
static int channel_agrees(uint32_t number, const uint64_t *before) {
  if (number) return memcmp(channel, before, ALL) == 0;
  uint64_t count = channel[KLARVESIMO_CHANNEL_COUNT], size = channel[KLARVESIMO_CHANNEL_SIZE];
  size_t places = channel_places(channel);
  if (count > places || size > KLARVESIMO_LONGEST_NAME) return 0;
  return zero(KLARVESIMO_CHANNEL_QUEUE + (size_t)count, KLARVESIMO_CHANNEL_QUEUE + places) &&
         (!channel_recognizes(channel) ||
          zero(KLARVESIMO_CHANNEL_THRESHOLDS + (size_t)count, KLARVESIMO_CHANNEL_NAME)) &&
         zero(KLARVESIMO_CHANNEL_NAME + (size_t)size, KLARVESIMO_CHANNEL_EDITIONS) && editions_fit();
}

/* the message says that it is of this channel */
static int names_channel(const uint8_t *bytes, const uint64_t *numbers) {
  uint8_t name[KLARVESIMO_LONGEST_NAME];
  size_t size = channel_name(channel, name);
  const uint64_t *part = message_field(bytes, numbers, "Channel-Identifier");
  return part && part[1] == size && memcmp(bytes + part[0], name, size) == 0;
}

/* the length of the message at the front of what was written, where it is of this kind, with this id and good fields;
 * else 0 */
static size_t reads_back(const uint8_t *bytes, size_t count, uint64_t kind, uint64_t id) {
  uint64_t numbers[KLARVESIMO_MOST], consumed;
  int reads = klarvesimo_read(bytes, count, numbers, KLARVESIMO_MOST, &consumed) == 0 &&
              numbers[KLARVESIMO_KIND] == kind && numbers[KLARVESIMO_ID] == id && numbers[KLARVESIMO_GOOD] == 1 &&
              numbers[KLARVESIMO_MAJOR] == 2 && numbers[KLARVESIMO_MINOR] == 0 &&
              numbers[KLARVESIMO_BODY_LENGTH] == 0 && names_channel(bytes, numbers);
  return reads ? (size_t)consumed : 0;
}

/* what was written is an event for each request that the report has ended, from the active one on: one; or, on a
 * recognizer, all */
static int events_agree(const struct checked *c, const uint64_t *before) {
  uint64_t held = before[KLARVESIMO_CHANNEL_COUNT], left = channel[KLARVESIMO_CHANNEL_COUNT];
  size_t at = 0, length = 1;
  if (held > KLARVESIMO_MOST_HELD || left >= held) return 0;
  if (held - left > 1 && (left > 0 || !channel_recognizes(channel))) return 0;
  for (uint64_t i = 0; i < held - left && length > 0; i++) {
    uint64_t id = before[KLARVESIMO_CHANNEL_QUEUE + i] / 2;
    at += length = reads_back(c->out + at, (size_t)c->written - at, KLARVESIMO_EVENT, id);
  }
  return length > 0 && at == c->written;
}

/* what an answer of handle is to have kept, beside the bytes of out past it */
static int handle_agrees(const struct checked *c, const uint8_t *bytes, size_t count, const uint64_t *before) {
  uint64_t request[KLARVESIMO_MOST], consumed;
  if (c->consumed > count || c->consumed != consumed_by(c->number, bytes, count) || !channel_agrees(c->number, before)) return 0;
  if (c->number == 0 &&
      (klarvesimo_read(bytes, count, request, KLARVESIMO_MOST, &consumed) != 0 || c->written == 0 ||
       request[KLARVESIMO_KIND] != KLARVESIMO_REQUEST ||
       reads_back(c->out, (size_t)c->written, KLARVESIMO_RESPONSE, request[KLARVESIMO_ID]) != c->written))
    return 0;
  return held_agrees(c->number != KLARVESIMO_NOT_SOUND);
}

struct checked checked_open(const uint8_t *from, size_t length) {
  uint64_t expected[KLARVESIMO_CHANNEL] = {[KLARVESIMO_CHANNEL_EDITIONS] = 1};
  const uint8_t *name = lend_copy(INPUT, from, length);
  channel = lend(CHANNEL, ALL);
  struct checked c = {.number = klarvesimo_open(channel, name, length)};
  if (c.number == 0) expected[KLARVESIMO_CHANNEL_SIZE] = length;
  for (size_t i = 0; c.number == 0 && i < length && i < KLARVESIMO_LONGEST_NAME; i++)
    expected[KLARVESIMO_CHANNEL_NAME + i] = from[i];
  c.holds = memcmp(channel, expected, ALL) == 0 && memcmp(name, from, length) == 0 && held_agrees(c.number == 0);
  return c;
}

struct checked checked_handle(const uint8_t *from, size_t count, size_t room) {
  uint64_t before[KLARVESIMO_CHANNEL], *counts = lend(COUNTS, KLARVESIMO_COUNTS * sizeof *counts);
  const uint8_t *bytes = lend_copy(INPUT, from, count);
  uint8_t *out = lend(OUTPUT, room);
  memcpy(before, channel, ALL);
  struct checked c = {.number = klarvesimo_handle(channel, bytes, count, out, room, counts), .out = out};
  c.consumed = counts[KLARVESIMO_CONSUMED];
  if (!checked_written(c.number, out, counts[KLARVESIMO_WRITTEN], room)) return c;
  c.written = counts[KLARVESIMO_WRITTEN];
  c.holds = handle_agrees(&c, bytes, count, before) && memcmp(bytes, from, count) == 0;
  return c;
}

struct checked checked_report(uint32_t cause, uint32_t score, size_t room) {
  uint64_t before[KLARVESIMO_CHANNEL], *written = lend(COUNTS, sizeof *written);
  uint8_t *out = lend(OUTPUT, room);
  memcpy(before, channel, ALL);
  struct checked c = {.out = out};
  c.number = klarvesimo_report(channel, cause, score_of_bits(score), out, room, written);
  if (!checked_written(c.number, out, *written, room)) return c;
  c.written = *written;
  c.holds = channel_agrees(c.number, before) && (c.number != 0 || events_agree(&c, before)) &&
            held_agrees(c.number != KLARVESIMO_NOT_SOUND);
  return c;
}

/* so many numbers from here on are as they were */
static int stays(const uint64_t *before, size_t from, uint64_t count) {
  return memcmp(channel + from, before + from, (size_t)count * sizeof *channel) == 0;
}

/* an edition has the values that one had before */
static int same_edition(size_t edition, const uint64_t *before, size_t was) {
  for (size_t i = 0; i < channel_settings(channel); i++) {
    const uint64_t *now = channel_value(channel, edition, i), *then = channel_value(before, was, i);
    if (now[0] != then[0] || (now[0] != KLARVESIMO_UNSET && now[1] != then[1])) return 0;
  }
  return 1;
}

/* the newest edition is the one that had this number, the others are one on, and all else is as it was */
static int went_back(uint32_t number, const uint64_t *before) {
  uint64_t kept = before[KLARVESIMO_CHANNEL_EDITIONS], now = channel[KLARVESIMO_CHANNEL_EDITIONS];
  if (number < 1 || number > kept || now != (kept < KLARVESIMO_MOST_EDITIONS ? kept + 1 : kept)) return 0;
  for (size_t edition = 1; edition <= now; edition++)
    if (!same_edition(edition, before, edition > 1 ? edition - 1 : number)) return 0;
  return stays(before, 0, KLARVESIMO_CHANNEL_QUEUE) &&
         stays(before, KLARVESIMO_CHANNEL_QUEUE, channel[KLARVESIMO_CHANNEL_COUNT]) &&
         (!channel_recognizes(channel) ||
          stays(before, KLARVESIMO_CHANNEL_THRESHOLDS, channel[KLARVESIMO_CHANNEL_COUNT])) &&
         stays(before, KLARVESIMO_CHANNEL_NAME, channel[KLARVESIMO_CHANNEL_SIZE]);
}

struct checked checked_back(uint32_t number) {
  uint64_t before[KLARVESIMO_CHANNEL];
  memcpy(before, channel, ALL);
  struct checked c = {.number = klarvesimo_back(channel, number)};
  c.holds = channel_agrees(c.number, before) && (c.number != 0 || went_back(number, before)) &&
            held_agrees(c.number != KLARVESIMO_NOT_SOUND);
  return c;
}
