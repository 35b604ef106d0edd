#include "channel.h"

#include <inttypes.h>
#include <string.h>

#include "level.h"

size_t channel_name(const uint64_t *channel, uint8_t *name) {
  uint64_t size = channel[KLARVESIMO_CHANNEL_SIZE];
  size_t shown = size < KLARVESIMO_LONGEST_NAME ? (size_t)size : KLARVESIMO_LONGEST_NAME;
  for (size_t i = 0; i < shown; i++) name[i] = (uint8_t)channel[KLARVESIMO_CHANNEL_NAME + i];
  return shown;
}

int channel_recognizes(const uint64_t *channel) {
  static const char resource[] = "@speechrecog";
  uint8_t name[KLARVESIMO_LONGEST_NAME];
  size_t size = channel_name(channel, name), tail = strlen(resource);
  return size >= tail && memcmp(name + size - tail, resource, tail) == 0;
}

size_t channel_places(const uint64_t *channel) {
  return channel_recognizes(channel) ? KLARVESIMO_MOST_RECOGNITIONS : KLARVESIMO_MOST_HELD;
}

static const struct setting prompt_settings[] = {
    {"Kill-On-Barge-In", KLARVESIMO_FLAG},
    {"Fetch-Timeout", KLARVESIMO_MILLIS},
};
static const struct setting recognition_settings[] = {
    {"No-Input-Timeout", KLARVESIMO_MILLIS},
    {"Confidence-Threshold", KLARVESIMO_LEVEL},
    {"Sensitivity-Level", KLARVESIMO_LEVEL},
};

size_t channel_settings(const uint64_t *channel) {
  return channel_recognizes(channel) ? sizeof recognition_settings / sizeof *recognition_settings
                                     : sizeof prompt_settings / sizeof *prompt_settings;
}

const struct setting *channel_setting(const uint64_t *channel, size_t place) {
  return (channel_recognizes(channel) ? recognition_settings : prompt_settings) + place;
}

const uint64_t *channel_value(const uint64_t *channel, size_t edition, size_t place) {
  return channel + KLARVESIMO_CHANNEL_SETTINGS + KLARVESIMO_EDITION_NUMBERS * (edition - 1) + 2 * place;
}

size_t channel_editions(const uint64_t *channel) {
  uint64_t count = channel[KLARVESIMO_CHANNEL_EDITIONS];
  return count < KLARVESIMO_MOST_EDITIONS ? (size_t)count : KLARVESIMO_MOST_EDITIONS;
}

void channel_write_state(FILE *to, const uint64_t *channel) {
  static const char *const words[] = {[KLARVESIMO_IDLE] = "idle",
                                      [KLARVESIMO_SPEAKING] = "speaking",
                                      [KLARVESIMO_PAUSED] = "paused",
                                      [KLARVESIMO_RECOGNIZING] = "recognizing",
                                      [KLARVESIMO_RECOGNIZED] = "recognized"};
  uint64_t state = channel[KLARVESIMO_CHANNEL_STATE];
  if (state < sizeof words / sizeof *words)
    fputs(words[state], to);
  else
    fprintf(to, "%" PRIu64, state);
}

void channel_write_last(FILE *to, const uint64_t *channel) {
  uint64_t last = channel[KLARVESIMO_CHANNEL_LAST];
  if (last == 0)
    fputc('-', to);
  else
    fprintf(to, "%" PRIu64, last - 1);
}

static void write_entry(FILE *to, const uint64_t *channel, uint64_t place) {
  uint64_t entry = channel[KLARVESIMO_CHANNEL_QUEUE + place];
  fprintf(to, "%" PRIu64, entry / 2);
  if (channel_recognizes(channel))
    fprintf(to, ":%08" PRIx32, level_bits(channel[KLARVESIMO_CHANNEL_THRESHOLDS + place]));
  else
    fputc(entry % 2 ? '+' : '-', to);
}

void channel_write_queue(FILE *to, const uint64_t *channel, const char *beyond) {
  uint64_t count = channel[KLARVESIMO_CHANNEL_COUNT], places = channel_places(channel);
  if (count == 0) fputc('-', to);
  for (uint64_t i = 0; i < count && i < places; i++) {
    if (i > 0) fputc(',', to);
    write_entry(to, channel, i);
  }
  if (count > places) fprintf(to, "%s%" PRIu64, beyond, count);
}

static void write_value(FILE *to, const uint64_t *value) {
  if (value[0] == KLARVESIMO_FLAG)
    fputs(value[1] ? "true" : "false", to);
  else if (value[0] == KLARVESIMO_MILLIS)
    fprintf(to, "%" PRIu64, value[1]);
  else if (value[0] == KLARVESIMO_LEVEL)
    fprintf(to, ":%08" PRIx32, level_bits(value[1]));
  else
    fputc('-', to);
}

void channel_write_editions(FILE *to, const uint64_t *channel) {
  uint64_t count = channel[KLARVESIMO_CHANNEL_EDITIONS];
  if (count == 0) fputc('-', to);
  for (size_t edition = 1; edition <= channel_editions(channel); edition++)
    for (size_t place = 0; place < channel_settings(channel); place++) {
      if (place > 0 || edition > 1) fputc(place > 0 ? '/' : ',', to);
      write_value(to, channel_value(channel, edition, place));
    }
  if (count > KLARVESIMO_MOST_EDITIONS) fprintf(to, " %" PRIu64, count);
}

void channel_write_numbers(FILE *to, const uint64_t *channel) {
  for (size_t i = 0; i < KLARVESIMO_CHANNEL; i++) fprintf(to, " %" PRIu64, channel[i]);
}
