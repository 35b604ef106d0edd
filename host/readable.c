#include "readable.h"

#include <inttypes.h>

#include "../include/klarvesimo.h"
#include "channel.h"
#include "level.h"

const char *readable(uint8_t byte) {
  static const char *const escaped[] = {['\t'] = "\\t", ['\n'] = "\\n", ['\r'] = "\\r"};
  static char text[sizeof "\\xff"];
  if (byte < sizeof escaped / sizeof *escaped && escaped[byte]) return escaped[byte];
  if (byte >= ' ' && byte <= '~')
    text[0] = (char)byte, text[1] = 0;
  else
    snprintf(text, sizeof text, "\\x%02x", byte);
  return text;
}

void write_readable(FILE *to, const uint8_t *bytes, size_t count) {
  for (size_t i = 0; i < count; i++) fputs(readable(bytes[i]), to);
}

/* where the first CRLF begins, or all of them */
static size_t line_length(const uint8_t *bytes, size_t count) {
  for (size_t i = 0; i + 1 < count; i++)
    if (bytes[i] == '\r' && bytes[i + 1] == '\n') return i;
  return count;
}

void write_arrow(const char *arrow, const uint8_t *bytes, size_t count) {
  const char *indent = " ";
  fputs(arrow, stdout);
  for (;;) {
    size_t end = line_length(bytes, count);
    if (end > 0) fputs(indent, stdout);
    write_readable(stdout, bytes, end);
    putchar('\n');
    /* a line end at the very end shows by itself */
    if (end + 2 >= count) return;
    bytes += end + 2, count -= end + 2;
    indent = "   ";
  }
}

static const char *const prompt_causes[KLARVESIMO_CAUSES] = {
    [KLARVESIMO_CAUSE_NORMAL] = "normal",
    [KLARVESIMO_CAUSE_BARGE_IN] = "barge-in",
    [KLARVESIMO_CAUSE_PARSE_FAILURE] = "parse-failure",
    [KLARVESIMO_CAUSE_URI_FAILURE] = "uri-failure",
    [KLARVESIMO_CAUSE_ERROR] = "error",
    [KLARVESIMO_CAUSE_LANGUAGE_UNSUPPORTED] = "language-unsupported",
    [KLARVESIMO_CAUSE_LEXICON_LOAD_FAILURE] = "lexicon-load-failure",
    [KLARVESIMO_CAUSE_CANCELLED] = "cancelled",
};

static const char *const recognition_causes[KLARVESIMO_RECOGNITION_CAUSES] = {
    [KLARVESIMO_RECOGNITION_SUCCESS] = "success",
    [KLARVESIMO_RECOGNITION_NO_MATCH] = "no-match",
    [KLARVESIMO_RECOGNITION_NO_INPUT_TIMEOUT] = "no-input-timeout",
    [KLARVESIMO_RECOGNITION_HOTWORD_MAXTIME] = "hotword-maxtime",
    [KLARVESIMO_RECOGNITION_GRAMMAR_LOAD_FAILURE] = "grammar-load-failure",
    [KLARVESIMO_RECOGNITION_GRAMMAR_COMPILATION_FAILURE] = "grammar-compilation-failure",
    [KLARVESIMO_RECOGNITION_RECOGNIZER_ERROR] = "recognizer-error",
    [KLARVESIMO_RECOGNITION_SPEECH_TOO_EARLY] = "speech-too-early",
    [KLARVESIMO_RECOGNITION_SUCCESS_MAXTIME] = "success-maxtime",
    [KLARVESIMO_RECOGNITION_URI_FAILURE] = "uri-failure",
    [KLARVESIMO_RECOGNITION_LANGUAGE_UNSUPPORTED] = "language-unsupported",
    [KLARVESIMO_RECOGNITION_CANCELLED] = "cancelled",
    [KLARVESIMO_RECOGNITION_SEMANTICS_FAILURE] = "semantics-failure",
    [KLARVESIMO_RECOGNITION_PARTIAL_MATCH] = "partial-match",
    [KLARVESIMO_RECOGNITION_PARTIAL_MATCH_MAXTIME] = "partial-match-maxtime",
    [KLARVESIMO_RECOGNITION_NO_MATCH_MAXTIME] = "no-match-maxtime",
};

const char *cause_word(int recognizes, uint32_t cause) {
  if (recognizes && cause < KLARVESIMO_RECOGNITION_CAUSES) return recognition_causes[cause];
  if (!recognizes && cause < KLARVESIMO_CAUSES) return prompt_causes[cause];
  return "no such cause";
}

/* what is kept of a setting, right or wrong */
static void put_value(char *to, size_t room, const uint64_t *value) {
  uint64_t sort = value[0], number = value[1];
  if (sort == KLARVESIMO_UNSET)
    snprintf(to, room, "unset");
  else if (sort == KLARVESIMO_FLAG && number <= 1)
    snprintf(to, room, "%s", number ? "true" : "false");
  else if (sort == KLARVESIMO_MILLIS)
    snprintf(to, room, "%" PRIu64 " ms", number);
  else if (sort == KLARVESIMO_LEVEL && number <= LEVEL_ONE)
    snprintf(to, room, "%" PRIu64 ".%06" PRIu64, number / LEVEL_ONE, number % LEVEL_ONE);
  else if (sort == KLARVESIMO_LEVEL)
    snprintf(to, room, "(no level: %" PRIu64 ")", number);
  else
    snprintf(to, room, "(sort %" PRIu64 ": %" PRIu64 ")", sort, number);
}

const char *edition_text(const uint64_t *channel, size_t edition) {
  static char text[320]; /* more than three names with their longest values */
  char value[64];
  size_t at = 0;
  for (size_t i = 0; i < channel_settings(channel); i++) {
    const char *between = i > 0 ? ", " : "", *name = channel_setting(channel, i)->name;
    put_value(value, sizeof value, channel_value(channel, edition, i));
    at += (size_t)snprintf(text + at, sizeof text - at, "%s%s %s", between, name, value);
  }
  return text;
}

const char *refusal_meaning(uint32_t number) {
  static const char *const meanings[] = {
      [KLARVESIMO_MORE_BYTES] = "more bytes needed",
      [KLARVESIMO_NO_MESSAGE] = "the bytes can't begin a message",
      [KLARVESIMO_TOO_LONG] = "stated length above 16,384",
      [KLARVESIMO_TOO_SHORT] = "stated length below the opening's own length",
      [KLARVESIMO_MALFORMED_LINE] = "framed, start line malformed",
      [KLARVESIMO_NO_REQUEST] = "framed, a response or event, no request",
      [KLARVESIMO_NO_ROOM] = "the exact answer is longer than the lent output",
      [KLARVESIMO_NOT_SPEAKING] = "engine report while neither speaking nor recognizing",
      [KLARVESIMO_NO_CAUSE] = "engine cause above 7, on a recognizer above 15",
      [KLARVESIMO_MALFORMED_NAME] = "channel name malformed at opening",
      [KLARVESIMO_NO_SCORE] = "engine score that is no number",
      [KLARVESIMO_NOT_KEPT] = "no edition of that number is kept",
      [KLARVESIMO_NOT_SOUND] = "the channel handed in is not sound",
  };
  return number < sizeof meanings / sizeof *meanings && meanings[number] ? meanings[number] : "no such number";
}
