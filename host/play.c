/* play [--front] [FILE]: runs a script of calls on the proved library and writes what came of each.
 *
 * Every buffer is lent exactly sized, its last byte against an unmapped page (--front: its first byte after one), and filled beforehand. A line
 * `touched` says that a call left something else than it promises. An unreadable line: its number on standard error, status 2. */
#include <inttypes.h>
#include <string.h>

#include "calls.h"
#include "checked.h"
#include "lend.h"
#include "usage.h"

static void play_frame(const struct command *c) {
  uint64_t numbers[KLARVESIMO_FRAME_NUMBERS];
  struct checked call = checked_frame(c->bytes, c->count, numbers);
  printf("frame %" PRIu32 " %" PRIu64 "\n", call.number, call.number ? 0 : numbers[KLARVESIMO_FRAME_LENGTH]);
  play_check(call.holds);
}

static void write_part(const uint8_t *bytes, const uint64_t *place) { script_write(bytes + place[0], (size_t)place[1]); }

static void write_start(const uint8_t *bytes, const uint64_t *out) {
  static const char *const kinds[] = {
      [KLARVESIMO_REQUEST] = "request", [KLARVESIMO_RESPONSE] = "response", [KLARVESIMO_EVENT] = "event"};
  static const char *const states[] = {"", [KLARVESIMO_PENDING] = " PENDING", [KLARVESIMO_IN_PROGRESS] = " IN-PROGRESS",
                                       [KLARVESIMO_COMPLETE] = " COMPLETE"};
  printf("%s %" PRIu64 " %" PRIu64, kinds[out[KLARVESIMO_KIND]], out[KLARVESIMO_MAJOR], out[KLARVESIMO_MINOR]);
  int responds = out[KLARVESIMO_KIND] == KLARVESIMO_RESPONSE;
  if (!responds) printf(" %.*s", (int)out[KLARVESIMO_NAME_LENGTH], (const char *)bytes + out[KLARVESIMO_NAME]);
  printf(" %" PRIu64, out[KLARVESIMO_ID]);
  if (responds) printf(" %03" PRIu64, out[KLARVESIMO_STATUS]);
  puts(states[out[KLARVESIMO_STATE]]);
}

static void write_fields(const uint8_t *bytes, const uint64_t *out) {
  for (uint64_t f = 0; f < out[KLARVESIMO_FIELDS]; f++) {
    const uint64_t *field = out + KLARVESIMO_HEAD + KLARVESIMO_FIELD_NUMBERS * f;
    fputs("field ", stdout);
    write_part(bytes, field + KLARVESIMO_FIELD_NAME);
    putchar(' ');
    write_part(bytes, field + KLARVESIMO_FIELD_VALUE);
    putchar('\n');
  }
  fputs("body ", stdout);
  write_part(bytes, out + KLARVESIMO_BODY);
  putchar('\n');
}

static void play_read(const struct command *c) {
  uint64_t numbers[KLARVESIMO_MOST];
  struct checked call = checked_read(c->bytes, c->count, numbers);
  printf("read %" PRIu32, call.number);
  if (call.number || !call.holds) {
    putchar('\n');
    play_check(call.holds);
    return;
  }
  printf(" %" PRIu64 " ", call.consumed);
  write_start(c->bytes, numbers);
  if (numbers[KLARVESIMO_GOOD])
    write_fields(c->bytes, numbers);
  else
    puts("bad");
}

static void play_whose(const struct command *c) {
  uint64_t id;
  struct checked call = checked_whose(c->bytes, c->count, &id);
  printf("whose %" PRIu32, call.number);
  if (call.number == 0) printf(" %" PRIu64, id);
  putchar('\n');
  play_check(call.holds);
}

static void (*const plays[])(const struct command *c) = {
    [COMMAND_FRAME] = play_frame,     [COMMAND_READ] = play_read,         [COMMAND_WHOSE] = play_whose,
    [COMMAND_OPEN] = play_open,       [COMMAND_MESSAGE] = play_message,   [COMMAND_REPORT] = play_report,
    [COMMAND_BACK] = play_back,       [COMMAND_RESPOND] = play_respond,   [COMMAND_COMPLETE] = play_complete,
    [COMMAND_CHANNEL] = play_set,     [COMMAND_NUMBER] = play_set,        [COMMAND_EDITIONS] = play_set,
    [COMMAND_NUMBERS] = play_numbers, [COMMAND_SHOW] = play_show,         [COMMAND_SETTINGS] = play_settings,
};

int main(int words, char **word) {
  usage_if_asked(words, word, "usage: play [--front] [FILE]\n");
  int front = words > 1 && strcmp(word[1], "--front") == 0;
  struct script s = script_open("play", words - 1 - front, word + 1 + front);
  struct command c = command_make();
  lend_begin(MOST_BYTES, front);
  checked_begin();
  while (command_next(&s, &c, checked_channel())) plays[c.verb](&c);
  return script_end(&s);
}
