#include "calls.h"

#include <inttypes.h>

#include "channel.h"
#include "checked.h"
#include "lend.h"
#include "writing.h"

void play_check(int holds) {
  if (!holds) puts("touched");
}

/* ends the line with the bytes written */
static void end_call(const struct checked *call) {
  script_write(call->out, (size_t)call->written);
  putchar('\n');
  play_check(call->holds);
}

void play_open(const struct command *c) {
  struct checked call = checked_open(c->bytes, c->count);
  printf("open %" PRIu32 "\n", call.number);
  play_check(call.holds);
}

void play_message(const struct command *c) {
  struct checked call = checked_handle(c->bytes, c->count, c->room);
  printf("message %" PRIu32 " %" PRIu64 " ", call.number, call.consumed);
  end_call(&call);
}

void play_report(const struct command *c) {
  struct checked call = checked_report(c->cause, c->score, c->room);
  printf("report %" PRIu32 " ", call.number);
  end_call(&call);
}

void play_back(const struct command *c) {
  struct checked call = checked_back(c->edition);
  printf("back %" PRIu32 "\n", call.number);
  play_check(call.holds);
}

/* a message written outside any channel */
static void end_written(uint32_t number, const uint8_t *out, uint64_t written, size_t room) {
  int holds = checked_written(number, out, written, room);
  struct checked call = {.number = number, .written = holds ? written : 0, .out = out, .holds = holds};
  end_call(&call);
}

void play_respond(const struct command *c) {
  const uint8_t *name = lend_copy(INPUT, c->bytes, c->count);
  const uint32_t *ids = lend_copy(IDS, c->ids, c->listed * sizeof *ids);
  uint8_t *out = lend(OUTPUT, c->room);
  uint64_t *written = lend(COUNTS, sizeof *written);
  uint32_t number = klarvesimo_write_response(name, c->count, c->id, c->status, c->state, ids, c->listed, out, c->room, written);
  printf("respond %" PRIu32 " ", number);
  end_written(number, out, *written, c->room);
}

void play_complete(const struct command *c) {
  const uint8_t *name = lend_copy(INPUT, c->bytes, c->count);
  uint8_t *out = lend(OUTPUT, c->room);
  uint64_t *written = lend(COUNTS, sizeof *written);
  uint32_t number = klarvesimo_write_event(name, c->count, c->id, c->cause, out, c->room, written);
  printf("complete %" PRIu32 " ", number);
  end_written(number, out, *written, c->room);
}

void play_set(const struct command *c) { command_set(c, checked_channel()); }

void play_numbers(const struct command *c) {
  (void)c;
  fputs("numbers", stdout);
  channel_write_numbers(stdout, checked_channel());
  putchar('\n');
}

void play_show(const struct command *c) {
  const uint64_t *channel = checked_channel();
  uint8_t name[KLARVESIMO_LONGEST_NAME];
  (void)c;
  fputs("channel ", stdout);
  script_write(name, channel_name(channel, name));
  putchar(' ');
  channel_write_state(stdout, channel);
  putchar(' ');
  channel_write_last(stdout, channel);
  putchar(' ');
  channel_write_queue(stdout, channel, " ");
  putchar('\n');
}

void play_settings(const struct command *c) {
  (void)c;
  fputs("settings ", stdout);
  channel_write_editions(stdout, checked_channel());
  putchar('\n');
}
