/* tell [FILE]: plays a script on the proved library and writes it for people: what comes in after `->`, each message
 * that is written after `<-`, refusals with their meaning, and at the end what became of each prompt and recognition.
 * That, and after every call the balance of the ledger, is taken from inputs, numbers returned and bytes written alone.
 * Status 2 with the line's number where a line cannot be read, 3 where the ledger is out of balance. */
#define _POSIX_C_SOURCE 200809L
#include <inttypes.h>
#include <stdlib.h>
#include <string.h>

#include "channel.h"
#include "command.h"
#include "ledger.h"
#include "message.h"
#include "prompts.h"
#include "readable.h"
#include "score.h"
#include "usage.h"
#include "writing.h"

enum { OUT_OF_BALANCE = 3, LONGEST = 80 };

static struct script script;
static uint64_t channel[KLARVESIMO_CHANNEL] = {[KLARVESIMO_CHANNEL_EDITIONS] = 1};
static uint8_t out[MOST_ROOM];
static struct ledger ledger;
static int checked = 1; /* not from a line that sets the channel to the next `open`: nothing was accepted then */

static void write_refused(uint32_t number) { printf("   refused %" PRIu32 ": %s\n\n", number, refusal_meaning(number)); }

static void write_channel(FILE *to) {
  uint8_t name[KLARVESIMO_LONGEST_NAME];
  fputs("channel `", to);
  write_readable(to, name, channel_name(channel, name));
  fputs("` ", to);
  channel_write_state(to, channel);
  fputs(", last id ", to);
  channel_write_last(to, channel);
  fputs(", queue ", to);
  channel_write_queue(to, channel, " count ");
}

static char *title;
static size_t title_size;

static FILE *title_begin(void) {
  FILE *to = open_memstream(&title, &title_size);
  if (!to) {
    perror("tell: no memory for a title");
    exit(1);
  }
  return to;
}

static void title_end(FILE *to) {
  fclose(to);
  prompts_chapter(title);
}

static void tell_frame(const struct command *c) {
  uint64_t numbers[KLARVESIMO_FRAME_NUMBERS];
  write_arrow("frame:", c->bytes, c->count);
  uint32_t number = klarvesimo_frame(c->bytes, c->count, numbers, KLARVESIMO_FRAME_NUMBERS);
  if (number)
    write_refused(number);
  else
    printf("   a frame of %" PRIu64 " of %zu bytes\n\n", numbers[KLARVESIMO_FRAME_LENGTH], c->count);
}

static void tell_read(const struct command *c) {
  static const char *const kinds[] = {
      [KLARVESIMO_REQUEST] = "a request", [KLARVESIMO_RESPONSE] = "a response", [KLARVESIMO_EVENT] = "an event"};
  uint64_t numbers[KLARVESIMO_MOST], consumed;
  write_arrow("read:", c->bytes, c->count);
  uint32_t number = klarvesimo_read(c->bytes, c->count, numbers, KLARVESIMO_MOST, &consumed);
  if (number) {
    write_refused(number);
    return;
  }
  printf("   %s of %" PRIu64 " bytes, ", kinds[numbers[KLARVESIMO_KIND]], consumed);
  if (numbers[KLARVESIMO_GOOD])
    printf("%" PRIu64 " fields, body %" PRIu64 "\n\n", numbers[KLARVESIMO_FIELDS], numbers[KLARVESIMO_BODY_LENGTH]);
  else
    puts("bad fields\n");
}

static void tell_whose(const struct command *c) {
  uint64_t id;
  write_arrow("whose:", c->bytes, c->count);
  uint32_t number = klarvesimo_whose(c->bytes, c->count, &id);
  if (number)
    write_refused(number);
  else
    printf("   request-id %" PRIu64 "\n\n", id);
}

static void tell_open(const struct command *c) {
  uint32_t number = klarvesimo_open(channel, c->bytes, c->count);
  FILE *to = title_begin();
  fputs(number ? "channel `" : "channel ", to);
  write_readable(to, c->bytes, c->count);
  if (number) fputc('`', to);
  fflush(to);
  printf("== %s %s", title, number ? "not opened\n" : "opened\n\n");
  if (number) write_refused(number), fputs(", not opened", to);
  title_end(to);
  ledger_clear(&ledger);
  checked = 1;
}

/* the ledger's word about a call, which ends the program where it is out of balance */
static void enter(const struct entry *e) {
  uint64_t held[KLARVESIMO_MOST_HELD], count;
  if (!checked) return;
  klarvesimo_held(channel, held, KLARVESIMO_MOST_HELD, &count);
  if (!ledger_enter(&ledger, e) || !ledger_balances(&ledger, held, count)) script_fail(&script, OUT_OF_BALANCE, ledger.wrong);
}

/* each message that was written; it ends with its own empty line */
static void write_messages(size_t written) {
  uint64_t frame[KLARVESIMO_FRAME_NUMBERS];
  for (size_t at = 0, length; at < written; at += length) {
    length = written - at;
    if (klarvesimo_frame(out + at, length, frame, KLARVESIMO_FRAME_NUMBERS) == 0)
      length = (size_t)frame[KLARVESIMO_FRAME_LENGTH];
    write_arrow("<-", out + at, length);
  }
}

static void write_answer(uint32_t number, uint64_t written, size_t room) {
  if (written > room) script_fail(&script, OUT_OF_BALANCE, "more bytes are said to be written than were lent");
  if (number == 0)
    write_messages((size_t)written);
  else if (number == KLARVESIMO_NO_ROOM)
    printf("   refused %" PRIu32 ": %s of %zu\n\n", number, refusal_meaning(number), room);
  else
    write_refused(number);
}

/* why a SPEAK or a RECOGNIZE was not accepted: the status written, or the refusal */
static void note_not_accepted(uint32_t id, uint32_t number, size_t written) {
  uint64_t answer[KLARVESIMO_MOST], consumed;
  char became[LONGEST] = "not accepted, answered with something else";
  if (number)
    snprintf(became, sizeof became, "not accepted, refused %" PRIu32, number);
  else if (klarvesimo_read(out, written, answer, KLARVESIMO_MOST, &consumed) == 0 &&
           answer[KLARVESIMO_KIND] == KLARVESIMO_RESPONSE)
    snprintf(became, sizeof became, "not accepted, %" PRIu64, answer[KLARVESIMO_STATUS]);
  prompts_add(id, became);
}

/* what a message from the client tells of prompts and recognitions */
static void note_message(const struct command *c, uint32_t number, size_t written, const struct entry *e) {
  uint64_t in[KLARVESIMO_MOST], consumed;
  char became[LONGEST];
  if (klarvesimo_read(c->bytes, c->count, in, KLARVESIMO_MOST, &consumed) != 0) return;
  if (in[KLARVESIMO_KIND] != KLARVESIMO_REQUEST) return;
  const char *method = (const char *)c->bytes + in[KLARVESIMO_NAME];
  snprintf(became, sizeof became, "stopped by %.*s %" PRIu64, (int)in[KLARVESIMO_NAME_LENGTH], method, in[KLARVESIMO_ID]);
  if (e->kind == ENTRY_ACCEPTED)
    prompts_accepted(e->ids[0]);
  else if (e->kind == ENTRY_CLOSED)
    prompts_close(e->ids, e->count, became);
  else if (message_is(c->bytes, in, "SPEAK") || message_is(c->bytes, in, "RECOGNIZE"))
    note_not_accepted((uint32_t)in[KLARVESIMO_ID], number, written);
}

/* whether a field is a timeout, by its name */
static int is_timeout(const uint64_t *name) {
  static const char tail[] = "-Timeout";
  return name[1] >= strlen(tail) && memcmp(out + name[0] + name[1] - strlen(tail), tail, strlen(tail)) == 0;
}

/* the settings that an answer tells, which the library wrote: all fields but the channel's name */
static void write_told(const uint64_t *answer) {
  const uint64_t *identifier = message_field(out, answer, "Channel-Identifier");
  const char *between = "== told: ";
  for (uint64_t f = 0; f < answer[KLARVESIMO_FIELDS]; f++) {
    const uint64_t *field = answer + KLARVESIMO_HEAD + KLARVESIMO_FIELD_NUMBERS * f;
    const uint64_t *name = field + KLARVESIMO_FIELD_NAME, *value = field + KLARVESIMO_FIELD_VALUE;
    if (value == identifier) continue;
    fputs(between, stdout);
    write_readable(stdout, out + name[0], (size_t)name[1]);
    fputs(value[1] > 0 ? " " : " unset", stdout);
    write_readable(stdout, out + value[0], (size_t)value[1]);
    if (value[1] > 0 && is_timeout(name)) fputs(" ms", stdout);
    between = ", ";
  }
  puts("\n");
}

static void write_settings_now(void) { printf("== settings now: %s\n\n", edition_text(channel, 1)); }

/* what a SET-PARAMS has set, or a GET-PARAMS was told, where it succeeded */
static void tell_params(const struct command *c, size_t written) {
  uint64_t in[KLARVESIMO_MOST], answer[KLARVESIMO_MOST], consumed;
  if (klarvesimo_read(out, written, answer, KLARVESIMO_MOST, &consumed) != 0) return;
  if (answer[KLARVESIMO_STATUS] != 200 && answer[KLARVESIMO_STATUS] != 201) return;
  if (klarvesimo_read(c->bytes, c->count, in, KLARVESIMO_MOST, &consumed) != 0) return;
  if (message_is(c->bytes, in, "SET-PARAMS")) write_settings_now();
  if (message_is(c->bytes, in, "GET-PARAMS")) write_told(answer);
}

static void tell_message(const struct command *c) {
  uint64_t frame[KLARVESIMO_FRAME_NUMBERS], counts[KLARVESIMO_COUNTS];
  int framed = klarvesimo_frame(c->bytes, c->count, frame, KLARVESIMO_FRAME_NUMBERS) == 0;
  size_t length = framed ? (size_t)frame[KLARVESIMO_FRAME_LENGTH] : c->count;
  write_arrow("->", c->bytes, length);
  if (length < c->count) printf("   (and %zu bytes after the message)\n", c->count - length);
  uint32_t number = klarvesimo_handle(channel, c->bytes, c->count, out, c->room, counts);
  write_answer(number, counts[KLARVESIMO_WRITTEN], c->room);
  size_t written = (size_t)counts[KLARVESIMO_WRITTEN];
  struct entry e = entry_of_message(c->bytes, c->count, number, out, written);
  note_message(c, number, written, &e);
  enter(&e);
  tell_params(c, written);
}

/* what the event at `at` says of its request, and the cause that it names: the event's length, 0 where it is none */
static size_t note_event(const uint8_t *at, size_t count, uint32_t id) {
  uint64_t event[KLARVESIMO_MOST], length;
  char became[LONGEST];
  if (klarvesimo_read(at, count, event, KLARVESIMO_MOST, &length) != 0) return 0;
  const char *how = message_is(at, event, "SPEAK-COMPLETE") ? "spoken" : "completed";
  const uint64_t *cause = message_field(at, event, "Completion-Cause");
  if (cause)
    snprintf(became, sizeof became, "%s, %.*s", how, (int)cause[1], (const char *)at + cause[0]);
  else
    snprintf(became, sizeof became, "%s, no cause", how);
  prompts_close(&id, 1, became);
  return (size_t)length;
}

static void note_report(size_t written, const struct entry *e) {
  if (e->kind != ENTRY_CLOSED) return;
  for (size_t i = 0, at = 0; i < e->count; i++) at += note_event(out + at, written - at, e->ids[i]);
}

/* a synthesizer's score is not looked at */
static void write_report(const struct command *c) {
  float score = score_of_bits(c->score);
  int recognizes = channel_recognizes(channel);
  printf("** the engine reports %03" PRIu32 " %s", c->cause, cause_word(recognizes, c->cause));
  if (recognizes && score != score) fputs(", score no number", stdout);
  if (recognizes && score == score) printf(", score %.9f", (double)score);
  putchar('\n');
}

static void tell_report(const struct command *c) {
  uint64_t written;
  write_report(c);
  uint32_t number = klarvesimo_report(channel, c->cause, score_of_bits(c->score), out, c->room, &written);
  write_answer(number, written, c->room);
  struct entry e = entry_of_report(number, out, (size_t)written);
  note_report((size_t)written, &e);
  enter(&e);
}

static void tell_back(const struct command *c) {
  printf("** going back to edition %" PRIu32 "\n", c->edition);
  uint32_t number = klarvesimo_back(channel, c->edition);
  enter(&(struct entry){.kind = ENTRY_NOTHING});
  if (number)
    write_refused(number);
  else
    write_settings_now();
}

/* the editions kept, by their numbers, and the count where they do not show it */
static void write_settings(FILE *to) {
  uint64_t count = channel[KLARVESIMO_CHANNEL_EDITIONS];
  const char *between = "settings: ";
  for (size_t edition = 1; edition <= channel_editions(channel); edition++, between = "; ")
    fprintf(to, "%s%zu. %s", between, edition, edition_text(channel, edition));
  if (count == 0 || count > KLARVESIMO_MOST_EDITIONS) fprintf(to, "%scount %" PRIu64, between, count);
}

/* a message outside any channel */
static void tell_written(uint32_t number, uint64_t written) {
  fputs("== written: ", stdout);
  if (number)
    printf("refused, %s", refusal_meaning(number));
  else
    write_readable(stdout, out, (size_t)written);
  puts("\n");
}

static void tell_respond(const struct command *c) {
  uint64_t written;
  uint32_t number = klarvesimo_write_response(c->bytes, c->count, c->id, c->status, c->state, c->ids, c->listed, out, c->room, &written);
  tell_written(number, written);
}

static void tell_complete(const struct command *c) {
  uint64_t written;
  uint32_t number = klarvesimo_write_event(c->bytes, c->count, c->id, c->cause, out, c->room, &written);
  tell_written(number, written);
}

static void tell_set(const struct command *c) {
  FILE *to = title_begin();
  command_set(c, channel);
  fputs("set by the script: ", to);
  if (c->verb == COMMAND_EDITIONS)
    write_settings(to);
  else
    write_channel(to);
  fflush(to);
  printf("== %s\n\n", title);
  title_end(to);
  checked = 0;
}

static void tell_numbers(const struct command *c) {
  (void)c;
  fputs("== numbers", stdout);
  channel_write_numbers(stdout, channel);
  puts("\n");
}

static void tell_show(const struct command *c) {
  (void)c;
  fputs("== now: ", stdout);
  write_channel(stdout);
  puts("\n");
}

static void tell_settings(const struct command *c) {
  (void)c;
  fputs("== ", stdout);
  write_settings(stdout);
  puts("\n");
}

static void (*const tells[])(const struct command *c) = {
    [COMMAND_FRAME] = tell_frame,     [COMMAND_READ] = tell_read,         [COMMAND_WHOSE] = tell_whose,
    [COMMAND_OPEN] = tell_open,       [COMMAND_MESSAGE] = tell_message,   [COMMAND_REPORT] = tell_report,
    [COMMAND_BACK] = tell_back,       [COMMAND_RESPOND] = tell_respond,   [COMMAND_COMPLETE] = tell_complete,
    [COMMAND_CHANNEL] = tell_set,     [COMMAND_NUMBER] = tell_set,        [COMMAND_EDITIONS] = tell_set,
    [COMMAND_NUMBERS] = tell_numbers, [COMMAND_SHOW] = tell_show,         [COMMAND_SETTINGS] = tell_settings,
};

int main(int words, char **word) {
  usage_if_asked(words, word, "usage: tell [FILE]\n");
  script = script_open("tell", words - 1, word + 1);
  struct command c = command_make();
  FILE *to = title_begin();
  fputs("before any opening", to);
  title_end(to);
  while (command_next(&script, &c, channel)) tells[c.verb](&c);
  prompts_write();
  return script_end(&script);
}
