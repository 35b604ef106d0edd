/* The target of libFuzzer: an input is a list of commands (input.h), each a call of the C face with every buffer lent. It is run with the buffers against
 * an unmapped page at their end, and again at their start; both must give the same, and each call must keep what it promises (checked.h).
 *
 * The environment names the files: KLARVESIMO_BLOCKS the table of blocks, KLARVESIMO_UNREACHED what of it was not reached. */
#include <inttypes.h>
#include <stdio.h>
#include <stdlib.h>
#include <string.h>

#include "blocks.h"
#include "channel.h"
#include "checked.h"
#include "input.h"
#include "lend.h"

enum { MOST_INPUT = 20000, MOST_LENT = 40000, OUTCOMES = 1 << 14 };
enum { EDITIONS_SIZE = (KLARVESIMO_CHANNEL - KLARVESIMO_CHANNEL_EDITIONS) * sizeof(uint64_t) };

/* set by the answers that an input has: which call, its number, the status, and the channel after it */
__attribute__((section("__libfuzzer_extra_counters"))) static volatile uint8_t outcomes[OUTCOMES];

static uint8_t bytes[MOST_INPUT + KLARVESIMO_LONGEST_OPENING];
static uint64_t numbers[KLARVESIMO_MOST];

static uint64_t mixed(uint64_t sum, uint64_t value) { return (sum ^ value) * 0x100000001b3 ^ sum >> 29; }

static uint64_t mixed_all(uint64_t sum, const uint64_t *from, size_t count) {
  for (size_t i = 0; i < count; i++) sum = mixed(sum, from[i]);
  return sum;
}

static struct checked run(const struct command *c) {
  struct checked nothing = {.holds = 1};
  switch (c->verb) {
  case COMMAND_FRAME:
    return checked_frame(c->bytes, c->count, numbers);
  case COMMAND_READ:
    return checked_read(c->bytes, c->count, numbers);
  case COMMAND_WHOSE:
    return checked_whose(c->bytes, c->count, numbers);
  case COMMAND_OPEN:
    return checked_open(c->bytes, c->count);
  case COMMAND_MESSAGE:
    return checked_handle(c->bytes, c->count, c->room);
  case COMMAND_REPORT:
    return checked_report(c->cause, c->score, c->room);
  case COMMAND_BACK:
    return checked_back(c->edition);
  case COMMAND_SHOW:
    return checked_held(c->room);
  case COMMAND_NUMBER:
    checked_channel()[c->place] = c->value;
    return nothing;
  case COMMAND_EDITIONS:
    memcpy(checked_channel() + KLARVESIMO_CHANNEL_EDITIONS, c->channel + KLARVESIMO_CHANNEL_EDITIONS, EDITIONS_SIZE);
    return nothing;
  default:
    memcpy(checked_channel(), c->channel, sizeof c->channel);
    return nothing;
  }
}

static uint64_t status_of(const struct checked *call) {
  uint64_t answer[KLARVESIMO_MOST], consumed;
  if (call->written == 0 || klarvesimo_read(call->out, (size_t)call->written, answer, KLARVESIMO_MOST, &consumed) != 0) return 0;
  return answer[KLARVESIMO_STATUS];
}

static uint64_t cut(uint64_t number, uint64_t most) { return number < most ? number : most; }

/* numbers outside their range are all alike, else there were ever new ones */
static void note(const struct command *c, const struct checked *call) {
  const uint64_t *channel = checked_channel();
  uint64_t sum = mixed(mixed(mixed(0, c->verb), call->number), status_of(call));
  sum = mixed(sum, (uint64_t)channel_recognizes(channel));
  sum = mixed(sum, cut(channel[KLARVESIMO_CHANNEL_STATE], KLARVESIMO_RECOGNIZED + 1));
  sum = mixed(sum, cut(channel[KLARVESIMO_CHANNEL_COUNT], KLARVESIMO_MOST_HELD + 1));
  sum = mixed(sum, cut(channel[KLARVESIMO_CHANNEL_EDITIONS], KLARVESIMO_MOST_EDITIONS + 1));
  outcomes[(sum ^ sum >> 32) % OUTCOMES] = 1;
}

/* the sum of all that the calls gave */
static uint64_t played(const uint8_t *data, size_t size, int front) {
  struct input in = {data, size};
  struct command c = {.bytes = bytes};
  uint64_t sum = 0;
  lend_turn(front);
  checked_begin();
  for (unsigned number = 1; input_next(&in, &c); number++) {
    memset(numbers, 0, sizeof numbers);
    struct checked call = run(&c);
    if (!call.holds) {
      fprintf(stderr, "fuzz: command %u, buffers against a page at their %s: it answers %" PRIu32 " and did not keep what it promises\n", number,
              front ? "start" : "end", call.number);
      abort();
    }
    note(&c, &call);
    sum = mixed(mixed(mixed(sum, call.number), call.consumed), call.written);
    sum = mixed_all(mixed_all(sum, numbers, KLARVESIMO_MOST), checked_channel(), KLARVESIMO_CHANNEL);
    for (uint64_t i = 0; i < call.written; i++) sum = mixed(sum, call.out[i]);
  }
  return sum;
}

int LLVMFuzzerTestOneInput(const uint8_t *data, size_t size) {
  if (size > MOST_INPUT) return -1;
  if (played(data, size, 0) != played(data, size, 1)) {
    fputs("fuzz: the calls give something else where the buffers stand elsewhere\n", stderr);
    abort();
  }
  return 0;
}

static void end(void) { blocks_end(getenv("KLARVESIMO_UNREACHED")); }

int LLVMFuzzerInitialize(int *words, char ***word) {
  (void)words, (void)word;
  if (!getenv("KLARVESIMO_BLOCKS") || !getenv("KLARVESIMO_UNREACHED")) {
    fputs("fuzz: run it by tools/fuzz, which sets KLARVESIMO_BLOCKS and KLARVESIMO_UNREACHED\n", stderr);
    exit(2);
  }
  lend_begin(MOST_LENT, 0);
  blocks_begin(getenv("KLARVESIMO_BLOCKS"));
  atexit(end);
  return 0;
}
