/* inputs seeds DIRECTORY [SCRIPT]: makes inputs of the fuzzer from a script, a file for the beginning of each conversation, and for some messages
 * outside of any.
 * inputs script FILE...: writes the inputs as one script, for `play` and the second program. */
#include <errno.h>
#include <inttypes.h>
#include <stdlib.h>
#include <string.h>

#include "input.h"
#include "usage.h"

/* bytes of a seed: a full queue and what follows; short ones are tried more often */
enum { ENOUGH = 3000, BAD_WORDS = 2 };

static const char USAGE[] = "usage: inputs seeds DIRECTORY [SCRIPT]\n       inputs script FILE...\n";

static void cannot(const char *path) {
  fprintf(stderr, "inputs: %s: %s\n", path, strerror(errno));
  exit(1);
}

static FILE *seed_of(const char *directory, unsigned number) {
  char path[4096];
  snprintf(path, sizeof path, "%s/seed-%u", directory, number);
  FILE *to = fopen(path, "wb");
  if (!to) cannot(path);
  return to;
}

/* whether the command begins a seed: a conversation, or, where the one before is full, what belongs to none */
static int begins(const struct command *c, int full) {
  int belongs_to_none = c->verb == COMMAND_FRAME || c->verb == COMMAND_READ || c->verb == COMMAND_WHOSE;
  return c->verb == COMMAND_OPEN || c->verb == COMMAND_CHANNEL || (full && belongs_to_none);
}

/* the channel after the command, as far as its name goes */
static void follow(const struct command *c, uint64_t *channel) {
  if (c->verb == COMMAND_OPEN) klarvesimo_open(channel, c->bytes, c->count);
  command_set(c, channel);
}

static int make_seeds(const char *directory, struct script s) {
  struct command c = command_make();
  uint64_t channel[KLARVESIMO_CHANNEL] = {0};
  unsigned made = 0;
  FILE *to = NULL;
  for (; command_next(&s, &c, channel); follow(&c, channel)) {
    int full = to && ftell(to) > ENOUGH;
    if (!to || begins(&c, full)) {
      if (to && fclose(to) != 0) cannot(directory);
      to = seed_of(directory, made++);
      full = 0;
    }
    if (!full) input_put(to, &c);
  }
  if (to && fclose(to) != 0) cannot(directory);
  printf("inputs: %u seeds\n", made);
  return 0;
}

static void write_numbers(const struct command *c, size_t from) {
  for (size_t i = from; i < KLARVESIMO_CHANNEL; i++) printf("number %zu %" PRIu64 "\n", i, c->channel[i]);
}

static void write_line(const struct command *c) {
  static const char *const words[] = {
      [COMMAND_FRAME] = "frame", [COMMAND_READ] = "read", [COMMAND_WHOSE] = "whose", [COMMAND_OPEN] = "open"};
  if (c->verb == COMMAND_NUMBER) printf("number %zu %" PRIu64 "\n", c->place, c->value);
  if (c->verb == COMMAND_CHANNEL) write_numbers(c, 0);
  if (c->verb == COMMAND_EDITIONS) write_numbers(c, KLARVESIMO_CHANNEL_EDITIONS);
  if (c->verb == COMMAND_BACK) printf("back %" PRIu32 "\n", c->edition);
  if (c->verb == COMMAND_SHOW) puts("show");
  if (c->verb == COMMAND_REPORT) printf("report %" PRIu32 " %zu %08" PRIx32 "\n", c->cause, c->room, c->score);
  if (c->verb == COMMAND_MESSAGE) printf("message %zu ", c->room);
  if (c->verb < sizeof words / sizeof *words) printf("%s ", words[c->verb]);
  if (c->verb != COMMAND_MESSAGE && c->verb >= sizeof words / sizeof *words) return;
  script_write(c->bytes, c->count);
  putchar('\n');
}

static void write_script(const char *path) {
  static uint8_t bytes[MOST_BYTES - KLARVESIMO_LONGEST_OPENING];
  struct command c = command_make();
  FILE *from = fopen(path, "rb");
  if (!from) cannot(path);
  struct input in = {bytes, fread(bytes, 1, sizeof bytes, from)};
  if (ferror(from) || !feof(from)) cannot(path);
  fclose(from);
  printf("open -\n");
  while (input_next(&in, &c)) write_line(&c);
  free(c.bytes);
}

int main(int words, char **word) {
  usage_if_asked(words, word, USAGE);
  if (words >= 3 && strcmp(word[1], "seeds") == 0) return make_seeds(word[2], script_open("inputs", words - 3, word + 3));
  if (words < 2 || strcmp(word[1], "script") != 0) {
    fputs(USAGE, stderr);
    return BAD_WORDS;
  }
  for (int i = 2; i < words; i++) write_script(word[i]);
  return fflush(stdout) == 0 && !ferror(stdout) ? 0 : 1;
}
