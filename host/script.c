#define _POSIX_C_SOURCE 200809L
#include "script.h"

#include <stdlib.h>
#include <string.h>
#include <sys/types.h>

#include "number.h"

struct script script_open(const char *program, int words, char **word) {
  struct script s = {.program = program, .from = stdin};
  if (words > 1) {
    fprintf(stderr, "%s: more words than one file\n", program);
    exit(2);
  }
  if (words == 1 && !(s.from = fopen(word[0], "r"))) {
    fprintf(stderr, "%s: ", program);
    perror(word[0]);
    exit(2);
  }
  return s;
}

void script_fail(const struct script *s, int status, const char *why) {
  fflush(stdout);
  fprintf(stderr, "%s: line %lu: %s\n", s->program, s->line, why);
  exit(status);
}

void script_unreadable(const struct script *s, const char *why) { script_fail(s, 2, why); }

/* the line without its comment, the spaces in front of that, and its line end */
static void strip(struct script *s, size_t length) {
  if (length > 0 && s->text[length - 1] == '\n') s->text[--length] = 0;
  if (memchr(s->text, '\r', length) || strlen(s->text) != length) script_unreadable(s, "a byte that no script has");
  char *comment = strchr(s->text, '#');
  if (!comment) return;
  while (comment > s->text && comment[-1] == ' ') comment--;
  *comment = 0;
}

static void take_apart(struct script *s) {
  char *at = s->text;
  s->words = 0;
  for (;;) {
    if (s->words == MOST_WORDS) script_unreadable(s, "too many words");
    s->word[s->words++] = at;
    char *space = strchr(at, ' ');
    if (space) *space = 0;
    if (*s->word[s->words - 1] == 0) script_unreadable(s, "words are parted by one space");
    if (!space) return;
    at = space + 1;
  }
}

int script_next(struct script *s) {
  ssize_t length;
  while ((length = getline(&s->text, &s->room, s->from)) >= 0) {
    s->line++;
    strip(s, (size_t)length);
    if (*s->text == 0) continue;
    take_apart(s);
    return 1;
  }
  if (ferror(s->from)) {
    fprintf(stderr, "%s: the script cannot be read\n", s->program);
    exit(2);
  }
  return 0;
}

int script_end(const struct script *s) {
  if (fflush(stdout) == 0 && !ferror(stdout)) return 0;
  fprintf(stderr, "%s: the output cannot be written\n", s->program);
  return 1;
}

static int digit(char c) {
  if (c >= '0' && c <= '9') return c - '0';
  if (c >= 'a' && c <= 'f') return c - 'a' + 10;
  return -1;
}

uint64_t script_number(const struct script *s, const char *word, uint64_t most) {
  uint64_t value = 0;
  const char *wrong = number_read(word, most, &value);
  if (wrong) script_unreadable(s, wrong);
  return value;
}

uint32_t script_bits(const struct script *s, const char *word) {
  uint32_t bits = 0;
  if (strlen(word) != 8) script_unreadable(s, "bits are eight hexadecimal digits");
  for (; *word; word++) {
    if (digit(*word) < 0) script_unreadable(s, "bits are eight lower-case hexadecimal digits");
    bits = bits << 4 | (uint32_t)digit(*word);
  }
  return bits;
}

size_t script_bytes(const struct script *s, const char *word, uint8_t *bytes) {
  if (strcmp(word, "-") == 0) return 0;
  size_t length = strlen(word);
  if (length % 2 || length > 2 * (size_t)MOST_BYTES) script_unreadable(s, "bytes are pairs of hexadecimal digits");
  for (size_t i = 0; i < length / 2; i++) {
    int high = digit(word[2 * i]), low = digit(word[2 * i + 1]);
    if (high < 0 || low < 0) script_unreadable(s, "bytes are pairs of lower-case hexadecimal digits");
    bytes[i] = (uint8_t)(16 * high + low);
  }
  return length / 2;
}

void script_write(const uint8_t *bytes, size_t count) {
  static const char digits[] = "0123456789abcdef";
  if (count == 0) putchar('-');
  for (size_t i = 0; i < count; i++) {
    putchar(digits[bytes[i] >> 4]);
    putchar(digits[bytes[i] & 15]);
  }
}
