#include "number.h"

#include <stddef.h>

const char *number_read(const char *word, uint64_t most, uint64_t *value) {
  uint64_t read = 0;
  if (*word == 0) return "a number is missing";
  for (; *word; word++) {
    if (*word < '0' || *word > '9') return "a word that is no number";
    uint64_t last = (uint64_t)(*word - '0');
    if (last > most || read > (most - last) / 10) return "a number that is too great";
    read = read * 10 + last;
  }
  *value = read;
  return NULL;
}
