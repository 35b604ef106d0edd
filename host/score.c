#include "score.h"

#include <ctype.h>
#include <stdlib.h>
#include <string.h>

float score_of_bits(uint32_t bits) {
  float score;
  memcpy(&score, &bits, sizeof score);
  return score;
}

const char *score_read(const char *word, float *score) {
  char *end;
  float read = strtof(word, &end);
  if (end == word || *end || isspace((unsigned char)*word)) return "a score that cannot be read";
  *score = read;
  return NULL;
}
