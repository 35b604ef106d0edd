/* What an engine scores a recognition with: a single-precision number, as scripts and as people write it. */
#ifndef SCORE_H
#define SCORE_H

#include <stdint.h>

/* The one with these bits, whether they are a number's or not. */
float score_of_bits(uint32_t bits);

/* The one that the word is, a decimal number, `inf` or `nan`, into score, and NULL; or what is wrong with the word. */
const char *score_read(const char *word, float *score);

#endif
