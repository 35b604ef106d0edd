/* Decimal numbers, as the words of a script, of a program's call or of a line write them. */
#ifndef NUMBER_H
#define NUMBER_H

#include <stdint.h>

/* The number that the word is, at most `most`, into value, and NULL; or what is wrong with the word. */
const char *number_read(const char *word, uint64_t most, uint64_t *value);

#endif
