/* Levels, 0 to 1 by millionths: as a channel's numbers keep them, and as scripts write them, by the bits of the
 * single-precision number that the millionths divided by 1,000,000 are. */
#ifndef LEVEL_H
#define LEVEL_H

#include <stdint.h>

enum { LEVEL_ONE = 1000000 };

/* The millionths of the level that has these bits; where none has, a number out of range, 2^32 and the bits. */
uint64_t level_of_bits(uint32_t bits);

/* The bits of the level; of a number out of range the last 32 of its own. */
uint32_t level_bits(uint64_t millionths);

#endif
