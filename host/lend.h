/* Buffers lent exactly sized, against an unmapped page at their end, or at their start, and filled beforehand. */
#ifndef LEND_H
#define LEND_H

#include <stddef.h>

/* Each has memory of its own, with an unmapped page in front of it and behind it. */
enum buffer { INPUT, OUTPUT, IDS, CHANNEL, COUNTS, BUFFERS };

/* Gets the memory, `most` bytes for each buffer; where `front` is set, what is lent stands against the page in front. Exits with a message where
 * the memory cannot be had. */
void lend_begin(size_t most, int front);

/* From now on what is lent stands against the page in front, or behind. What was lent before is taken back. */
void lend_turn(int front);

/* `size` bytes, filled. What was lent of the same buffer before is taken back. */
void *lend(enum buffer which, size_t size);

/* The same with a copy of `from` in it. */
void *lend_copy(enum buffer which, const void *from, size_t size);

/* Whether these bytes are as they were lent. */
int lend_untouched(const void *from, size_t size);

#endif
