/* A channel's 89 numbers, of either kind, for whoever reads what a program writes. */
#ifndef CHANNEL_H
#define CHANNEL_H

#include <stddef.h>
#include <stdint.h>
#include <stdio.h>

#include "../include/klarvesimo.h"

/* The name, as many bytes as the size says and there are: how many. Of each number the last eight bits are shown. */
size_t channel_name(const uint64_t *channel, uint8_t *name);

/* Whether it is a recognizer: that name ends in `@speechrecog`. */
int channel_recognizes(const uint64_t *channel);

/* How many outstanding requests it has places for: 16, on a recognizer 8. */
size_t channel_places(const uint64_t *channel);

/* A setting of its kind: the name, and of which sort its values are. */
struct setting {
  const char *name;
  uint64_t sort;
};

/* How many settings it has, 2, on a recognizer 3; and the one at this place of an edition. */
size_t channel_settings(const uint64_t *channel);
const struct setting *channel_setting(const uint64_t *channel, size_t place);

/* Its sort and value there, in the edition of this number: 1 is the newest, 4 the last that there is room for. */
const uint64_t *channel_value(const uint64_t *channel, size_t edition, size_t place);

/* How many editions are shown: as many as the count says and there are. */
size_t channel_editions(const uint64_t *channel);

void channel_write_state(FILE *to, const uint64_t *channel); /* a word, or a number where it is none of the five */
void channel_write_last(FILE *to, const uint64_t *channel);  /* `-` where no request was seen */

/* `7+,8-`, on a recognizer `7:3f000000`, or `-` for none: as many entries as there are places at most, and then, after
 * `beyond`, the count that is above it. Of a threshold the bits are shown: those of the level, or, where it is out of
 * range, its last 32. */
void channel_write_queue(FILE *to, const uint64_t *channel, const char *beyond);

/* `true/250,-/-`, on a recognizer `5000/:3f000000/-`, or `-` for none: the newest edition first, at most 4, and then a
 * space and the count that is above it. */
void channel_write_editions(FILE *to, const uint64_t *channel);

/* All of them, with a space in front of each. */
void channel_write_numbers(FILE *to, const uint64_t *channel);

#endif
