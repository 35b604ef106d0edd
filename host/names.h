/* Messages as the log names them, by kind and id: `answer 7, event 7`. Of many the last ones are kept, and how many
 * came before at most. */
#ifndef NAMES_H
#define NAMES_H

#include <stddef.h>
#include <stdint.h>

enum { MOST_NAMES = 64 };

struct name {
  int event; /* else an answer */
  uint32_t id;
  uint64_t end; /* how many bytes its connection had been handed with its last one */
};

struct names {
  uint64_t before;
  size_t count;
  struct name list[MOST_NAMES];
};

/* The message at the front of bytes, which the board wrote itself: its length, and its name. */
size_t name_of(const uint8_t *bytes, size_t count, struct name *name);

void names_add(struct names *to, struct name added);

/* Adds them to the line of the log, or `none`. */
void names_say(const struct names *n);

#endif
