/* A list of commands as bytes, the input of the fuzzer: any bytes are such a list.
 *
 * A command begins with a byte whose last seven bits, modulo eleven, say which it is. Then come its numbers, each in
 * groups of seven bits, the lowest first, with the eighth bit set where another group follows; and its bytes, behind
 * their count:
 *
 *    0 frame BYTES   1 read BYTES   2 open BYTES   3 message ROOM BYTES   4 report CAUSE SCORE ROOM
 *    5 number PLACE VALUE   6 channel VALUE... (89)   7 show ROOM, which asks what the channel holds   8 whose BYTES
 *    9 back NUMBER   10 settings VALUE... (25), the numbers of a channel from the count of its editions on
 *
 * A SCORE is its 32 bits. The name that is opened chooses the kind of the channel. A room is cut at INPUT_MOST_ROOM, a
 * count at what is there. Where the eighth bit of the first byte is set, the bytes get in front of them the opening
 * that fits, so that a change of their number leaves them a message. */
#ifndef INPUT_H
#define INPUT_H

#include <stdio.h>

#include "command.h"

enum { INPUT_MOST_ROOM = 4096 };

struct input {
  const uint8_t *at;
  size_t left;
};

/* The next command; 0 at the end. Its bytes have room for all that is left, and KLARVESIMO_LONGEST_OPENING. */
int input_next(struct input *in, struct command *c);

/* Writes a command so that it is read again, but for a room that is cut; nothing where such a list does not have it. */
void input_put(FILE *to, const struct command *c);

#endif
