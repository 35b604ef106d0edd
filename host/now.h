/* Milliseconds of a clock that only goes forward. */
#ifndef NOW_H
#define NOW_H

#include <stdint.h>

int64_t now_ms(void);

/* The shorter of two times that poll is to wait, where -1 is for ever. */
int sooner(int one, int other);

/* How long until `then`, as poll wants it: 0 where that is over. */
int until_ms(int64_t then, int64_t now);

#endif
