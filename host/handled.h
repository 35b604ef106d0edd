/* What the log says of requests and their answers. */
#ifndef HANDLED_H
#define HANDLED_H

#include <stddef.h>
#include <stdint.h>

/* A request that was handled, and its answer: said where it failed, or speaks of requests, which are called `held`. */
void say_handled(const uint8_t *request, size_t length, const uint8_t *answer, size_t written, const char *held);

/* Bytes that the library refused. */
void say_refused(uint32_t number, const uint8_t *bytes, size_t count);

#endif
