/* The calls of the library with every buffer lent, and whether each kept what include/klarvesimo.h promises of every byte and number that it
 * was lent. What it answers is for the caller to compare. */
#ifndef CHECKED_H
#define CHECKED_H

#include <stddef.h>
#include <stdint.h>

#include "../include/klarvesimo.h"

struct checked {
  uint32_t number;
  uint64_t consumed, written;
  const uint8_t *out; /* the bytes written, which stand until the next call */
  int holds;          /* whether all else is as promised */
};

/* Before any opening the channel is the one that a refused opening gives. */
void checked_begin(void);

/* Its numbers, which may be set to anything between calls. It stands until the next opening. */
uint64_t *checked_channel(void);

struct checked checked_open(const uint8_t *name, size_t length);
struct checked checked_handle(const uint8_t *bytes, size_t count, size_t room);
struct checked checked_report(uint32_t cause, uint32_t score, size_t room); /* the score by its bits */
struct checked checked_held(size_t room); /* no more than KLARVESIMO_MOST */
struct checked checked_back(uint32_t number);

/* The numbers on 0: KLARVESIMO_FRAME_NUMBERS of them; or KLARVESIMO_HEAD, and KLARVESIMO_FIELD_NUMBERS a field. */
struct checked checked_frame(const uint8_t *bytes, size_t count, uint64_t *numbers);
struct checked checked_read(const uint8_t *bytes, size_t count, uint64_t *numbers);

/* The request-id on 0. */
struct checked checked_whose(const uint8_t *bytes, size_t count, uint64_t *id);

/* Whether `written` bytes fit the room, none where the call is refused, and the bytes of out past them are as they were lent. */
int checked_written(uint32_t number, const uint8_t *out, uint64_t written, size_t room);

#endif
