/* The writers of one message, outside any channel: for comparing and counting, not part of the product's interface.
 *
 * Each returns 0 with the message at the front of `out` and its size in `written`; or, with nothing written and
 * `written` 0, KLARVESIMO_NO_ROOM where it is longer than `room`, and KLARVESIMO_NO_CAUSE where klarvesimo.h has no
 * such request state, or no such cause. */
#ifndef WRITING_H
#define WRITING_H

#include <stdint.h>

uint32_t klarvesimo_write_response(const uint8_t *name, uint64_t length, uint32_t id, uint32_t status, uint32_t state, const uint32_t *ids, uint64_t count,
                                   uint8_t *out, uint64_t room, uint64_t *written);
uint32_t klarvesimo_write_event(const uint8_t *name, uint64_t length, uint32_t id, uint32_t cause, uint8_t *out, uint64_t room, uint64_t *written);

#endif
