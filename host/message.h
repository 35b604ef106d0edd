/* Parts of a message by their names, in the numbers that klarvesimo_read gave for its bytes. */
#ifndef MESSAGE_H
#define MESSAGE_H

#include <stdint.h>

#include "../include/klarvesimo.h"

/* Whether its method or event has this name. */
int message_is(const uint8_t *bytes, const uint64_t *numbers, const char *name);

/* The place and length of the value of the field with this name, case apart; NULL where there is none. */
const uint64_t *message_field(const uint8_t *bytes, const uint64_t *numbers, const char *name);

#endif
