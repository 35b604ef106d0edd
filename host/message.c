#define _POSIX_C_SOURCE 200809L
#include "message.h"

#include <string.h>
#include <strings.h>

int message_is(const uint8_t *bytes, const uint64_t *numbers, const char *name) {
  return numbers[KLARVESIMO_NAME_LENGTH] == strlen(name) &&
         memcmp(bytes + numbers[KLARVESIMO_NAME], name, strlen(name)) == 0;
}

const uint64_t *message_field(const uint8_t *bytes, const uint64_t *numbers, const char *name) {
  for (uint64_t f = 0; f < numbers[KLARVESIMO_FIELDS]; f++) {
    const uint64_t *field = numbers + KLARVESIMO_HEAD + KLARVESIMO_FIELD_NUMBERS * f;
    const char *written = (const char *)bytes + field[KLARVESIMO_FIELD_NAME];
    if (field[KLARVESIMO_FIELD_NAME_LENGTH] == strlen(name) && strncasecmp(written, name, strlen(name)) == 0)
      return field + KLARVESIMO_FIELD_VALUE;
  }
  return NULL;
}
