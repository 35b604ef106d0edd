#include "names.h"

#include <inttypes.h>
#include <string.h>

#include "../include/klarvesimo.h"
#include "log.h"
#include "message.h"

size_t name_of(const uint8_t *bytes, size_t count, struct name *name) {
  uint64_t numbers[KLARVESIMO_MOST], length;
  *name = (struct name){0};
  /* what the library wrote can be read */
  if (klarvesimo_read(bytes, count, numbers, KLARVESIMO_MOST, &length) != 0) return count;
  name->event = numbers[KLARVESIMO_KIND] == KLARVESIMO_EVENT;
  name->id = (uint32_t)numbers[KLARVESIMO_ID];
  return (size_t)length;
}

void names_add(struct names *to, struct name added) {
  if (to->count == MOST_NAMES) {
    memmove(to->list, to->list + 1, (MOST_NAMES - 1) * sizeof *to->list);
    to->count--;
    to->before++;
  }
  to->list[to->count++] = added;
}

void names_say(const struct names *n) {
  if (n->count == 0) log_add("none");
  if (n->before > 0) log_add("up to %" PRIu64 " messages, and then ", n->before);
  for (size_t i = 0; i < n->count; i++)
    log_add("%s%s %" PRIu32, i > 0 ? ", " : "", n->list[i].event ? "event" : "answer", n->list[i].id);
}
