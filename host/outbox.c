#include "outbox.h"

#include <inttypes.h>
#include <string.h>

#include "log.h"

void outbox_connect(struct outbox *o) {
  o->sent = 0;
  o->handed = 0;
  o->told = (struct names){0};
}

static void told(struct outbox *o, struct name name, size_t length) {
  o->queued -= length;
  o->sent -= length;
  memmove(o->bytes, o->bytes + length, o->queued);
  name.end = o->handed - o->sent;
  names_add(&o->told, name);
  if (name.event) log_line("event %" PRIu32 " handed over", name.id);
}

void outbox_hand_over(struct outbox *o, size_t count) {
  struct name name;
  o->sent += count;
  o->handed += count;
  while (o->sent > 0) {
    size_t length = name_of(o->bytes, o->queued, &name);
    if (length > o->sent) return;
    told(o, name, length);
  }
}

struct names outbox_waiting(const struct outbox *o) {
  struct names waiting = {0};
  struct name name;
  for (size_t at = 0; at < o->queued;) {
    at += name_of(o->bytes + at, o->queued - at, &name);
    names_add(&waiting, name);
  }
  return waiting;
}

static struct names in_doubt(const struct outbox *o, uint64_t unacknowledged, int reset) {
  struct names doubtful = {0};
  for (size_t i = 0; i < o->told.count; i++)
    if (reset || o->told.list[i].end > o->handed - unacknowledged) names_add(&doubtful, o->told.list[i]);
  if (doubtful.count == o->told.count) doubtful.before = o->told.before; /* too many to keep: these may be too */
  return doubtful;
}

void outbox_disconnect(struct outbox *o, uint64_t unacknowledged, int reset) {
  struct names doubtful = in_doubt(o, unacknowledged < o->handed ? unacknowledged : o->handed, reset);
  o->doubtful.before += doubtful.before;
  for (size_t i = 0; i < doubtful.count; i++) names_add(&o->doubtful, doubtful.list[i]);
  if (o->queued > 0) {
    struct names waiting = outbox_waiting(o);
    log_add("; waiting for the next client: ");
    names_say(&waiting);
  }
  if (doubtful.count > 0) {
    log_add("; not known to be delivered: ");
    names_say(&doubtful);
  }
}
