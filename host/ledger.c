#include "ledger.h"

#include <inttypes.h>
#include <stdio.h>
#include <stdlib.h>

#include "message.h"

static const struct entry NOTHING = {.kind = ENTRY_NOTHING}, UNREADABLE = {.kind = ENTRY_UNREADABLE};

/* ids joined by commas, as the library writes them; a list of more than can be outstanding is none */
static struct entry closed(const uint8_t *bytes, const uint64_t *value) {
  struct entry e = {.kind = ENTRY_CLOSED};
  uint64_t id = 0, digits = 0;
  for (uint64_t i = 0; i <= value[1]; i++) {
    uint8_t byte = i < value[1] ? bytes[value[0] + i] : ',';
    if (byte >= '0' && byte <= '9' && digits < 10) {
      id = id * 10 + (uint64_t)(byte - '0');
      digits++;
    } else if (byte == ',' && digits > 0 && id <= UINT32_MAX && e.count < KLARVESIMO_MOST_HELD) {
      e.ids[e.count++] = (uint32_t)id;
      id = digits = 0;
    } else {
      return UNREADABLE;
    }
  }
  return e;
}

struct entry entry_of_message(const uint8_t *bytes, size_t count, uint32_t number, const uint8_t *written, size_t size) {
  uint64_t in[KLARVESIMO_MOST], out[KLARVESIMO_MOST], consumed;
  if (number != 0) return NOTHING;
  if (klarvesimo_read(bytes, count, in, KLARVESIMO_MOST, &consumed) != 0) return UNREADABLE;
  if (in[KLARVESIMO_KIND] != KLARVESIMO_REQUEST) return UNREADABLE;
  int asks = message_is(bytes, in, "SPEAK") || message_is(bytes, in, "RECOGNIZE");
  if (!asks && !message_is(bytes, in, "STOP") && !message_is(bytes, in, "BARGE-IN-OCCURRED")) return NOTHING;
  if (klarvesimo_read(written, size, out, KLARVESIMO_MOST, &consumed) != 0 || consumed != size) return UNREADABLE;
  if (out[KLARVESIMO_KIND] != KLARVESIMO_RESPONSE || !out[KLARVESIMO_GOOD]) return UNREADABLE;
  if (out[KLARVESIMO_STATUS] != 200 && out[KLARVESIMO_STATUS] != 201) return NOTHING;
  if (asks) return (struct entry){.kind = ENTRY_ACCEPTED, .ids = {(uint32_t)in[KLARVESIMO_ID]}, .count = 1};
  const uint64_t *list = message_field(written, out, "Active-Request-Id-List");
  return list ? closed(written, list) : NOTHING;
}

struct entry entry_of_report(uint32_t number, const uint8_t *written, size_t size) {
  struct entry e = {.kind = ENTRY_CLOSED};
  uint64_t out[KLARVESIMO_MOST], consumed;
  if (number != 0) return NOTHING;
  for (size_t at = 0; at < size; at += (size_t)consumed) {
    if (klarvesimo_read(written + at, size - at, out, KLARVESIMO_MOST, &consumed) != 0) return UNREADABLE;
    if (out[KLARVESIMO_KIND] != KLARVESIMO_EVENT || e.count == KLARVESIMO_MOST_HELD) return UNREADABLE;
    e.ids[e.count++] = (uint32_t)out[KLARVESIMO_ID];
  }
  return e;
}

static void put(struct ids *list, uint32_t id) {
  if (list->count == list->room) {
    list->room = 2 * list->room + 16;
    list->id = realloc(list->id, list->room * sizeof *list->id);
    if (!list->id) {
      perror("no memory for the ledger");
      exit(1);
    }
  }
  list->id[list->count++] = id;
}

static int has(const struct ids *list, uint32_t id) {
  for (size_t i = list->count; i-- > 0;)
    if (list->id[i] == id) return 1;
  return 0;
}

static void take(struct ids *list, uint32_t id) {
  size_t kept = 0;
  for (size_t i = 0; i < list->count; i++)
    if (list->id[i] != id) list->id[kept++] = list->id[i];
  list->count = kept;
}

static int wrong(struct ledger *l, uint32_t id, const char *what) {
  snprintf(l->wrong, sizeof l->wrong, "ledger: id %" PRIu32 " %s", id, what);
  return 0;
}

void ledger_clear(struct ledger *l) { l->accepted.count = l->closed.count = l->open.count = 0; }

static int accept_id(struct ledger *l, uint32_t id) {
  if (has(&l->accepted, id)) return wrong(l, id, "accepted twice");
  put(&l->accepted, id);
  put(&l->open, id);
  return 1;
}

static int close_id(struct ledger *l, uint32_t id) {
  if (has(&l->closed, id)) return wrong(l, id, "closed twice");
  if (!has(&l->accepted, id)) return wrong(l, id, "closed before it was accepted");
  put(&l->closed, id);
  take(&l->open, id);
  return 1;
}

int ledger_enter(struct ledger *l, const struct entry *e) {
  if (e->kind == ENTRY_UNREADABLE) {
    snprintf(l->wrong, sizeof l->wrong, "ledger: the bytes of a handled call cannot be read");
    return 0;
  }
  for (size_t i = 0; i < e->count; i++)
    if (!(e->kind == ENTRY_ACCEPTED ? accept_id : close_id)(l, e->ids[i])) return 0;
  return 1;
}

int ledger_balances(struct ledger *l, const uint64_t *held, uint64_t count) {
  int balances = count == l->open.count;
  for (uint64_t i = 0; balances && i < count; i++) balances = held[i] == l->open.id[i];
  if (!balances) snprintf(l->wrong, sizeof l->wrong, "ledger: what is accepted and not closed is not what the channel holds");
  return balances;
}
