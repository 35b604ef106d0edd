/* The ledger of document 01 ("How tight the promises are"), on a recognizer with RECOGNIZE for SPEAK: fed, for each
 * call in turn, the lent input or the report, the number returned and the bytes written; nothing comes from the
 * channel's numbers. */
#ifndef LEDGER_H
#define LEDGER_H

#include <stddef.h>
#include <stdint.h>

#include "../include/klarvesimo.h"

/* What one call puts into it. */
struct entry {
  enum { ENTRY_NOTHING, ENTRY_ACCEPTED, ENTRY_CLOSED, ENTRY_UNREADABLE } kind;
  uint32_t ids[KLARVESIMO_MOST_HELD]; /* the one accepted, or those closed in the order written */
  size_t count;
};

struct entry entry_of_message(const uint8_t *bytes, size_t count, uint32_t number, const uint8_t *written, size_t size);
struct entry entry_of_report(uint32_t number, const uint8_t *written, size_t size);

struct ids {
  uint32_t *id;
  size_t count, room;
};

struct ledger {
  struct ids accepted, closed;
  struct ids open; /* accepted and not closed, in order of acceptance */
  char wrong[96];  /* which property does not hold */
};

/* Both lists are empty at opening. */
void ledger_clear(struct ledger *l);

/* No id is accepted twice, none closed twice, and none closed before it was accepted: else 0, and `wrong` says which. */
int ledger_enter(struct ledger *l, const struct entry *e);

/* What is accepted and not closed, in order of acceptance, is what the channel holds: else 0. */
int ledger_balances(struct ledger *l, const uint64_t *held, uint64_t count);

#endif
