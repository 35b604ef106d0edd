/* What the board has written and a client is to get: whole messages, in their order.
 *
 * A message is told when a client can have got it. So the outbox outlives a connection: a message of which the
 * network has not taken the last byte goes to the next client, from its first byte on, before anything else. Those
 * that it has taken are kept by name: if the connection is then reset, or ends before they are acknowledged, nobody
 * knows whether they were delivered, and the log says so. */
#ifndef OUTBOX_H
#define OUTBOX_H

#include <stddef.h>
#include <stdint.h>

#include "names.h"

enum { MOST_QUEUED = 4096 };

struct outbox {
  size_t queued, sent;   /* bytes that wait; and of these, bytes of the first message that the network has taken */
  uint64_t handed;       /* all bytes that it took on this connection */
  struct names told;     /* the messages that it took on this connection */
  struct names doubtful; /* those of connections that have ended, where nobody knows */
  uint8_t bytes[MOST_QUEUED];
};

/* A new connection: nothing of what waits has been sent on it. */
void outbox_connect(struct outbox *o);

/* The network has taken so many bytes more. The log names each event that is thereby handed over. */
void outbox_hand_over(struct outbox *o, size_t count);

/* The connection has ended with so many bytes unacknowledged. Where it was reset, what was acknowledged may have
 * been thrown away unread, so all its messages are in doubt. Adds to the line of the log what waits for the next
 * client, and which messages are in doubt. */
void outbox_disconnect(struct outbox *o, uint64_t unacknowledged, int reset);

/* The names of the messages that wait. */
struct names outbox_waiting(const struct outbox *o);

#endif
