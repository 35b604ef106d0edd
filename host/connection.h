/* A client's connection to the board: what it sends is joined to messages, and answers and events wait in the outbox
 * until it takes them.
 *
 * The outbox is bounded, and no call here waits for the client. Nothing is lost by that: the free part of the outbox
 * is the output that the library is lent, so a message whose answer finds no room is refused, which leaves the channel
 * as it was. The message stays in the input until there is room; while the input is full nothing is received, and the
 * client's own sending stops. An engine's report that finds no room is refused too, and so stays due. But speech does
 * not wait for a client that does not read: its connection is closed, and the next client gets the event.
 *
 * A connection that is closed is first shut for writing, and what was handed over is given a moment to be
 * acknowledged: else it is in doubt. */
#ifndef CONNECTION_H
#define CONNECTION_H

#include <poll.h>
#include <stddef.h>
#include <stdint.h>

#include "../include/klarvesimo.h"
#include "outbox.h"

struct connection {
  int socket;       /* -1 where no client is there */
  const char *end;  /* why nothing more is received, NULL while it is; it is closed when the outbox is sent */
  int waits;        /* it was said that the client's messages wait */
  int reset;        /* the network says that it is lost */
  int64_t silence;  /* how long a client may neither send nor take a byte, in milliseconds; 0 is for ever */
  int64_t heard;    /* when it last did */
  const char *why;  /* it is being closed, and why; NULL where it is not */
  int64_t closed;   /* until when acknowledgements are waited for then */
  size_t came;
  uint8_t in[KLARVESIMO_LONGEST_MESSAGE]; /* so a full one holds a whole message, or none that can become one */
  struct outbox out;
};

/* The next client at the listening socket: 1; 0 where it has left again; -1 where the system has no means for it, as
 * errno says. */
int connection_accept(struct connection *c, int listener, int64_t now);

/* What is waited for: bytes while there is room for them, and room at the client's while bytes are queued; and for
 * how long, as poll wants it. */
struct pollfd connection_watch(const struct connection *c);
int connection_wait(const struct connection *c, int64_t now);

/* Receives what has come, and so sees whether the client has left. */
void connection_receive(struct connection *c, int64_t now);

/* The same; then handles each message that is whole and whose answer finds room, sends what the client takes, and
 * closes what has ended. */
void connection_serve(struct connection *c, uint64_t *channel, int64_t now);

/* The engine's report, its events sent to the client. 0, or the library's refusal: KLARVESIMO_NO_ROOM also where no
 * client is there. */
uint32_t connection_report(struct connection *c, uint64_t *channel, uint32_t cause, float score, int64_t now);

/* Begins to close it; connection_serve ends that, and says why, how many bytes came that were not handled and from
 * whose message on, and what became of the messages. */
void connection_close(struct connection *c, const char *why, int64_t now);

#endif
