#define _POSIX_C_SOURCE 200809L
#include "connection.h"

#include <errno.h>
#include <fcntl.h>
#include <inttypes.h>
#include <string.h>
#include <sys/ioctl.h>
#include <sys/socket.h>
#include <unistd.h>

#include "channel.h"
#include "handled.h"
#include "log.h"
#include "now.h"

enum { MOST_DROPPED = 64 };
/* milliseconds: how long acknowledgements are waited for, and between two looks, since poll does not tell of them */
enum { FAREWELL = 200, TICK = 5 };

static const char LEFT[] = "the client has left", HALF[] = "the client has left in the middle of a message",
                  REFUSED[] = "its bytes are no messages",
                  SILENT[] = "the client neither sent nor took a byte for too long",
                  UNREAD[] = "an event finds no room, since the client does not read";

static int later(int error) { return error == EAGAIN || error == EWOULDBLOCK || error == EINTR; }

int connection_accept(struct connection *c, int listener, int64_t now) {
  int accepted = accept(listener, NULL, NULL);
  if (accepted < 0) return later(errno) || errno == ECONNABORTED ? 0 : -1;
  fcntl(accepted, F_SETFL, O_NONBLOCK);
  c->socket = accepted;
  c->end = c->why = NULL;
  c->waits = c->reset = 0;
  c->came = 0;
  c->heard = now;
  outbox_connect(&c->out);
  log_line("a client has come");
  return 1;
}

/* Bytes that are never received would reset the connection, and with that take back answers which the client has not
 * read yet. */
static void drop_input(struct connection *c) {
  static uint8_t dropped[KLARVESIMO_LONGEST_MESSAGE];
  ssize_t count = 1;
  for (int i = 0; i < MOST_DROPPED && count > 0; i++) count = recv(c->socket, dropped, sizeof dropped, 0);
  if (count < 0 && !later(errno)) c->reset = 1; /* it is said but once */
}

/* How much the client's end has not acknowledged, after the sending was ended: bytes, and the end itself as one more. */
static uint64_t unacknowledged(const struct connection *c) {
  int count = 0;
  if (ioctl(c->socket, TIOCOUTQ, &count) != 0) return c->out.handed + 1; /* not told: then it may be all */
  return count > 0 ? (uint64_t)count : 0;
}

/* Whether the network has given the connection up. After the client's end of sending only this says so: recv goes on
 * to say that it has left. */
static int is_reset(struct connection *c) {
  int error = 0;
  socklen_t size = sizeof error;
  if (getsockopt(c->socket, SOL_SOCKET, SO_ERROR, &error, &size) == 0 && error != 0) c->reset = 1;
  return c->reset;
}

/* What came in vain, and whose the first message of it is, where its start line came. */
static void say_not_handled(const struct connection *c) {
  uint64_t id;
  if (c->came == 0) return;
  log_add("; %zu bytes came that were not handled", c->came);
  if (klarvesimo_whose(c->in, c->came, &id) == 0) log_add(", from message %" PRIu64 " on", id);
}

/* Ends the closing where nothing more can be learned, or the time for it is over. */
static void end_closing(struct connection *c, int64_t now) {
  uint64_t left = unacknowledged(c);
  drop_input(c);
  if (!is_reset(c) && left > 0 && now < c->closed) return;
  log_begin();
  log_add("connection closed, %s%s", c->why, c->reset ? "; it was reset" : "");
  say_not_handled(c);
  outbox_disconnect(&c->out, left > 0 ? left - 1 : 0, c->reset);
  log_end();
  close(c->socket);
  c->socket = -1;
}

void connection_close(struct connection *c, const char *why, int64_t now) {
  if (c->socket < 0 || c->why) return;
  c->why = why;
  c->closed = now + FAREWELL;
  shutdown(c->socket, SHUT_WR);
  end_closing(c, now);
}

struct pollfd connection_watch(const struct connection *c) {
  short events = 0;
  if (!c->end && c->came < sizeof c->in) events |= POLLIN;
  if (c->out.queued > 0) events |= POLLOUT;
  return (struct pollfd){.fd = c->why ? -1 : c->socket, .events = events};
}

int connection_wait(const struct connection *c, int64_t now) {
  if (c->socket < 0) return -1;
  if (c->why) return TICK;
  return c->silence > 0 ? until_ms(c->heard + c->silence, now) : -1;
}

void connection_receive(struct connection *c, int64_t now) {
  while (!c->end && c->came < sizeof c->in) {
    ssize_t count = recv(c->socket, c->in + c->came, sizeof c->in - c->came, 0);
    if (count < 0 && later(errno)) return;
    if (count < 0) c->reset = 1;
    if (count <= 0) c->end = count == 0 ? LEFT : strerror(errno);
    if (count > 0) c->came += (size_t)count, c->heard = now;
  }
}

/* Whether the client took any of the queue; where it never will again, the connection is closed. */
static int sends(struct connection *c, int64_t now) {
  if (c->socket < 0 || c->why || c->out.queued == 0) return 0;
  ssize_t count = send(c->socket, c->out.bytes + c->out.sent, c->out.queued - c->out.sent, MSG_NOSIGNAL);
  if (count < 0 && !later(errno)) {
    c->reset = 1;
    connection_close(c, c->end ? c->end : strerror(errno), now);
  }
  if (count <= 0) return 0;
  c->heard = now;
  outbox_hand_over(&c->out, (size_t)count);
  return 1;
}

/* One message at the front of `bytes`: the library's number. What the call wrote joins the queue. */
static uint32_t handle_one(struct connection *c, uint64_t *channel, const uint8_t *bytes, size_t count,
                           size_t *consumed) {
  uint64_t counts[KLARVESIMO_COUNTS];
  uint8_t *answer = c->out.bytes + c->out.queued;
  uint32_t number = klarvesimo_handle(channel, bytes, count, answer, sizeof c->out.bytes - c->out.queued, counts);
  c->out.queued += (size_t)counts[KLARVESIMO_WRITTEN];
  *consumed = (size_t)counts[KLARVESIMO_CONSUMED];
  const char *held = channel_recognizes(channel) ? "recognitions" : "prompts";
  if (number == 0) say_handled(bytes, *consumed, answer, (size_t)counts[KLARVESIMO_WRITTEN], held);
  if (number == KLARVESIMO_MALFORMED_LINE || number == KLARVESIMO_NO_REQUEST) say_refused(number, bytes, *consumed);
  return number;
}

/* Each message that is whole and whose answer finds room: the number of what is left. */
static uint32_t handle_fitting(struct connection *c, uint64_t *channel) {
  size_t at = 0, consumed;
  uint32_t number;
  do {
    number = handle_one(c, channel, c->in + at, c->came - at, &consumed);
    at += consumed;
  } while (consumed > 0);
  c->came -= at;
  memmove(c->in, c->in + at, c->came);
  return number;
}

/* The same, for as long as the client takes answers. */
static uint32_t handle_all(struct connection *c, uint64_t *channel, int64_t now) {
  uint32_t number;
  do number = handle_fitting(c, channel);
  while (number == KLARVESIMO_NO_ROOM && sends(c, now));
  return number;
}

static void say_waits(struct connection *c) {
  if (!c->waits) log_line("the client does not read, so its messages wait");
  c->waits = 1;
}

/* Handles and sends what can be, and closes what has ended. A message is left waiting only behind a queue that the
 * client did not take, so that poll tells when to go on. */
static void settle(struct connection *c, uint64_t *channel, int64_t now) {
  uint32_t number = handle_all(c, channel, now);
  if (c->socket < 0 || c->why) return;
  if (number == KLARVESIMO_NO_ROOM) {
    say_waits(c);
    return;
  }
  if (number == KLARVESIMO_MORE_BYTES && c->end && c->came > 0) c->end = c->reset ? c->end : HALF;
  if (number != KLARVESIMO_MORE_BYTES && c->end != REFUSED) { /* no message comes of these bytes */
    say_refused(number, c->in, c->came);
    c->end = REFUSED;
  }
  sends(c, now);
  if (c->end && c->out.queued == 0) connection_close(c, c->end, now);
}

void connection_serve(struct connection *c, uint64_t *channel, int64_t now) {
  if (c->socket < 0) return;
  if (c->why) {
    end_closing(c, now);
    return;
  }
  connection_receive(c, now);
  settle(c, channel, now);
  if (c->silence > 0 && now - c->heard >= c->silence) connection_close(c, SILENT, now);
}

uint32_t connection_report(struct connection *c, uint64_t *channel, uint32_t cause, float score, int64_t now) {
  uint64_t written;
  uint32_t number;
  do {
    /* one that is about to be closed has no room for what is new */
    size_t room = c->socket < 0 || c->end || c->why ? 0 : sizeof c->out.bytes - c->out.queued;
    number = klarvesimo_report(channel, cause, score, c->out.bytes + c->out.queued, room, &written);
  } while (number == KLARVESIMO_NO_ROOM && sends(c, now));
  c->out.queued += (size_t)written;
  if (number == KLARVESIMO_NO_ROOM) connection_close(c, c->end ? c->end : UNREAD, now);
  if (c->socket >= 0 && !c->why) settle(c, channel, now); /* the queue may have become short */
  return number;
}
