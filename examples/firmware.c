/* What a firmware engineer writes over klarvesimo.h: a synthesizer's channel and a recognizer's, each behind a line
 * driver that hands over bytes as they come, in pieces, and an engine that serves one request at a time and tells of
 * its end, sometimes late. The client sets how long an engine waits, and a technician at the service bench goes back.
 *
 *    cc firmware.c $(pkg-config --cflags --libs klarvesimo)
 *
 * The drivers and the engines' ends are played by main, the lines 50 bytes at a time. What goes to the client is
 * written to standard output; what the firmware does and says stands in brackets. */
#include <inttypes.h>
#include <klarvesimo.h>
#include <math.h>
#include <stdio.h>
#include <stdlib.h>
#include <string.h>

/* which number of an edition is the sort of the timeout that an engine goes by, and the next its value */
enum { FETCH_TIMEOUT = 2, NO_INPUT_TIMEOUT = 0 }; /* a synthesizer's second setting, a recognizer's first */
enum { DEFAULT_TIMEOUT = 5000 };

struct resource {
  uint64_t channel[KLARVESIMO_CHANNEL];
  uint8_t in[KLARVESIMO_LONGEST_MESSAGE]; /* what has come and is not handled; a whole message always fits */
  size_t came;
  int announced;            /* whose message it is that has not come whole was said */
  const char *runs;         /* what its engine does with a request */
  int serves, pauses, kept; /* a request; which is paused; and whose end could not be reported yet */
  uint64_t request;
  uint32_t cause; /* of the end that is kept */
  float score;
  size_t timeout; /* which one */
  uint64_t waits; /* its milliseconds, as the engine was told them last */
};
static struct resource synthesizer, recognizer;

static void send_to_client(const uint8_t *bytes, uint64_t count) { fwrite(bytes, 1, (size_t)count, stdout); }

/* the channels are ours alone, so this does not happen; if it does, nothing may go on */
static void stop_the_board(const char *call, uint32_t number) {
  fprintf(stderr, "%s: %" PRIu32 "\n", call, number);
  exit(1);
}

static void open_channel(struct resource *r, const char *name, const char *runs, size_t timeout) {
  uint32_t number = klarvesimo_open(r->channel, (const uint8_t *)name, strlen(name));
  if (number) stop_the_board("klarvesimo_open", number);
  r->runs = runs, r->timeout = timeout, r->waits = DEFAULT_TIMEOUT;
}

/* After every call that may have made an edition: the engine is told its timeout, as the newest one has it. */
static void follow_the_settings(struct resource *r) {
  const uint64_t *newest = r->channel + KLARVESIMO_CHANNEL_SETTINGS, *setting = newest + r->timeout;
  uint64_t waits = setting[0] == KLARVESIMO_MILLIS ? setting[1] : DEFAULT_TIMEOUT;
  if (waits != r->waits) printf("[the engine waits for %" PRIu64 " ms]\n", waits);
  r->waits = waits;
}

/* The service bench goes back to an edition of the settings, 1 the newest. */
static void go_back(struct resource *r, uint32_t edition) {
  uint32_t number = klarvesimo_back(r->channel, edition);
  if (number == KLARVESIMO_NOT_KEPT) {
    printf("[back %" PRIu32 " refused %" PRIu32 ": %" PRIu64 " are kept]\n", edition, number,
           r->channel[KLARVESIMO_CHANNEL_EDITIONS]);
    return;
  }
  if (number) stop_the_board("klarvesimo_back", number);
  printf("[back to edition %" PRIu32 "]\n", edition);
  follow_the_settings(r);
}

/* the requests that are held, the active one first */
static uint64_t held_requests(const struct resource *r, uint64_t ids[KLARVESIMO_MOST_HELD]) {
  uint64_t count;
  uint32_t number = klarvesimo_held(r->channel, ids, KLARVESIMO_MOST_HELD, &count);
  if (number) stop_the_board("klarvesimo_held", number);
  return count;
}

/* After every call: the engine serves the first request that is held, and pauses as the channel does. */
static void follow_the_channel(struct resource *r) {
  uint64_t ids[KLARVESIMO_MOST_HELD], held = held_requests(r, ids);
  int pauses = r->channel[KLARVESIMO_CHANNEL_STATE] == KLARVESIMO_PAUSED;
  if (r->serves && (held == 0 || ids[0] != r->request)) {
    printf("[the engine stops %" PRIu64 "]\n", r->request);
    r->serves = r->kept = 0;
  }
  if (held == 0 || (r->serves && r->pauses == pauses)) return;
  r->serves = 1, r->pauses = pauses, r->request = ids[0];
  printf("[the engine %s %" PRIu64 "]\n", pauses ? "pauses" : r->runs, r->request);
}

static void report_end(struct resource *r, uint32_t cause, float score);

/* An end that came while its prompt was paused is reported when that goes on. */
static void after_a_call(struct resource *r) {
  follow_the_settings(r);
  follow_the_channel(r);
  if (r->kept && !r->pauses) report_end(r, r->cause, r->score);
}

/* The end of the request that the engine serves, which is the first held one; a synthesizer's score is not looked at.
 * A recognition that failed, or was too doubtful, ends those that wait behind it: several events are written then. */
static void report_end(struct resource *r, uint32_t cause, float score) {
  uint8_t out[KLARVESIMO_LONGEST_REPORT];
  uint64_t written;
  uint32_t number = klarvesimo_report(r->channel, cause, score, out, sizeof out, &written);
  r->kept = number == KLARVESIMO_NOT_SPEAKING; /* paused: the report is to be given again */
  r->cause = cause, r->score = score;
  if (r->kept || number == KLARVESIMO_NO_CAUSE || number == KLARVESIMO_NO_SCORE) {
    printf("[report %" PRIu32 " refused %" PRIu32 "]\n", cause, number);
    return;
  }
  if (number) stop_the_board("klarvesimo_report", number);
  send_to_client(out, written);
  r->serves = 0;
  after_a_call(r);
}

/* An engine calls this when it has served a request to its end, or had to give it up. It names the request, which the
 * library's report does not: a late end would end the next request. */
static void request_ended(struct resource *r, uint64_t request, uint32_t cause, float score) {
  if (r->serves && r->request == request)
    report_end(r, cause, score);
  else
    printf("[the end of %" PRIu64 " comes late, and is not reported]\n", request);
}

/* A message that has not come whole: its start line tells whose it is. */
static void announce(struct resource *r) {
  uint64_t id;
  if (r->announced || klarvesimo_whose(r->in, r->came, &id) != 0) return;
  printf("[a message of request %" PRIu64 " is coming]\n", id);
  r->announced = 1;
}

/* Each message that has come whole is handled: 1 where the line is to be kept, 0 where it is to be closed. */
static int handle_messages(struct resource *r) {
  uint8_t out[KLARVESIMO_LONGEST_ANSWER]; /* no answer is longer, so there is always room */
  uint64_t counts[KLARVESIMO_COUNTS];
  for (;;) {
    uint32_t number = klarvesimo_handle(r->channel, r->in, r->came, out, sizeof out, counts);
    switch (number) {
    case KLARVESIMO_HANDLED:
      send_to_client(out, counts[KLARVESIMO_WRITTEN]);
      break;
    case KLARVESIMO_MORE_BYTES:
      announce(r);
      return 1;
    case KLARVESIMO_NO_MESSAGE:
    case KLARVESIMO_TOO_LONG:
    case KLARVESIMO_TOO_SHORT:
      printf("[refused %" PRIu32 ": the line is closed]\n", number);
      return 0;
    case KLARVESIMO_MALFORMED_LINE:
    case KLARVESIMO_NO_REQUEST:
      printf("[refused %" PRIu32 ": no request, passed over]\n", number);
      break;
    default:
      stop_the_board("klarvesimo_handle", number);
    }
    r->came -= (size_t)counts[KLARVESIMO_CONSUMED];
    memmove(r->in, r->in + counts[KLARVESIMO_CONSUMED], r->came);
    r->announced = 0;
    after_a_call(r);
  }
}

/* A line driver calls this with each piece: 0 where the line is to be closed. */
static int line_received(struct resource *r, const char *piece, size_t count) {
  while (count > 0) {
    size_t fits = count < sizeof r->in - r->came ? count : sizeof r->in - r->came;
    memcpy(r->in + r->came, piece, fits);
    r->came += fits, piece += fits, count -= fits;
    if (!handle_messages(r)) return 0;
  }
  return 1;
}

/* plays the driver */
static int comes(struct resource *r, const char *line) {
  size_t length = strlen(line);
  for (size_t at = 0; at < length; at += 50)
    if (!line_received(r, line + at, length - at < 50 ? length - at : 50)) return 0;
  return 1;
}

static void show_requests(const struct resource *r) {
  uint64_t ids[KLARVESIMO_MOST_HELD], held = held_requests(r, ids);
  printf("[held:");
  for (uint64_t i = 0; i < held; i++) printf(" %" PRIu64, ids[i]);
  puts("]");
}

static int play_synthesizer(void) {
  static const char line[] =
    "MRCP/2.0 106 SPEAK 7\r\nChannel-Identifier:7f3a@speechsynth\r\n"
    "Content-Type:text/plain\r\nContent-Length:2\r\n\r\nHi"
    "MRCP/2.0 109 SPEAK 8\r\nChannel-Identifier:7f3a@speechsynth\r\n"
    "Content-Type:text/plain\r\nContent-Length:5\r\n\r\nthere"
    "MRCP/2.0 67 7 200 COMPLETE\r\nChannel-Identifier:7f3a@speechsynth\r\n\r\n"
    "MRCP/2.0 85 STOP 9\r\nChannel-Identifier:7f3a@speechsynth\r\nActive-Request-Id-List:7\r\n\r\n"
    "MRCP/2.0 107 SPEAK 10\r\nChannel-Identifier:7f3a@speechsynth\r\n"
    "Content-Type:text/plain\r\nContent-Length:2\r\n\r\nHo"
    "MRCP/2.0 61 PAUSE 11\r\nChannel-Identifier:7f3a@speechsynth\r\n\r\n";
  open_channel(&synthesizer, "7f3a@speechsynth", "speaks", FETCH_TIMEOUT);
  if (!comes(&synthesizer, line)) return 0;
  request_ended(&synthesizer, 7, KLARVESIMO_CAUSE_NORMAL, 0); /* which the STOP has ended */
  request_ended(&synthesizer, 8, KLARVESIMO_CAUSE_NORMAL, 0); /* paused: refused, and kept */
  if (!comes(&synthesizer, "MRCP/2.0 62 RESUME 12\r\nChannel-Identifier:7f3a@speechsynth\r\n\r\n")) return 0;
  show_requests(&synthesizer);
  if (comes(&synthesizer, "GET / HTTP/1.1\r\n")) return 0;
  show_requests(&synthesizer); /* a closed line ends no prompt */
  return 1;
}

static int play_recognizer(void) {
  static const char line[] =
    "MRCP/2.0 149 RECOGNIZE 1\r\nChannel-Identifier:7f3a@speechrecog\r\nConfidence-Threshold:0.8\r\n"
    "Content-Type:text/uri-list\r\nContent-Length:11\r\n\r\nbuiltin:yes"
    "MRCP/2.0 149 RECOGNIZE 2\r\nChannel-Identifier:7f3a@speechrecog\r\nConfidence-Threshold:0.8\r\n"
    "Content-Type:text/uri-list\r\nContent-Length:11\r\n\r\nbuiltin:yes"
    "MRCP/2.0 123 RECOGNIZE 3\r\nChannel-Identifier:7f3a@speechrecog\r\n"
    "Content-Type:text/uri-list\r\nContent-Length:11\r\n\r\nbuiltin:yes"
    "MRCP/2.0 73 START-INPUT-TIMERS 4\r\nChannel-Identifier:7f3a@speechrecog\r\n\r\n";
  open_channel(&recognizer, "7f3a@speechrecog", "recognizes", NO_INPUT_TIMEOUT);
  if (!comes(&recognizer, line)) return 0;
  request_ended(&recognizer, 1, KLARVESIMO_RECOGNITION_SUCCESS, 0.93f); /* above its threshold */
  request_ended(&recognizer, 2, KLARVESIMO_RECOGNITION_SUCCESS, NAN);   /* refused, and nothing has changed */
  request_ended(&recognizer, 2, KLARVESIMO_RECOGNITION_SUCCESS, 0.62f); /* no match, so 3 is cancelled */
  show_requests(&recognizer);
  return 1;
}

/* on the recognizer's channel, as that was left */
static int play_settings(void) {
  static const char line[] =
    "MRCP/2.0 116 SET-PARAMS 5\r\nChannel-Identifier:7f3a@speechrecog\r\n"
    "No-Input-Timeout:15000\r\nConfidence-Threshold:0.6\r\n\r\n"
    "MRCP/2.0 87 SET-PARAMS 6\r\nChannel-Identifier:7f3a@speechrecog\r\nNo-Input-Timeout:800\r\n\r\n"
    "MRCP/2.0 86 SET-PARAMS 7\r\nChannel-Identifier:7f3a@speechrecog\r\nNo-Input-Timeout:-1\r\n\r\n";
  if (!comes(&recognizer, line)) return 0; /* the last one is answered 404, and makes no edition */
  go_back(&recognizer, 4);
  go_back(&recognizer, 2);
  return comes(&recognizer, "MRCP/2.0 65 GET-PARAMS 8\r\nChannel-Identifier:7f3a@speechrecog\r\n\r\n");
}

int main(void) { return play_synthesizer() && play_recognizer() && play_settings() ? 0 : 1; }
