/* board [--name NAME] [--prompt MS] [--silence MS] PORT: serves one channel, a synthesizer's or a recognizer's as its
 * name says, on a port of 127.0.0.1, one client after the other; PORT 0 takes a free one.
 *
 * The address is the one line on standard output; what else there is to say is the log, on standard error. The
 * speech engine is played: with --prompt a prompt ends normally after so many milliseconds of speaking, and a
 * recognition with a success of score 1; and a line `report CAUSE [ID]` on standard input ends the active one, on a
 * recognizer `report CAUSE SCORE [ID]`. A report for which no client is there waits for the next. A line `back N` goes
 * back to the edition N of the settings. SIGTERM, SIGINT or SIGHUP ends the board: it says which requests were still
 * held, and which messages no client has got for certain. Status 2 for words that it cannot read, 1 where the system
 * refuses something. */
#define _POSIX_C_SOURCE 200809L
#include <arpa/inet.h>
#include <errno.h>
#include <fcntl.h>
#include <inttypes.h>
#include <netinet/in.h>
#include <poll.h>
#include <signal.h>
#include <stdio.h>
#include <stdlib.h>
#include <string.h>
#include <sys/socket.h>
#include <unistd.h>

#include "channel.h"
#include "connection.h"
#include "engine.h"
#include "log.h"
#include "now.h"
#include "number.h"
#include "readable.h"
#include "usage.h"

#define USAGE "usage: board [--name NAME] [--prompt MS] [--silence MS] PORT\n"

enum { LONGEST_PROMPT = 86400000, LONGEST_SILENCE = 86400000, KERNEL_QUEUE = 16384, WAITING_CLIENTS = 8 };
/* milliseconds: a client's silence, by default; and the listener's rest, where the system has no means */
enum { SILENCE = 300000, REST = 250 };

static const char HELP[] = USAGE
    "  --name NAME    the channel's name: 7f3a@speechsynth; a recognizer's ends in @speechrecog\n"
    "  --prompt MS    how long the played engine takes for a prompt or a recognition; without it only lines on\n"
    "                 standard input end one\n"
    "  --silence MS   a client that neither sends nor takes a byte for so long makes room for the next: 300000;\n"
    "                 0 is for ever\n"
    "  PORT           of 127.0.0.1; 0 takes a free one\n"
    "A line `report CAUSE [ID]` on standard input is the engine's report, of the prompt that speaks or of this one;\n"
    "on a recognizer `report CAUSE SCORE [ID]`, such as `report 0 0.83`.\n"
    "A line `back N` goes back to the edition N of the settings, 1 the newest.\n";

static uint64_t channel[KLARVESIMO_CHANNEL];
static struct connection client = {.socket = -1, .silence = SILENCE};
static struct engine engine = {.takes = BY_LINES_ALONE};
static int listener, signals[2];
static int64_t rests; /* until when no client is accepted; 0 where nothing was in the way of the last one */

static void fail(const char *what) {
  fprintf(stderr, "board: %s: %s\n", what, strerror(errno));
  exit(1);
}

static void wrong_word(const char *what, const char *why) {
  fprintf(stderr, "board: %s: %s\n" USAGE, what, why);
  exit(2);
}

static uint64_t number_of(const char *what, const char *word, uint64_t most) {
  uint64_t value = 0;
  const char *wrong = number_read(word ? word : "", most, &value);
  if (wrong) wrong_word(what, wrong);
  return value;
}

/* Opens the channel and sets the engine, as the words after the program's name say: the port. */
static uint16_t begin(char **word) {
  const char *name = "7f3a@speechsynth";
  for (; *word && strncmp(*word, "--", 2) == 0; word++) {
    const char *option = *word++;
    if (strcmp(option, "--prompt") == 0)
      engine.takes = (int64_t)number_of("--prompt", *word, LONGEST_PROMPT);
    else if (strcmp(option, "--silence") == 0)
      client.silence = (int64_t)number_of("--silence", *word, LONGEST_SILENCE);
    else if (strcmp(option, "--name") == 0 && *word)
      name = *word;
    else
      wrong_word(option, "no such option, or nothing after it");
  }
  uint64_t port = number_of("PORT", *word, UINT16_MAX);
  if (word[1]) wrong_word(word[1], "a word too many");
  uint32_t number = klarvesimo_open(channel, (const uint8_t *)name, strlen(name));
  if (number) wrong_word(name, refusal_meaning(number));
  engine.recognizes = channel_recognizes(channel);
  return (uint16_t)port;
}

/* A small queue in the kernel as well: what a client has not taken is soon noticed. */
static void begin_listening(uint16_t port) {
  struct sockaddr_in address = {
      .sin_family = AF_INET, .sin_port = htons(port), .sin_addr.s_addr = htonl(INADDR_LOOPBACK)};
  socklen_t size = sizeof address;
  int yes = 1, queue = KERNEL_QUEUE;
  listener = socket(AF_INET, SOCK_STREAM, 0);
  if (listener < 0) fail("a socket");
  setsockopt(listener, SOL_SOCKET, SO_REUSEADDR, &yes, sizeof yes);
  setsockopt(listener, SOL_SOCKET, SO_SNDBUF, &queue, sizeof queue); /* those accepted have it too */
  fcntl(listener, F_SETFL, O_NONBLOCK);
  if (bind(listener, (struct sockaddr *)&address, size) != 0) fail("the port");
  if (listen(listener, WAITING_CLIENTS) != 0) fail("the port");
  if (getsockname(listener, (struct sockaddr *)&address, &size) != 0) fail("the port");
  printf("board: 127.0.0.1:%u\n", (unsigned)ntohs(address.sin_port));
  if (fflush(stdout) != 0) fail("standard output");
}

/* the one thing that a handler may do: poll sees it */
static void on_signal(int number) {
  int before = errno;
  uint8_t byte = (uint8_t)number;
  if (write(signals[1], &byte, 1) < 0) byte = 0; /* full: one is enough */
  errno = before;
}

static void take_signal(int number, void (*handler)(int)) {
  struct sigaction action = {.sa_handler = handler};
  sigemptyset(&action.sa_mask);
  if (sigaction(number, &action, NULL) != 0) fail("signals");
}

/* What may not end or stop the board: a reader that is gone; and, in the background, a terminal that is read or
 * written. */
static void begin_signals(void) {
  struct sigaction hangup;
  if (pipe(signals) != 0) fail("a pipe");
  fcntl(signals[1], F_SETFL, O_NONBLOCK);
  take_signal(SIGTERM, on_signal);
  take_signal(SIGINT, on_signal);
  if (sigaction(SIGHUP, NULL, &hangup) != 0) fail("signals");
  if (hangup.sa_handler != SIG_IGN) take_signal(SIGHUP, on_signal); /* else it was started by nohup */
  take_signal(SIGPIPE, SIG_IGN);
  take_signal(SIGTTIN, SIG_IGN);
  take_signal(SIGTTOU, SIG_IGN);
}

/* A standard stream that was closed must not become a socket. */
static void begin_streams(void) {
  int fd;
  do fd = open("/dev/null", O_RDWR);
  while (fd >= 0 && fd <= STDERR_FILENO);
  if (fd < 0) fail("/dev/null");
  close(fd);
}

/* the report that is due, as the log calls it, and what becomes of it; but once where it waits */
static void say_report(const char *what) {
  if (engine.said) return;
  engine.said = 1;
  log_begin();
  log_add("report %" PRIu32, engine.cause);
  if (engine.about) log_add(" of %s %" PRIu64, engine_word(&engine), engine.reported);
  log_add(" %s", what);
  log_end();
}

static void say_report_refused(uint32_t number) {
  log_line("report %" PRIu32 " refused %" PRIu32 ", %s", engine.cause, number, refusal_meaning(number));
}

/* The report that is due: whether it was made, or never will be. One that comes late would end another request than
 * its own. */
static int reports(int64_t now) {
  if (engine_late(&engine)) {
    engine.said = 0;
    say_report("comes late: that is not the first one held");
    engine_forget(&engine);
    return 1;
  }
  uint32_t number = connection_report(&client, channel, engine.cause, engine.score, now);
  int paused = number == KLARVESIMO_NOT_SPEAKING && engine.has;
  if (number == KLARVESIMO_NO_ROOM || paused) {
    say_report(paused ? "waits, since that is paused" : "waits for a client");
    return 0;
  }
  if (number == 0)
    engine_reported(&engine);
  else
    say_report_refused(number), engine_forget(&engine);
  return 1;
}

static void go_back(uint32_t edition) {
  uint32_t number = klarvesimo_back(channel, edition);
  if (number)
    log_line("back %" PRIu32 " refused %" PRIu32 ", %s", edition, number, refusal_meaning(number));
  else
    log_line("back to edition %" PRIu32 " of the settings: %s", edition, edition_text(channel, 1));
}

/* What is to be done, by a line or the time: whether there may be more. */
static int acts(int64_t now) {
  uint32_t edition;
  int due = engine_due(&engine, now);
  if (!engine_asks(&engine, &edition)) return due && reports(now);
  go_back(edition);
  return 1;
}

static void speak(int64_t now) {
  do engine_follow(&engine, channel, now);
  while (acts(now));
}

/* The next client. What was due before it came it is told before its own messages are handled; but not where it has
 * left already. */
static void greet(int64_t now) {
  int came = connection_accept(&client, listener, now);
  if (came < 0 && rests == 0) log_line("no client can be accepted: %s; tried again until one is", strerror(errno));
  rests = came < 0 ? now + REST : 0;
  if (came <= 0) return;
  connection_receive(&client, now);
  if (!client.end) speak(now);
}

/* How long poll may wait. */
static int patience(int64_t now) {
  int wait = sooner(engine_wait(&engine, now), connection_wait(&client, now));
  return rests > now ? sooner(wait, until_ms(rests, now)) : wait;
}

/* Until a signal comes: its number. The client comes before the lines, so that a line tells of all that was sent
 * before it was written. And it is looked at in each round, so that one that has left is not sent an event. */
static int serve(void) {
  enum { SIGNALS, LISTENER, CLIENT, LINES, WATCHED };
  for (;;) {
    int64_t now = now_ms();
    struct pollfd on[WATCHED] = {
        [SIGNALS] = {.fd = signals[0], .events = POLLIN},
        [LISTENER] = {.fd = client.socket < 0 && rests <= now ? listener : -1, .events = POLLIN},
        [CLIENT] = connection_watch(&client),
        [LINES] = {.fd = engine_wants_lines(&engine) ? STDIN_FILENO : -1, .events = POLLIN},
    };
    if (poll(on, WATCHED, patience(now)) < 0) {
      if (errno != EINTR) fail("poll");
      continue;
    }
    uint8_t number;
    if (on[SIGNALS].revents && read(signals[0], &number, 1) == 1) return number;
    now = now_ms();
    if (on[LISTENER].revents) greet(now);
    connection_serve(&client, channel, now);
    if (on[LINES].revents) engine_read_lines(&engine);
    speak(now);
  }
}

static void end_connection(void) {
  int64_t now = now_ms();
  connection_close(&client, "the board ends", now);
  for (; client.socket >= 0; now = now_ms()) {
    poll(NULL, 0, connection_wait(&client, now));
    connection_serve(&client, channel, now_ms());
  }
}

/* what the channel holds, for the log: 0, or the library's refusal */
static uint32_t say_held(void) {
  uint64_t ids[KLARVESIMO_MOST_HELD], count;
  uint32_t number = klarvesimo_held(channel, ids, KLARVESIMO_MOST_HELD, &count);
  if (number) log_add("refused %" PRIu32 ", %s", number, refusal_meaning(number));
  if (!number && count == 0) log_add("none");
  for (uint64_t i = 0; i < count; i++) log_add("%s%" PRIu64, i > 0 ? "," : "", ids[i]);
  return number;
}

static int end(int by) {
  log_last_words();
  end_connection();
  engine.said = 0;
  if (engine.due) say_report("was still waiting");
  struct names waiting = outbox_waiting(&client.out);
  log_begin();
  log_add("ended by %s, held: ", by == SIGINT ? "SIGINT" : by == SIGHUP ? "SIGHUP" : "SIGTERM");
  uint32_t number = say_held();
  log_add("; not handed over: ");
  names_say(&waiting);
  log_add("; not known to be delivered: ");
  names_say(&client.out.doubtful);
  log_end();
  return number ? 1 : 0;
}

int main(int words, char **word) {
  usage_if_asked(words, word, HELP);
  begin_streams();
  uint16_t port = begin(words > 0 ? word + 1 : word);
  begin_signals();
  begin_listening(port);
  return end(serve());
}
