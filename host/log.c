#define _POSIX_C_SOURCE 200809L
#include "log.h"

#include <errno.h>
#include <inttypes.h>
#include <poll.h>
#include <stdarg.h>
#include <stdio.h>
#include <string.h>
#include <time.h>
#include <unistd.h>

#include "readable.h"

/* no longer than what a pipe that can be written to takes without waiting */
enum { LONGEST_LOG_LINE = 4096, PATIENCE = 500, LAST_PATIENCE = 1000 };

static const char CUT[] = " ...\n";
static char line[LONGEST_LOG_LINE];
static size_t length;
static uint64_t lost; /* lines since the reader last took one */
static int patience = PATIENCE; /* milliseconds; 0 after it was for nothing */

void log_last_words(void) { patience = LAST_PATIENCE; }

static void add_listed(const char *format, va_list listed) {
  size_t room = sizeof line - length;
  int added = vsnprintf(line + length, room, format, listed);
  if (added > 0) length += (size_t)added < room ? (size_t)added : room - 1;
}

void log_add(const char *format, ...) {
  va_list listed;
  va_start(listed, format);
  add_listed(format, listed);
  va_end(listed);
}

void log_begin(void) {
  struct timespec now;
  struct tm parts;
  clock_gettime(CLOCK_REALTIME, &now);
  gmtime_r(&now.tv_sec, &parts);
  length = strftime(line, sizeof line, "%Y-%m-%dT%H:%M:%S", &parts);
  log_add(".%03ldZ board: ", now.tv_nsec / 1000000);
  if (lost > 0) log_add("(%" PRIu64 " lines before this one were lost, since nobody took them) ", lost);
}

void log_bytes(const uint8_t *bytes, size_t count) {
  for (size_t i = 0; i < count; i++) log_add("%s", readable(bytes[i]));
}

/* Whether a line can be written without waiting any longer than this. A reader that is gone shows at the writing. */
static int takes(int wait) {
  struct pollfd on = {.fd = STDERR_FILENO, .events = POLLOUT};
  int ready;
  do ready = poll(&on, 1, wait);
  while (ready < 0 && errno == EINTR);
  return ready > 0 && (on.revents & POLLOUT);
}

void log_end(void) {
  if (length + 1 < sizeof line)
    line[length++] = '\n';
  else
    memcpy(line + (length = sizeof line) - strlen(CUT), CUT, strlen(CUT));
  if (takes(patience) && write(STDERR_FILENO, line, length) == (ssize_t)length) {
    lost = 0;
    patience = PATIENCE;
  } else {
    lost++;
    patience = 0;
  }
}

void log_line(const char *format, ...) {
  va_list listed;
  log_begin();
  va_start(listed, format);
  add_listed(format, listed);
  va_end(listed);
  log_end();
}
