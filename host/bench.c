/* bench CASE COUNT: makes COUNT calls of one case, for a tool that counts instructions. The cases are those of the second program's `bench`.
 * bench CASE stack: the bytes of stack that one such call takes.
 * bench RUN-NN-digits COUNT: calls that end behind a run of NN digits; RUN-NN-others: the same with letters in their
 * place, so that they end in front of them. RUN is id, a request-id; length, a stated length; or content, a
 * Content-Length.
 * bench channel: the bytes of a channel. */
#include <inttypes.h>
#include <stdio.h>
#include <stdlib.h>
#include <string.h>

#include "../include/klarvesimo.h"
#include "stack.h"
#include "usage.h"
#include "writing.h"

#define CHANNEL_NAME "7f3a@speechsynth"
#define RECOGNIZER_NAME "7f3a@speechrecog"
#define LONGEST_RECOGNIZER_NAME "0123456789abcdef0123456789abcdef@speechrecog"

enum { MOST = 20000, ALL = KLARVESIMO_CHANNEL * sizeof(uint64_t) };

static uint8_t message[MOST], out[KLARVESIMO_LONGEST_REPORT];
static size_t length;
static const char *name = CHANNEL_NAME; /* of the channel that is prepared */
static uint64_t prepared[KLARVESIMO_CHANNEL]; /* the channel as it is before each call */

/* what a call is lent and gives: in no function's frame, so that the stack which is measured is the library's own */
static uint64_t channel[KLARVESIMO_CHANNEL], numbers[KLARVESIMO_MOST], counts[KLARVESIMO_COUNTS];
static uint32_t ids[KLARVESIMO_MOST_HELD], number;

/* a message that has come to its text, filled to `size` bytes by its body */
static void message_is(const char *text, size_t size) {
  length = strlen(text);
  memcpy(message, text, length);
  if (size > length) memset(message + length, 'H', size - length), length = size;
}

/* the SPEAK of T8 with further fields; size and length of the body as they are written */
static void speak_of(const char *fields, const char *size, const char *body) {
  char text[1000];
  snprintf(text, sizeof text,
           "MRCP/2.0 %s SPEAK 7\r\nChannel-Identifier:%s\r\n"
           "Content-Type:text/plain\r\n%sContent-Length:%s\r\n\r\n",
           size, name, fields, body);
  message_is(text, (size_t)atol(size));
}

/* a request with what follows its id and the stated length that fits */
static void request(const char *method, unsigned id, const char *rest) {
  char text[1000];
  size_t size = 0;
  for (size_t stated = 0; stated == 0 || size != stated;) {
    stated = size;
    size = (size_t)snprintf(text, sizeof text, "MRCP/2.0 %zu %s %u\r\nChannel-Identifier:%s\r\n%s", stated, method, id,
                            name, rest);
  }
  message_is(text, size);
}

static void speak(unsigned id) { request("SPEAK", id, "Content-Type:text/plain\r\nContent-Length:2\r\n\r\nHi"); }

static void recognize(unsigned id) {
  request("RECOGNIZE", id,
          "Content-Type:application/srgs+xml\r\nConfidence-Threshold:0.5\r\nContent-Length:2\r\n\r\nHi");
}

/* SET-PARAMS of all settings of the channel's kind */
static void set_all(unsigned id) {
  int recognizes = strcmp(name, RECOGNIZER_NAME) == 0;
  request("SET-PARAMS", id,
          recognizes ? "No-Input-Timeout:5000\r\nConfidence-Threshold:0.5\r\nSensitivity-Level:0.75\r\n\r\n"
                     : "Kill-On-Barge-In:false\r\nFetch-Timeout:2500\r\n\r\n");
}

/* one call each */
static void frames(void) { number = klarvesimo_frame(message, length, numbers, KLARVESIMO_FRAME_NUMBERS); }
static void reads(void) { number = klarvesimo_read(message, length, numbers, KLARVESIMO_MOST, counts); }
static void asks_whose(void) { number = klarvesimo_whose(message, length, numbers); }
static void opens(void) { number = klarvesimo_open(channel, (const uint8_t *)CHANNEL_NAME, sizeof CHANNEL_NAME - 1); }
static void handles(void) { number = klarvesimo_handle(channel, message, length, out, sizeof out, counts); }
static void reports(void) { number = klarvesimo_report(channel, KLARVESIMO_CAUSE_NORMAL, 0, out, sizeof out, counts); }
static void reports_failure(void) {
  uint32_t cause = KLARVESIMO_RECOGNITION_GRAMMAR_COMPILATION_FAILURE; /* the longest one's */
  number = klarvesimo_report(channel, cause, 0, out, sizeof out, counts);
}
static void goes_back(void) { number = klarvesimo_back(channel, 2); }
static void asks_held(void) { number = klarvesimo_held(channel, numbers, KLARVESIMO_MOST_HELD, counts); }
static void responds(void) {
  static const uint8_t of[] = CHANNEL_NAME;
  number = klarvesimo_write_response(of, sizeof of - 1, 7, 200, KLARVESIMO_IN_PROGRESS, ids, 0, out, sizeof out,
                                     counts);
}
static void responds_longest(void) {
  static const uint8_t of[] = "0123456789abcdef0123456789abcdef@speechsynth";
  number = klarvesimo_write_response(of, sizeof of - 1, UINT32_MAX, 200, KLARVESIMO_COMPLETE, ids,
                                     KLARVESIMO_MOST_HELD, out, sizeof out, counts);
}

static void refused(void) {
  fprintf(stderr, "bench: a call is refused with %" PRIu32 "\n", number);
  exit(1);
}

/* the call, which must be handled */
static inline void made(void (*call)(void)) {
  call();
  if (number != 0) refused();
}

/* a step of the preparation */
static void prepare_by(void (*call)(void)) {
  memcpy(channel, prepared, ALL);
  made(call);
  memcpy(prepared, channel, ALL);
}

/* a channel with this many outstanding, from `first` on */
static void prepare_from(unsigned first, unsigned outstanding) {
  prepare_by(opens);
  for (unsigned i = 0; i < outstanding; i++) speak(first + i), prepare_by(handles);
}

static void prepare(unsigned outstanding) { prepare_from(1, outstanding); }

/* a recognizer with this many outstanding, from `first` on */
static void prepare_recognizer(const char *named, unsigned first, unsigned outstanding) {
  name = named;
  number = klarvesimo_open(prepared, (const uint8_t *)name, strlen(name));
  for (unsigned i = 0; i < outstanding; i++) recognize(first + i), prepare_by(handles);
}

/* a channel with one outstanding after so many calls: a SPEAK, and then SPEAK, CONTROL and a report in turn. The ids have one width. */
static void prepare_after(unsigned calls) {
  prepare(0);
  for (unsigned call = 0; call < calls; call++) {
    if (call % 3 == 0 && call > 0)
      prepare_by(reports);
    else if (call % 3 == 2)
      request("CONTROL", 1000000 + call, "\r\n"), prepare_by(handles);
    else
      speak(1000000 + call), prepare_by(handles);
  }
  speak(2000000);
}

static const char SEVENTEEN[] =
    "Vendor-Specific-A:a\r\nVendor-Specific-B:b\r\nVendor-Specific-C:c\r\nVendor-Specific-D:d\r\nVendor-Specific-E:e\r\nVendor-Specific-F:f\r\n"
    "Vendor-Specific-G:g\r\nVendor-Specific-H:h\r\nVendor-Specific-I:i\r\nVendor-Specific-J:j\r\nVendor-Specific-K:k\r\nVendor-Specific-L:l\r\n"
    "Vendor-Specific-M:m\r\nVendor-Specific-N:n\r\nVendor-Specific-O:o\r\nVendor-Specific-P:p\r\nVendor-Specific-Q:q\r\n";

static void frame_31(void) { message_is("MRCP/02.00 0000000000000000031 ", 0); }
static void frame_16384(void) { message_is("MRCP/2.0 16384 SPEAK 7\r\n\r\n", 16384); }
static void read_3(void) { speak_of("", "106", "2"); }
static void read_folds(void) { /* the same, each value in a second line */
  message_is("MRCP/2.0 115 SPEAK 7\r\nChannel-Identifier:\r\n " CHANNEL_NAME "\r\n"
             "Content-Type:\r\n text/plain\r\nContent-Length:\r\n 2\r\n\r\nHi", 0);
}
static void read_20(void) { speak_of(SEVENTEEN, "463", "2"); }
static void read_2(void) { speak_of("", "00112", "00002"); }
static void read_16000(void) { speak_of("", "16110", "16000"); }
static void whose(void) { read_3(), length = 40; } /* its start line, and not all of its fields */
static void nothing(void) {}
static void longest_ids(void) {
  for (uint32_t i = 0; i < KLARVESIMO_MOST_HELD; i++) ids[i] = UINT32_MAX - KLARVESIMO_MOST_HELD + i;
}
static void call_speak(void) { prepare(0), read_3(); }
static void call_folds(void) { prepare(0), read_folds(); }
static void call_stop(void) { prepare(16), request("STOP", 17, "\r\n"); }
/* STOP that lists 16, last first */
static void stop_list(unsigned first) {
  char fields[300] = "Active-Request-Id-List:";
  size_t at = strlen(fields);
  for (unsigned i = 16; i > 0; i--)
    at += (size_t)snprintf(fields + at, sizeof fields - at, "%u%s", first + i - 1, i > 1 ? "," : "\r\n\r\n");
  prepare_from(first, 16);
  request("STOP", first + 16, fields);
}
static void call_stop_list(void) { stop_list(1); }
static void call_stop_list_of_ten(void) { stop_list(4000000000); }
static void call_recognize(void) { prepare_recognizer(RECOGNIZER_NAME, 0, 0), recognize(7); }
static void call_stop_8(void) { prepare_recognizer(RECOGNIZER_NAME, 1, 8), request("STOP", 9, "\r\n"); }
static void eight_longest(void) { prepare_recognizer(LONGEST_RECOGNIZER_NAME, UINT32_MAX - 8, 8); }
static void call_set(void) { prepare(0), set_all(7); }
static void call_set_r(void) { prepare_recognizer(RECOGNIZER_NAME, 0, 0), set_all(7); }
static void call_get(void) { call_set(), prepare_by(handles), request("GET-PARAMS", 8, "\r\n"); }
static void call_get_r(void) { call_set_r(), prepare_by(handles), request("GET-PARAMS", 8, "\r\n"); }
static void four_editions(void) {
  prepare(0);
  for (unsigned id = 10; id < 14; id++) set_all(id), prepare_by(handles);
}
static void call_speak_4(void) { four_editions(), speak(14); }
static void one_outstanding(void) { prepare(1); }
static void sixteen_outstanding(void) { prepare(16); }
static void call_after_1(void) { prepare_after(1); }
static void call_after_1000(void) { prepare_after(1000); }

/* the sum of the lengths, ids or counts that so many calls give; where the channel changes, each on a copy of the one that
 * was prepared */
static inline uint64_t sum_of(void (*call)(void), const uint64_t *gives, int changes, long count) {
  uint64_t sum = 0;
  for (long i = 0; i < count; i++) {
    if (changes) memcpy(channel, prepared, ALL);
    made(call);
    sum += *gives;
  }
  return sum;
}

/* the sum of the numbers that so many calls give */
static inline uint64_t numbers_of(void (*call)(void), long count) {
  uint64_t sum = 0;
  for (long i = 0; i < count; i++) call(), sum += number;
  return sum;
}

/* a loop for each, so that what is counted beside the call is little */
static uint64_t run_frames(long count) { return sum_of(frames, numbers + KLARVESIMO_FRAME_LENGTH, 0, count); }
static uint64_t run_reads(long count) { return sum_of(reads, counts, 0, count); }
static uint64_t run_asks_whose(long count) { return sum_of(asks_whose, numbers, 0, count); }
static uint64_t run_responds(long count) { return sum_of(responds, counts, 0, count); }
static uint64_t run_responds_longest(long count) { return sum_of(responds_longest, counts, 0, count); }
static uint64_t run_opens(long count) { return sum_of(opens, channel + KLARVESIMO_CHANNEL_SIZE, 0, count); }
static uint64_t run_handles(long count) { return sum_of(handles, counts + KLARVESIMO_WRITTEN, 1, count); }
static uint64_t run_reports(long count) { return sum_of(reports, counts, 1, count); }
static uint64_t run_reports_failure(long count) { return sum_of(reports_failure, counts, 1, count); }
static uint64_t run_goes_back(long count) {
  return sum_of(goes_back, channel + KLARVESIMO_CHANNEL_EDITIONS, 1, count);
}
static uint64_t run_asks_held(long count) { return sum_of(asks_held, counts, 0, count); }
static uint64_t run_frame_numbers(long count) { return numbers_of(frames, count); }
static uint64_t run_read_numbers(long count) { return numbers_of(reads, count); }

static const struct bench {
  const char *name;
  void (*make)(void);
  void (*call)(void);
  uint64_t (*run)(long count);
} cases[] = {
    {"frame-31", frame_31, frames, run_frames},
    {"frame-16384", frame_16384, frames, run_frames},
    {"read-3", read_3, reads, run_reads},
    {"read-folds", read_folds, reads, run_reads},
    {"read-20", read_20, reads, run_reads},
    {"read-2", read_2, reads, run_reads},
    {"read-16000", read_16000, reads, run_reads},
    {"whose", whose, asks_whose, run_asks_whose},
    {"write-t8", nothing, responds, run_responds},
    {"write-305", longest_ids, responds_longest, run_responds_longest},
    {"call-open", nothing, opens, run_opens},
    {"call-speak", call_speak, handles, run_handles},
    {"call-folds", call_folds, handles, run_handles},
    {"call-stop-16", call_stop, handles, run_handles},
    {"call-stop-list-16", call_stop_list, handles, run_handles},
    {"call-stop-list-10", call_stop_list_of_ten, handles, run_handles},
    {"call-report-1", one_outstanding, reports, run_reports},
    {"call-report-16", sixteen_outstanding, reports, run_reports},
    {"call-held-16", sixteen_outstanding, asks_held, run_asks_held},
    {"call-recognize", call_recognize, handles, run_handles},
    {"call-stop-8", call_stop_8, handles, run_handles},
    {"call-report-8", eight_longest, reports_failure, run_reports_failure},
    {"call-set-params", call_set, handles, run_handles},
    {"call-set-params-r", call_set_r, handles, run_handles},
    {"call-get-params", call_get, handles, run_handles},
    {"call-get-params-r", call_get_r, handles, run_handles},
    {"call-speak-4", call_speak_4, handles, run_handles},
    {"call-back", four_editions, goes_back, run_goes_back},
    {"call-after-0001", call_after_1, handles, run_handles},
    {"call-after-1000", call_after_1000, handles, run_handles},
};

/* a message of 100 bytes with a run of digits in it, or of letters, and what follows */
static const struct run {
  const char *name, *front, *behind;
  uint64_t (*run)(long count);
} runs[] = {
    {"id", "MRCP/2.0 100 SPEAK ", "x\r\n\r\n", run_read_numbers},
    {"length", "MRCP/2.0 ", "x", run_frame_numbers},
    {"content", "MRCP/2.0 100 SPEAK 7\r\nContent-Length:", "\r\n\r\n", run_read_numbers},
};

/* the run of a case, whose message is made; NULL for another case */
static const struct run *run_of(const char *name) {
  static const char digits[] = "1234567890123456789", others[] = "xxxxxxxxxxxxxxxxxxx";
  char kind[8], what[7], text[101];
  int many;
  if (sscanf(name, "%7[a-z]-%2d-%6s", kind, &many, what) != 3 || many < 1 || many > 19) return NULL;
  for (const struct run *r = runs; r < runs + sizeof runs / sizeof *runs; r++)
    if (strcmp(kind, r->name) == 0) {
      snprintf(text, sizeof text, "%s%.*s%s", r->front, many, what[0] == 'd' ? digits : others, r->behind);
      message_is(text, 100);
      return r;
    }
  return NULL;
}

static const struct bench *case_of(const char *name) {
  for (size_t i = 0; i < sizeof cases / sizeof *cases; i++)
    if (strcmp(name, cases[i].name) == 0) return &cases[i];
  return NULL;
}

static char usage[800]; /* with the cases in it */

static void make_usage(void) {
  static const char words[] =
      "usage: bench CASE COUNT, bench CASE stack, or bench channel, where CASE is RUN-NN-digits or RUN-NN-others, "
      "RUN being id, length or content and NN 01 to 19, or";
  size_t at = (size_t)snprintf(usage, sizeof usage, "%s", words);
  for (size_t i = 0; i < sizeof cases / sizeof *cases && at < sizeof usage; i++)
    at += (size_t)snprintf(usage + at, sizeof usage - at, " %s", cases[i].name);
  if (at < sizeof usage) snprintf(usage + at, sizeof usage - at, "\n");
}

static int wrong_words(void) {
  fputs(usage, stderr);
  return 2;
}

int main(int words, char **word) {
  make_usage();
  usage_if_asked(words, word, usage);
  if (words == 2 && strcmp(word[1], "channel") == 0) return printf("%zu\n", (size_t)ALL) < 0;
  if (words != 3) return wrong_words();
  const struct run *r = run_of(word[1]);
  if (r) return printf("%" PRIu64 "\n", r->run(atol(word[2]))) < 0;
  const struct bench *b = case_of(word[1]);
  if (!b) return wrong_words();
  b->make();
  if (strcmp(word[2], "stack") != 0) return printf("%" PRIu64 "\n", b->run(atol(word[2]))) < 0;
  b->run(1); /* so that what the loader does at a first call is done */
  memcpy(channel, prepared, ALL);
  return printf("%zu\n", stack_taken(b->call)) < 0;
}
