/* Klarvesimo: the server end of one MRCPv2 channel for a speech synthesizer or a speech recognizer (RFC 6787), proved
 * for all inputs. The channel's name says which of the two it is.
 *
 * Each call hands over numbers and buffers and gets numbers back. The channel is an array that the caller keeps; else
 * nothing is kept between calls, nothing is allocated, and no byte outside what is lent is read or written. Every call
 * returns 0, or the number of a refusal: their names come first below.
 *
 * A pointer must be valid for the count beside it; where the count is 0 it is not followed. Lent buffers must not
 * overlap.
 *
 * A conversation, with `lent` bytes of the client's at `bytes`:
 *
 *    uint64_t channel[KLARVESIMO_CHANNEL], counts[KLARVESIMO_COUNTS], written, ids[KLARVESIMO_MOST_HELD], held;
 *    uint8_t out[KLARVESIMO_LONGEST_REPORT];
 *    if (klarvesimo_open(channel, name, length) != 0) return;            // KLARVESIMO_MALFORMED_NAME
 *    do {                                                                // each message that has come whole
 *      number = klarvesimo_handle(channel, bytes, lent, out, sizeof out, counts);
 *      send_to_client(out, counts[KLARVESIMO_WRITTEN]);                  // nothing where it was refused
 *      bytes += counts[KLARVESIMO_CONSUMED], lent -= counts[KLARVESIMO_CONSUMED];
 *    } while (counts[KLARVESIMO_CONSUMED] > 0);
 *    if (number != KLARVESIMO_MORE_BYTES) close_connection();            // else wait for them
 *    if (engine_has_ended &&                                             // its cause; and a recognizer's score
 *        klarvesimo_report(channel, cause, score, out, sizeof out, &written) == 0)
 *      send_to_client(out, written);
 *    if (klarvesimo_held(channel, ids, KLARVESIMO_MOST_HELD, &held) == 0)  // the requests that are active or waiting
 *      for (uint64_t i = 0; i < held; i++) show_request(ids[i]);
 *
 * What the library needs, on each of the four targets that it is built for:
 *
 *  - its own archive: machine code for one target is in each. Lengths and counts have 64 bits on all of them, so this
 *    header is right for all;
 *
 *      x86-64 Linux             called as the System V ABI says; uses the SSE2 registers, which every x86-64 has
 *      aarch64-linux-gnu        ARMv8-A, called as AAPCS64 says; uses the SIMD registers, which every ARMv8-A has
 *      arm-linux-gnueabihf      ARMv7-A with VFPv3-D16, called as AAPCS with VFP registers says; uses these too
 *      thumbv7em-none-eabihf    Cortex-M4F and later, no operating system; likewise, and the floating-point unit is
 *                               switched on before the first call
 *
 *  - these functions: the archive leaves no other name undefined. libgcc has __aeabi_uldivmod, and newlib the AEABI
 *    forms of memcpy, memmove and memset;
 *
 *      x86-64 Linux             memcpy memmove memset
 *      aarch64-linux-gnu        memcpy memset
 *      arm-linux-gnueabihf      memcpy memmove memset
 *      thumbv7em-none-eabihf    __aeabi_memcpy __aeabi_memcpy4 __aeabi_memcpy8 __aeabi_memmove __aeabi_memclr
 *                               __aeabi_memclr4 __aeabi_memclr8 __aeabi_memset4 __aeabi_uldivmod
 *
 *  - a stack that is aligned at each call as the ABI says: to 16 bytes, on 32 bits to 8. C compilers see to it;
 *    assembly, and whoever sets up a thread's stack, must;
 *  - arrays of uint64_t aligned to 8 bytes, as C compilers do. Bytes may begin anywhere: on ARM they are also loaded by
 *    words that are not aligned, so the processor must take that: as a Cortex-M4 does unless CCR.UNALIGN_TRP is set,
 *    and a Cortex-A in normal memory unless SCTLR.A is set;
 *  - at most 6 KB of stack. No call takes more of it, whatever is lent, than 5,792 bytes on x86-64, 5,840 on aarch64,
 *    4,080 on arm, 4,048 on thumbv7em; what the functions named above take for themselves comes on top of that;
 *  - on x86-64 the red zone of that ABI: up to 128 bytes below the stack pointer are in use, so what interrupts a call
 *    and runs on its stack must leave them as they are. There is none on ARM;
 *  - floating-point numbers as C begins with them: rounded to nearest, and subnormal ones taken as they are. So it is
 *    after reset; what changes MXCSR, FPCR or FPSCR, as a program linked with -ffast-math may, must put it back;
 *  - no heap, and no memory of its own: nothing in the archive can be written. */
#ifndef KLARVESIMO_H
#define KLARVESIMO_H

#include <stdint.h>

#ifdef __cplusplus
extern "C" {
#endif

/* The version of this header, and of the library that is installed with it. */
#define KLARVESIMO_VERSION "0.1.0"
#define KLARVESIMO_VERSION_MAJOR 0
#define KLARVESIMO_VERSION_MINOR 1
#define KLARVESIMO_VERSION_PATCH 0

/* What a call returns.
 *
 * Where two hold at once, 21 comes before all others, 1 to 6 before 7, 9 before 11, 11 before 8, and 8 before 7. A
 * refused call leaves the lent output and, but for klarvesimo_open, the channel as they were; the counts that it sets
 * say what was consumed, which is the stated length after 5 and 6 and else 0, and that nothing was written. After 2, 3
 * or 4 the same bytes give the same number again, whatever follows them: close the connection. */
enum {
  KLARVESIMO_HANDLED = 0,         /* no refusal */
  KLARVESIMO_MORE_BYTES = 1,      /* more bytes are needed */
  KLARVESIMO_NO_MESSAGE = 2,      /* the bytes can't begin a message */
  KLARVESIMO_TOO_LONG = 3,        /* the stated length is above 16,384 */
  KLARVESIMO_TOO_SHORT = 4,       /* the stated length is below the opening's own length */
  KLARVESIMO_MALFORMED_LINE = 5,  /* framed, but the start line is malformed */
  KLARVESIMO_NO_REQUEST = 6,      /* framed, but a response or an event, no request */
  KLARVESIMO_NO_ROOM = 7,         /* the exact answer, or all events of a report together, are longer than the lent
                                   * output */
  KLARVESIMO_NOT_SPEAKING = 8,    /* an engine report while nothing is speaking, or being recognized */
  KLARVESIMO_NO_CAUSE = 9,        /* an engine cause above 7, on a recognizer above 15 */
  KLARVESIMO_MALFORMED_NAME = 10, /* the channel name is malformed */
  KLARVESIMO_NO_SCORE = 11,       /* on a recognizer, an engine score that is no number */
  KLARVESIMO_NOT_KEPT = 12,       /* no edition of the settings is kept under that number */
  KLARVESIMO_NOT_SOUND = 21       /* the channel handed in is not sound */
};

/* How long things are at most, and how many. */
enum {
  KLARVESIMO_LONGEST_OPENING = 31,
  KLARVESIMO_LONGEST_MESSAGE = 16384,
  KLARVESIMO_LONGEST_ANSWER = 305,  /* a response, and what a report writes on a synthesizer */
  KLARVESIMO_LONGEST_REPORT = 1250, /* what a report writes on either kind: on a recognizer up to eight events */
  KLARVESIMO_LONGEST_NAME = 44,     /* a channel's */
  KLARVESIMO_MOST_HELD = 16,        /* requests outstanding: SPEAKs on a synthesizer */
  KLARVESIMO_MOST_RECOGNITIONS = 8, /* RECOGNIZEs, on a recognizer */
  KLARVESIMO_MOST_EDITIONS = 4      /* editions of the settings that are kept */
};

/* Where does the message at the front of `bytes` end? It looks at 31 bytes at most. On 0 these numbers are in out: */
enum {
  KLARVESIMO_FRAME_MAJOR,   /* the version, as numbers */
  KLARVESIMO_FRAME_MINOR,
  KLARVESIMO_FRAME_OPENING, /* the length of the opening, 11 to 31 */
  KLARVESIMO_FRAME_LENGTH,  /* the length of the whole message, as stated */
  KLARVESIMO_FRAME_NUMBERS  /* how many numbers there are: a shorter out gets 7 */
};
/* 0, 1 to 4, or 7. */
uint32_t klarvesimo_frame(const uint8_t *bytes, uint64_t count, uint64_t *out, uint64_t room);

/* What does the message at the front of `bytes` say? Requests, responses and events alike. `consumed` gets the stated
 * length on 0 and 5, else 0. On 0 these numbers are in out; a place is the index of a byte of `bytes`, inside the
 * message: */
enum {
  KLARVESIMO_KIND,         /* KLARVESIMO_REQUEST, KLARVESIMO_RESPONSE or KLARVESIMO_EVENT */
  KLARVESIMO_MAJOR,        /* the version, as numbers; any version is read */
  KLARVESIMO_MINOR,
  KLARVESIMO_NAME,         /* the place of the method's or event's name, and its length; a response: 0 and 0 */
  KLARVESIMO_NAME_LENGTH,
  KLARVESIMO_ID,           /* the request-id */
  KLARVESIMO_STATUS,       /* a response's status code, 0 to 999; else 0 */
  KLARVESIMO_STATE,        /* KLARVESIMO_PENDING, KLARVESIMO_IN_PROGRESS or KLARVESIMO_COMPLETE; a request: 0 */
  KLARVESIMO_GOOD,         /* 1; or 0 for bad fields, and then all numbers below are 0 */
  KLARVESIMO_FIELDS,       /* how many fields there are, 0 to 32 */
  KLARVESIMO_BODY,         /* the place of the body, and its length */
  KLARVESIMO_BODY_LENGTH,
  KLARVESIMO_KNOWN,        /* which names came: the sum of KLARVESIMO_HAS_ and the name, for each name once */
  KLARVESIMO_HEAD = 16     /* the fields' numbers begin here; those between are 0 */
};
enum { KLARVESIMO_REQUEST = 1, KLARVESIMO_RESPONSE = 2, KLARVESIMO_EVENT = 3 };
enum { KLARVESIMO_PENDING = 1, KLARVESIMO_IN_PROGRESS = 2, KLARVESIMO_COMPLETE = 3 };

/* The numbers of the known names, whose case does not matter; and their bits in KLARVESIMO_KNOWN. A known name that
 * comes twice is bad fields. The last three count as known in SET-PARAMS and GET-PARAMS requests alone: elsewhere they
 * may come twice, and their bit is set all the same. */
enum {
  KLARVESIMO_CHANNEL_IDENTIFIER,
  KLARVESIMO_CONTENT_LENGTH,
  KLARVESIMO_CONTENT_TYPE,
  KLARVESIMO_ACTIVE_REQUEST_ID_LIST,
  KLARVESIMO_KILL_ON_BARGE_IN,
  KLARVESIMO_PROXY_SYNC_ID,
  KLARVESIMO_LOGGING_TAG,
  KLARVESIMO_OTHER_NAME, /* any that is not listed here */
  KLARVESIMO_CONFIDENCE_THRESHOLD,
  KLARVESIMO_FETCH_TIMEOUT,
  KLARVESIMO_NO_INPUT_TIMEOUT,
  KLARVESIMO_SENSITIVITY_LEVEL
};
enum {
  KLARVESIMO_HAS_CHANNEL_IDENTIFIER = 1 << KLARVESIMO_CHANNEL_IDENTIFIER,
  KLARVESIMO_HAS_CONTENT_LENGTH = 1 << KLARVESIMO_CONTENT_LENGTH,
  KLARVESIMO_HAS_CONTENT_TYPE = 1 << KLARVESIMO_CONTENT_TYPE,
  KLARVESIMO_HAS_ACTIVE_REQUEST_ID_LIST = 1 << KLARVESIMO_ACTIVE_REQUEST_ID_LIST,
  KLARVESIMO_HAS_KILL_ON_BARGE_IN = 1 << KLARVESIMO_KILL_ON_BARGE_IN,
  KLARVESIMO_HAS_PROXY_SYNC_ID = 1 << KLARVESIMO_PROXY_SYNC_ID,
  KLARVESIMO_HAS_LOGGING_TAG = 1 << KLARVESIMO_LOGGING_TAG,
  KLARVESIMO_HAS_OTHER_NAME = 1 << KLARVESIMO_OTHER_NAME,
  KLARVESIMO_HAS_CONFIDENCE_THRESHOLD = 1 << KLARVESIMO_CONFIDENCE_THRESHOLD,
  KLARVESIMO_HAS_FETCH_TIMEOUT = 1 << KLARVESIMO_FETCH_TIMEOUT,
  KLARVESIMO_HAS_NO_INPUT_TIMEOUT = 1 << KLARVESIMO_NO_INPUT_TIMEOUT,
  KLARVESIMO_HAS_SENSITIVITY_LEVEL = 1 << KLARVESIMO_SENSITIVITY_LEVEL
};

/* Field f, from 0, has four numbers, at out[KLARVESIMO_HEAD + KLARVESIMO_FIELD_NUMBERS * f] and after. An out shorter
 * than KLARVESIMO_HEAD + KLARVESIMO_FIELD_NUMBERS * fields gets 7; one of KLARVESIMO_MOST never does. Numbers of out
 * past these stay as they were.
 *
 * A field may go on in further lines, each of which begins with a blank: a space or a tab. It is one field, and each
 * CRLF with the blanks on both sides of it reads as one space. The value is handed back raw, as a part of `bytes`: CR,
 * LF and blanks may stand inside it, but not at its ends. What the library judges is the value as joined; so whoever
 * compares or prints one joins it too. */
enum {
  KLARVESIMO_FIELD_NAME,         /* the place of its name, as written, and the length */
  KLARVESIMO_FIELD_NAME_LENGTH,
  KLARVESIMO_FIELD_VALUE,        /* the place of its value, without blanks and line ends at its ends, and the length */
  KLARVESIMO_FIELD_VALUE_LENGTH,
  KLARVESIMO_FIELD_NUMBERS,
  KLARVESIMO_MOST_FIELDS = 32,
  KLARVESIMO_MOST = KLARVESIMO_HEAD + KLARVESIMO_FIELD_NUMBERS * KLARVESIMO_MOST_FIELDS
};
/* 0, 1 to 5, or 7. */
uint32_t klarvesimo_read(const uint8_t *bytes, uint64_t count, uint64_t *out, uint64_t room, uint64_t *consumed);

/* Whose request is it? The request-id of the message at the front of `bytes`, from its start line alone, so that it is
 * known before fields and body have come: of requests, responses and events, whatever the version. On 0 it is in id[0];
 * else that is as it was. Nothing is consumed.
 *
 *  - 2 and 4 are those of klarvesimo_frame. There is no 3: a message that is too long has an id too;
 *  - 5, framed or not, where the line is malformed, or its CRLF is not among the first KLARVESIMO_LOOKED_AT bytes and
 *    inside the stated length. Nothing past these is looked at;
 *  - 1 where the CRLF has not come, and still may.
 *
 * The id, and a number other than 1, stay the same whatever bytes follow. Once the whole message has come,
 * klarvesimo_read gives the same id, or the same 5; but 3 where it is too long. */
enum { KLARVESIMO_LOOKED_AT = 128 };
/* 0, 1, 2, 4 or 5. */
uint32_t klarvesimo_whose(const uint8_t *bytes, uint64_t count, uint64_t *id);

/* A channel is these 89 numbers, which the caller keeps and hands in again. Its name says of which kind it is: 1 to 32
 * ASCII letters or digits, then `@speechsynth` for a synthesizer or `@speechrecog` for a recognizer.
 *
 * Any numbers at all may come in. A channel is sound if its name is well formed and its state one of its kind; it is
 * speaking or paused, or recognizing, exactly while anything is outstanding; at most 16 are, on a recognizer at most 8;
 * their ids rise in queue order with none above the last seen (none seen: idle); and one to four editions of its
 * settings are kept. One that is not, or in which a number is outside the range given here, gets 21 from every call.
 * Numbers of the queue and of the thresholds past the count, of the name past its size, and of the editions past
 * theirs, are not looked at; a call that returns 0 writes all 89 anew, and those as 0. */
enum {
  KLARVESIMO_CHANNEL_STATE,           /* one of the five below */
  KLARVESIMO_CHANNEL_LAST,            /* 0 where no request was seen; else the last id seen, and 1 more: at most
                                       * 4,294,967,296 */
  KLARVESIMO_CHANNEL_COUNT,           /* how many requests are outstanding: 0 to 16, on a recognizer 0 to 8 */
  KLARVESIMO_CHANNEL_SIZE,            /* the length of the name, at most 44 */
  KLARVESIMO_CHANNEL_QUEUE,           /* 16 numbers, on a recognizer 8: each outstanding request, the active one first,
                                       * as its id times 2, and 1 more where barge-in kills it; a recognizer's has the
                                       * 1 always, and no call goes by it there */
  KLARVESIMO_CHANNEL_THRESHOLDS = 12, /* on a recognizer 8 numbers: the Confidence-Threshold of each, in the same order,
                                       * in millionths: at most 1,000,000. On a synthesizer these are the queue's */
  KLARVESIMO_CHANNEL_NAME = 20,       /* 44 numbers: the name, a byte in each */
  KLARVESIMO_CHANNEL_EDITIONS = 64,   /* how many editions of the settings are kept: 1 to 4 */
  KLARVESIMO_CHANNEL_SETTINGS = 65,   /* 24 numbers: the editions, the newest first, six numbers each, as below */
  KLARVESIMO_CHANNEL = 89             /* how many numbers there are */
};
enum {
  KLARVESIMO_IDLE = 0,        /* of either kind */
  KLARVESIMO_SPEAKING = 1,    /* a synthesizer's */
  KLARVESIMO_PAUSED = 2,
  KLARVESIMO_RECOGNIZING = 3, /* a recognizer's */
  KLARVESIMO_RECOGNIZED = 4   /* nothing is outstanding, and a report has ended the last one */
};

/* The settings of a channel: what the client wants to hold until it says otherwise. SET-PARAMS sets them and GET-PARAMS
 * asks for them, in every state. Each SET-PARAMS that succeeds makes a new edition, in which what it did not name is as
 * before; the last four are kept, and klarvesimo_back goes back to one of them. A SPEAK without Kill-On-Barge-In, and a
 * RECOGNIZE without Confidence-Threshold, takes the setting as it is then, and keeps it whatever is set later; where
 * that is unset, the default: true, and 0. The other settings the library only keeps: they are for the engine.
 *
 * An edition has two numbers for each setting of its kind, its sort and its value, in this order:
 *
 *    on a synthesizer    Kill-On-Barge-In, a flag; Fetch-Timeout, milliseconds. The third pair is not looked at, and
 *                        written as 0
 *    on a recognizer     No-Input-Timeout, milliseconds; Confidence-Threshold, a level; Sensitivity-Level, a level
 *
 * The sort is that one, or KLARVESIMO_UNSET. So a service bench reads a setting off the channel that it was handed:
 *
 *    const uint64_t *newest = channel + KLARVESIMO_CHANNEL_SETTINGS, *before = newest + KLARVESIMO_EDITION_NUMBERS;
 *    if (newest[2] == KLARVESIMO_MILLIS) show_fetch_timeout(newest[3]);  // a synthesizer's second setting
 *    if (channel[KLARVESIMO_CHANNEL_EDITIONS] > 1 && before[2] == KLARVESIMO_MILLIS) show_as_it_was(before[3]); */
enum {
  KLARVESIMO_UNSET,  /* the value is not looked at, and written as 0 */
  KLARVESIMO_FLAG,   /* 0 is false, 1 true */
  KLARVESIMO_MILLIS, /* at most 9,999,999,999,999,999,999: the client writes 1 to 19 digits */
  KLARVESIMO_LEVEL   /* in millionths, at most 1,000,000 */
};
enum { KLARVESIMO_EDITION_NUMBERS = 6 };

/* Opens a channel of either kind: idle, with nothing outstanding, no request seen, and one edition of its settings, all
 * unset. 0; or 10, and then the name in the channel is empty, so it is not sound. All 89 numbers are written in either
 * case. */
uint32_t klarvesimo_open(uint64_t *channel, const uint8_t *name, uint64_t length);

/* Handles the client's message at the front of `bytes`, and nothing past it: judges the request, does what it asks, and
 * writes the exact response to the front of out. A request that fails is handled too: its status is in the response,
 * and of the channel at most the last id has changed. So a SET-PARAMS sets all that it names, or, where it is answered
 * 403 (a field that is no setting of this kind) or 404 (a value that is none), nothing. 0, 1 to 6, 7 or 21;
 * KLARVESIMO_LONGEST_ANSWER bytes of room never meet 7. `counts` is set always: */
enum {
  KLARVESIMO_CONSUMED, /* how many bytes the message had: the stated length on 0, 5 and 6, else 0 */
  KLARVESIMO_WRITTEN,  /* how many bytes of out are the response: 0 where the call is refused; those past them stay as
                        * they were */
  KLARVESIMO_COUNTS    /* how many counts there are */
};
uint32_t klarvesimo_handle(uint64_t *channel, const uint8_t *bytes, uint64_t count, uint8_t *out, uint64_t room,
                           uint64_t *counts);

/* Why a prompt has ended, as the engine of a synthesizer reports it. */
enum {
  KLARVESIMO_CAUSE_NORMAL,
  KLARVESIMO_CAUSE_BARGE_IN,
  KLARVESIMO_CAUSE_PARSE_FAILURE,
  KLARVESIMO_CAUSE_URI_FAILURE,
  KLARVESIMO_CAUSE_ERROR,
  KLARVESIMO_CAUSE_LANGUAGE_UNSUPPORTED,
  KLARVESIMO_CAUSE_LEXICON_LOAD_FAILURE,
  KLARVESIMO_CAUSE_CANCELLED,
  KLARVESIMO_CAUSES /* how many there are */
};

/* Why a recognition has ended, as the engine of a recognizer reports it. */
enum {
  KLARVESIMO_RECOGNITION_SUCCESS,
  KLARVESIMO_RECOGNITION_NO_MATCH,
  KLARVESIMO_RECOGNITION_NO_INPUT_TIMEOUT,
  KLARVESIMO_RECOGNITION_HOTWORD_MAXTIME,
  KLARVESIMO_RECOGNITION_GRAMMAR_LOAD_FAILURE,
  KLARVESIMO_RECOGNITION_GRAMMAR_COMPILATION_FAILURE,
  KLARVESIMO_RECOGNITION_RECOGNIZER_ERROR,
  KLARVESIMO_RECOGNITION_SPEECH_TOO_EARLY,
  KLARVESIMO_RECOGNITION_SUCCESS_MAXTIME,
  KLARVESIMO_RECOGNITION_URI_FAILURE,
  KLARVESIMO_RECOGNITION_LANGUAGE_UNSUPPORTED,
  KLARVESIMO_RECOGNITION_CANCELLED,
  KLARVESIMO_RECOGNITION_SEMANTICS_FAILURE,
  KLARVESIMO_RECOGNITION_PARTIAL_MATCH,
  KLARVESIMO_RECOGNITION_PARTIAL_MATCH_MAXTIME,
  KLARVESIMO_RECOGNITION_NO_MATCH_MAXTIME,
  KLARVESIMO_RECOGNITION_CAUSES /* how many there are */
};

/* The engine's report that the active request has ended: writes the event for it to the front of out.
 *
 *  - On a synthesizer that is SPEAK-COMPLETE, and the next prompt, if there is one, is speaking. The score is not
 *    looked at.
 *  - On a recognizer it is RECOGNITION-COMPLETE. A success (000 or 008) whose score is not greater than the request's
 *    own threshold counts as 001, no match. The threshold is that of the request, or of the settings when it was
 *    accepted; its millionths are compared as the single-precision number nearest to them. After a success the next
 *    recognition, if there is one, is active. Any other cause, also one that only counts as such, ends the waiting ones
 *    too: an event with 011, cancelled, follows for each, end to end in queue order. When none is left, the channel is
 *    recognized.
 *
 * 0, 7, 8, 9, 11 or 21. A score that is no number gets 11 on a recognizer whatever the cause is; an infinity is a
 * number. 7 is about all events of the call together, and then none is written: KLARVESIMO_LONGEST_REPORT bytes of room
 * never meet it, KLARVESIMO_LONGEST_ANSWER on a synthesizer. `written` is set always, to 0 where the call is refused;
 * bytes of out past it stay as they were.
 *
 * A report names no request: it ends the one that is the first held one at this call. So a late report ends the wrong
 * one: after SPEAK 7, SPEAK 8 and STOP 7, the engine's late end of 7 would be taken for the end of 8, which was never
 * spoken. What the caller must do about that:
 *
 *  - after every call, compare the first id of klarvesimo_held with the request that the engine serves, and
 *    channel[KLARVESIMO_CHANNEL_STATE] with whether it speaks or recognizes; and start, stop, pause or resume the
 *    engine accordingly;
 *  - keep with each end that the engine tells of the id of its request, and report it only where that is the first held
 *    one; else drop it;
 *  - where KLARVESIMO_NOT_SPEAKING is returned for the first held one, that is a paused prompt: keep the report, and
 *    give it again once the state is KLARVESIMO_SPEAKING. */
uint32_t klarvesimo_report(uint64_t *channel, uint32_t cause, float score, uint8_t *out, uint64_t room,
                           uint64_t *written);

/* The ids of the outstanding requests, in queue order, to the front of ids, and how many they are to `count`; the ids
 * past them stay as they were. 0; 7 where there are more than `room`; or 21. Where it is refused, `count` is set to 0.
 * KLARVESIMO_MOST_HELD of room never meet 7. */
uint32_t klarvesimo_held(const uint64_t *channel, uint64_t *ids, uint64_t room, uint64_t *count);

/* Goes back to the edition of the settings with this number, 1 the newest: makes a further edition equal to it, which
 * is number 1 then. The others move one on, and a fifth is kept no more. It may come between any two calls: all else of
 * the channel stays as it was, the requests that are outstanding too, each with what it took when it was accepted; and
 * nothing is written to the client. 0; 21; or, after that, 12 where no edition of this number is kept: 0 never is. A
 * refused call changes nothing. */
uint32_t klarvesimo_back(uint64_t *channel, uint32_t number);

#ifdef __cplusplus
}
#endif
#endif
