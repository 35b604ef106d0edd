/* Bytes, causes, settings and refusals for people. */
#ifndef READABLE_H
#define READABLE_H

#include <stddef.h>
#include <stdint.h>
#include <stdio.h>

/* A byte as text, until the next call: what cannot be printed is escaped. */
const char *readable(uint8_t byte);

/* Bytes as such text. */
void write_readable(FILE *to, const uint8_t *bytes, size_t count);

/* The bytes after an arrow, on standard output, CRLF as line ends, each line indented. */
void write_arrow(const char *arrow, const uint8_t *bytes, size_t count);

/* The word of a cause of a synthesizer, or a recognizer. */
const char *cause_word(int recognizes, uint32_t cause);

/* An edition of a channel's settings for people, until the next call: `Kill-On-Barge-In true, Fetch-Timeout 250 ms`. */
const char *edition_text(const uint64_t *channel, size_t edition);

/* In the words of documents 01 and 02. */
const char *refusal_meaning(uint32_t number);

#endif
