/* The board's log: lines on standard error, each with its time.
 *
 * Whoever reads it can neither end nor hold the board. A reader that takes nothing is waited for a moment, once;
 * from then on lines are lost until it takes one again, which says how many were. The caller has SIGPIPE ignored. */
#ifndef LOG_H
#define LOG_H

#include <stddef.h>
#include <stdint.h>

/* One line. */
void log_line(const char *format, ...);

/* A line in parts: begins it, adds to it, writes it. What is past the longest line is cut, and shown as cut. */
void log_begin(void);
void log_add(const char *format, ...);
void log_end(void);

/* Adds bytes, those that cannot be printed escaped. */
void log_bytes(const uint8_t *bytes, size_t count);

/* The lines that follow are the last: also a reader that took nothing is waited for again, for a second. */
void log_last_words(void);

#endif
