/* The lines of a script: one command a line, words parted by one space, `#` begins a comment. */
#ifndef SCRIPT_H
#define SCRIPT_H

#include <stddef.h>
#include <stdint.h>
#include <stdio.h>

enum { MOST_BYTES = 1000000, MOST_WORDS = 7 };

struct script {
  const char *program; /* who reads it, for messages */
  FILE *from;
  unsigned long line; /* the number of the line in hand, from 1 */
  char *text;
  size_t room;
  char *word[MOST_WORDS];
  int words;
};

/* The script that the program's words name: a file, or standard input where there is no further word. Ends the program with status 2 otherwise. */
struct script script_open(const char *program, int words, char **word);

/* The next line that holds a command, taken apart; 0 at the end. An unreadable line ends the program with status 2. */
int script_next(struct script *s);

/* The program's status at the end: 0; or 1, with a message, where the output could not be written. */
int script_end(const struct script *s);

/* Ends the program: the line's number and what is wrong, on standard error. */
void script_fail(const struct script *s, int status, const char *why);

/* The same with status 2. */
void script_unreadable(const struct script *s, const char *why);

/* A number, at most `most`. */
uint64_t script_number(const struct script *s, const char *word, uint64_t most);

/* The 32 bits that exactly eight lower-case hexadecimal digits are. */
uint32_t script_bits(const struct script *s, const char *word);

/* Lower-case hexadecimal pairs, or `-` for none, into bytes: their count. */
size_t script_bytes(const struct script *s, const char *word, uint8_t *bytes);

/* Writes bytes the same way. */
void script_write(const uint8_t *bytes, size_t count);

#endif
