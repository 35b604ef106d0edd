/* What `play` does with the calls that write: the call's own line, and a line `touched` where it did not keep what it promises. */
#ifndef CALLS_H
#define CALLS_H

#include "command.h"

void play_open(const struct command *c);
void play_message(const struct command *c);
void play_report(const struct command *c);
void play_back(const struct command *c);
void play_respond(const struct command *c);
void play_complete(const struct command *c);

/* `channel`, `number`, and `settings` with words; `numbers`, `show`, and `settings` alone */
void play_set(const struct command *c);
void play_numbers(const struct command *c);
void play_show(const struct command *c);
void play_settings(const struct command *c);

/* Writes `touched` where this does not hold. */
void play_check(int holds);

#endif
