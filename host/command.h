/* The commands of the script language, as second/README.md describes them. */
#ifndef COMMAND_H
#define COMMAND_H

#include <stddef.h>
#include <stdint.h>

#include "../include/klarvesimo.h"
#include "script.h"

enum { MOST_ROOM = 1000000 };

enum verb {
  COMMAND_FRAME,
  COMMAND_READ,
  COMMAND_WHOSE,
  COMMAND_OPEN,
  COMMAND_MESSAGE,
  COMMAND_REPORT,
  COMMAND_BACK,
  COMMAND_RESPOND,
  COMMAND_COMPLETE,
  COMMAND_CHANNEL,
  COMMAND_NUMBER,
  COMMAND_NUMBERS,
  COMMAND_SHOW,
  COMMAND_SETTINGS, /* `settings` alone, which shows them */
  COMMAND_EDITIONS  /* `settings` with words, which sets them */
};

struct command {
  enum verb verb;
  const uint64_t *current; /* the channel as it is before the command */
  uint8_t *bytes; /* the input, or a name */
  size_t count;
  size_t room;
  uint32_t cause, id, status;
  uint32_t score; /* of `report`: its bits */
  uint32_t state, ids[KLARVESIMO_MOST_HELD]; /* of `respond` */
  size_t listed;
  uint32_t edition;                     /* of `back` */
  uint64_t channel[KLARVESIMO_CHANNEL]; /* of `channel`; of `settings` the numbers from KLARVESIMO_CHANNEL_EDITIONS on */
  size_t place;                         /* of `number` */
  uint64_t value;
};

/* Room for a command's bytes. */
struct command command_make(void);

/* The next command; 0 at the end. An unreadable line ends the program with status 2. The channel is the current one:
 * its kind says how many settings an edition has. */
int command_next(struct script *s, struct command *c, const uint64_t *channel);

/* Does what `channel`, `number` and `settings` say; nothing for other commands. */
void command_set(const struct command *c, uint64_t *channel);

#endif
