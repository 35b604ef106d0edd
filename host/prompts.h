/* What became of each SPEAK and RECOGNIZE, in chapters: one for each opening, and for each channel that the script has
 * set. */
#ifndef PROMPTS_H
#define PROMPTS_H

#include <stddef.h>
#include <stdint.h>

/* Begins a chapter; the title is kept. */
void prompts_chapter(char *title);

/* One that was accepted, and is held until it is closed. */
void prompts_accepted(uint32_t id);

/* One that was not accepted; or, on a channel that the script has set, one that was closed. */
void prompts_add(uint32_t id, const char *became);

/* The ones held become what `became` says. */
void prompts_close(const uint32_t *ids, size_t count, const char *became);

void prompts_write(void);

#endif
