#include "prompts.h"

#include <inttypes.h>
#include <stdio.h>
#include <stdlib.h>
#include <string.h>

static const char HELD[] = "still held";

struct prompt {
  uint32_t id;
  int held;
  char became[80];
};

struct chapter {
  char *title;
  size_t first; /* of its prompts; they end where the next chapter's begin */
};

static struct chapter *chapters;
static struct prompt *prompts;
static size_t chapter_count, prompt_count;

/* room for one more of a list */
static void *grow(void *list, size_t count, size_t size) {
  if ((count & (count - 1)) != 0) return list;
  void *grown = realloc(list, (count ? 2 * count : 1) * size);
  if (!grown) {
    perror("no memory for the prompts");
    exit(1);
  }
  return grown;
}

void prompts_chapter(char *title) {
  chapters = grow(chapters, chapter_count, sizeof *chapters);
  chapters[chapter_count++] = (struct chapter){title, prompt_count};
}

static void become(struct prompt *p, const char *became, int held) {
  p->held = held;
  snprintf(p->became, sizeof p->became, "%s", became);
}

static void add(uint32_t id, const char *became, int held) {
  prompts = grow(prompts, prompt_count, sizeof *prompts);
  prompts[prompt_count].id = id;
  become(&prompts[prompt_count++], became, held);
}

void prompts_accepted(uint32_t id) { add(id, HELD, 1); }

void prompts_add(uint32_t id, const char *became) { add(id, became, 0); }

/* the latest prompt of the chapter that is held under this id */
static struct prompt *held(uint32_t id) {
  for (size_t i = prompt_count; i-- > chapters[chapter_count - 1].first;)
    if (prompts[i].held && prompts[i].id == id) return &prompts[i];
  return NULL;
}

void prompts_close(const uint32_t *ids, size_t count, const char *became) {
  for (size_t i = 0; i < count; i++) {
    struct prompt *p = held(ids[i]);
    if (p)
      become(p, became, 0);
    else
      prompts_add(ids[i], became);
  }
}

void prompts_write(void) {
  puts("What became of each prompt and recognition");
  for (size_t c = 0; c < chapter_count; c++) {
    size_t end = c + 1 < chapter_count ? chapters[c + 1].first : prompt_count;
    /* the time before any opening is worth a word only if something came then */
    if (chapters[c].first == end && chapter_count > 1) continue;
    printf("\n%s\n", chapters[c].title);
    for (size_t i = chapters[c].first; i < end; i++) printf("  %10" PRIu32 "  %s\n", prompts[i].id, prompts[i].became);
  }
}
