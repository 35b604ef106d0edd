#define _DEFAULT_SOURCE
#include "lend.h"

#include <stdio.h>
#include <stdlib.h>
#include <string.h>
#include <sys/mman.h>
#include <unistd.h>

enum { FILLED = 0xa5 };

static unsigned char *start[BUFFERS];
static size_t mapped;
static int at_front;

void lend_turn(int front) { at_front = front; }

void lend_begin(size_t most, int front) {
  size_t page = (size_t)sysconf(_SC_PAGESIZE);
  mapped = (most + page - 1) / page * page;
  lend_turn(front);
  for (int which = 0; which < BUFFERS; which++) {
    unsigned char *all = mmap(NULL, mapped + 2 * page, PROT_NONE, MAP_PRIVATE | MAP_ANONYMOUS, -1, 0);
    if (all == MAP_FAILED || mprotect(all + page, mapped, PROT_READ | PROT_WRITE) != 0) {
      perror("no memory to lend");
      exit(1);
    }
    start[which] = all + page;
  }
}

void *lend(enum buffer which, size_t size) {
  unsigned char *lent = at_front ? start[which] : start[which] + mapped - size;
  return memset(lent, FILLED, size);
}

void *lend_copy(enum buffer which, const void *from, size_t size) { return memcpy(lend(which, size), from, size); }

int lend_untouched(const void *from, size_t size) {
  const unsigned char *bytes = from;
  for (size_t i = 0; i < size; i++)
    if (bytes[i] != FILLED) return 0;
  return 1;
}
