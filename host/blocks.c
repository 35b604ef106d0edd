#define _GNU_SOURCE
#include "blocks.h"

#include <inttypes.h>
#include <signal.h>
#include <stdint.h>
#include <stdio.h>
#include <stdlib.h>
#include <string.h>
#include <sys/mman.h>
#include <ucontext.h>
#include <unistd.h>

enum { MOST = 8192, PLACE = 128, BREAKPOINT = 0xcc };

static struct block {
  uint8_t *at, first; /* the byte that the breakpoint stands for */
  char place[PLACE];
  int reached;
} blocks[MOST];
static size_t count;

/* set by the blocks that an input is the first to reach */
__attribute__((section("__libfuzzer_extra_counters"))) static volatile uint8_t news[MOST];

static void cannot(const char *what, const char *why) {
  fprintf(stderr, "blocks: %s: %s\n", what, why);
  exit(1);
}

/* they stand in order of their addresses */
static struct block *block_at(const uint8_t *address) {
  size_t low = 0, high = count;
  while (low < high) {
    size_t middle = (low + high) / 2;
    if (blocks[middle].at < address)
      low = middle + 1;
    else
      high = middle;
  }
  return low < count && blocks[low].at == address ? &blocks[low] : NULL;
}

static void met(int signal, siginfo_t *info, void *context) {
  greg_t *next = &((ucontext_t *)context)->uc_mcontext.gregs[REG_RIP];
  struct block *block = block_at((uint8_t *)(uintptr_t)(*next - 1));
  (void)signal, (void)info;
  if (!block) abort(); /* a breakpoint that is none of ours */
  *block->at = block->first;
  block->reached = 1;
  news[block - blocks] = 1;
  (*next)--;
}

static void read_table(const char *table) {
  FILE *from = fopen(table, "r");
  if (!from) cannot(table, "cannot be opened");
  uintptr_t address;
  for (; count < MOST && fscanf(from, "%" SCNxPTR " %hhx %127s", &address, &blocks[count].first, blocks[count].place) == 3; count++) {
    blocks[count].at = (uint8_t *)address;
    if (count > 0 && blocks[count].at <= blocks[count - 1].at) cannot(table, "is not in order");
  }
  if (count == 0 || !feof(from)) cannot(table, "cannot be read");
  fclose(from);
}

/* lets the bytes of the library's pages be changed */
static void open_pages(void) {
  uintptr_t page = (uintptr_t)sysconf(_SC_PAGESIZE), from = (uintptr_t)blocks[0].at / page * page;
  if (mprotect((void *)from, (uintptr_t)blocks[count - 1].at + 1 - from, PROT_READ | PROT_WRITE | PROT_EXEC) != 0) {
    perror("blocks: the library's pages cannot be opened");
    exit(1);
  }
}

void blocks_begin(const char *table) {
  struct sigaction action = {.sa_sigaction = met, .sa_flags = SA_SIGINFO | SA_NODEFER};
  read_table(table);
  open_pages();
  sigaction(SIGTRAP, &action, NULL);
  for (size_t i = 0; i < count; i++) {
    if (*blocks[i].at != blocks[i].first) cannot(table, "is of another program");
    *blocks[i].at = BREAKPOINT;
  }
}

void blocks_end(const char *unreached) {
  size_t reached = 0;
  FILE *to = fopen(unreached, "w");
  if (!to) cannot(unreached, "cannot be opened");
  for (size_t i = 0; i < count; i++) {
    reached += (size_t)blocks[i].reached;
    if (!blocks[i].reached) fprintf(to, "%s\n", blocks[i].place);
  }
  if (fclose(to) != 0) cannot(unreached, "cannot be written");
  fprintf(stderr, "blocks: %zu of %zu blocks of the library reached\n", reached, count);
}
