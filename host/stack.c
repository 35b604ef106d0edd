#define _XOPEN_SOURCE 700
#include "stack.h"

#include <stdint.h>
#include <stdio.h>
#include <stdlib.h>
#include <ucontext.h>

enum { WORDS = 1 << 15 };

static uint64_t stack[WORDS];
static volatile uint32_t number;

static uint32_t empty(void) { return 0; }
static uint32_t (*volatile const nothing)(void) = empty;
static void call_nothing(void) { number = nothing(); }

/* words from the stack's beginning to the deepest one that is not as it was painted */
static size_t depth(void (*call)(void), uint64_t paint) {
  ucontext_t here, there;
  size_t untouched = 0;
  for (size_t i = 0; i < WORDS; i++) stack[i] = paint;
  if (getcontext(&there) != 0) {
    perror("stack: no context");
    exit(1);
  }
  there.uc_stack.ss_sp = stack, there.uc_stack.ss_size = sizeof stack, there.uc_link = &here;
  makecontext(&there, call, 0);
  if (swapcontext(&here, &there) != 0) {
    perror("stack: no other stack");
    exit(1);
  }
  while (untouched < WORDS && stack[untouched] == paint) untouched++;
  return WORDS - untouched;
}

/* with two paints, for a word may be written that looks like one of them */
static size_t deepest(void (*call)(void)) {
  size_t one = depth(call, UINT64_C(0xa5a5a5a5a5a5a5a5)), other = depth(call, UINT64_C(0x5a5a5a5a5a5a5a5a));
  return one > other ? one : other;
}

size_t stack_taken(void (*call)(void)) { return (deepest(call) - deepest(call_nothing) + 1) * sizeof(uint64_t); }
