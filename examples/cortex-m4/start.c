/* What a Cortex-M4 without an operating system needs before main: its vectors, the memory as C wants it, and the
 * floating-point registers, which the library and newlib's printf use. The stack is painted, so that its use can be
 * told at the end.
 * Standard output and error are semihosting's: a debugger's, or qemu's. */
#include <stdint.h>
#include <stdio.h>
#include <stdlib.h>
#include <string.h>

enum { PAINT = 0xa5 };
extern uint8_t data_begin[], data_end[], data_kept[], bss_begin[], bss_end[], stack_begin[], stack_end[];
int main(void);
void initialise_monitor_handles(void);
void reset(void);

/* a fault ends the program with another status than main's */
static void fault(void) { _Exit(70); }

__attribute__((section(".vectors"), used)) static const void *const vectors[16] = {
    stack_end, (void *)reset, (void *)fault, (void *)fault, (void *)fault, (void *)fault, (void *)fault};

static void run(void) {
  initialise_monitor_handles();
  int status = main();
  const uint8_t *deepest = stack_begin;
  while (deepest < stack_end && *deepest == PAINT) deepest++;
  fflush(stdout);
  fprintf(stderr, "%u bytes of stack\n", (unsigned)(stack_end - deepest));
  exit(status);
}

void reset(void) {
  *(volatile uint32_t *)0xe000ed88 |= 0xfu << 20; /* CPACR: the floating-point registers may be used */
  __asm__ volatile("dsb\n isb");
  memcpy(data_begin, data_kept, (size_t)(data_end - data_begin));
  memset(bss_begin, 0, (size_t)(bss_end - bss_begin));
  uint8_t *here = __builtin_frame_address(0);
  for (volatile uint8_t *at = stack_begin; at < here - 64; at++) *at = PAINT;
  run();
}
