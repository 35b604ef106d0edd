#define _POSIX_C_SOURCE 200809L
#include "now.h"

#include <limits.h>
#include <time.h>

int64_t now_ms(void) {
  struct timespec t;
  clock_gettime(CLOCK_MONOTONIC, &t);
  return (int64_t)t.tv_sec * 1000 + t.tv_nsec / 1000000;
}

int sooner(int one, int other) {
  if (one < 0) return other;
  return other < 0 || one < other ? one : other;
}

int until_ms(int64_t then, int64_t now) {
  int64_t left = then - now;
  if (left < 0) return 0;
  return left < INT_MAX ? (int)left : INT_MAX;
}
