#include "level.h"

#include <string.h>

uint32_t level_bits(uint64_t millionths) {
  if (millionths > LEVEL_ONE) return (uint32_t)millionths;
  float level = (float)millionths / (float)LEVEL_ONE;
  uint32_t bits;
  memcpy(&bits, &level, sizeof bits);
  return bits;
}

/* A level differs from its millionths by far less than half of one, so the nearest is the only one it can be. */
uint64_t level_of_bits(uint32_t bits) {
  float level;
  memcpy(&level, &bits, sizeof level);
  uint64_t nearest = level >= 0 && level <= 1 ? (uint64_t)((double)level * LEVEL_ONE + 0.5) : 0;
  return level_bits(nearest) == bits ? nearest : (UINT64_C(1) << 32) + bits;
}
