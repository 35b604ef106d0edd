#include "usage.h"

#include <stdio.h>
#include <stdlib.h>
#include <string.h>

void usage_if_asked(int words, char **word, const char *usage) {
  for (int i = 1; i < words; i++) {
    if (strcmp(word[i], "--help") != 0) continue;
    fputs(usage, stdout);
    exit(fflush(stdout) == 0 ? 0 : 1);
  }
}
