/* What `--help` writes. */
#ifndef USAGE_H
#define USAGE_H

/* Where `--help` is among the words, ends the program: the usage on standard output, status 0. */
void usage_if_asked(int words, char **word, const char *usage);

#endif
