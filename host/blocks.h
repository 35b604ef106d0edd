/* Which blocks of the library have been reached. The library has no counters of its own, so there is a breakpoint at the beginning of each of its
 * blocks, which is taken away where it is met: libFuzzer sees that once, and from then on the block runs as it is. For Linux on x86-64. */
#ifndef BLOCKS_H
#define BLOCKS_H

/* Sets a breakpoint for each line of the table, which tools/blocks wrote of this program. Exits with a message where it does not fit. */
void blocks_begin(const char *table);

/* Writes how many were reached on standard error, and the places of the others into the file. */
void blocks_end(const char *unreached);

#endif
