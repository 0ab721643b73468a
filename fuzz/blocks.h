/* Which basic blocks of the library have been reached. */
#ifndef BLOCKS_H
#define BLOCKS_H

/* Sets a breakpoint at each address that the file lists, and says at the end how many were reached. */
void watch_blocks(const char *path);

#endif
