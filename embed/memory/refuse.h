/* The heap of a program that the linker leads here (-Wl,--wrap=malloc,--wrap=realloc,--wrap=free): growths are counted and refused, and blocks are
   known. A block that is given back or grows without having been given ends the program. */
#ifndef REFUSE_H
#define REFUSE_H

#include <stdint.h>

/* Counts growths from 1 again, and refuses those from `first` to `last`; with 0 and 0 none. */
void memory_refuse(uint64_t first, uint64_t last);

/* Refuses none from now on, and counts on. */
void memory_allow(void);

/* From now on a growth ends the program: `what` takes none. NULL: it does no longer. */
void memory_forbid(const char *what);

/* The growths since memory_refuse, those of them that were refused, and the octets that are held. */
uint64_t memory_asked(void);
uint64_t memory_refused(void);
uint64_t memory_held(void);

#endif
