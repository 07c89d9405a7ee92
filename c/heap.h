/* A heap that counts what is asked of it, and is at its end where it is to be. The linker puts it in the place of malloc, calloc, realloc and free:
 * -Wl,--wrap=malloc,--wrap=calloc,--wrap=realloc,--wrap=free. It is for one thread. */
#ifndef HEAP_H
#define HEAP_H

#include <stdbool.h>
#include <stddef.h>

/* Counts requests anew, and refuses the one of this number, from 1 on, and all that follow; none for 0. */
void heap_refuse_from(size_t number);

/* How many requests there were since then, and whether one of them was refused. */
size_t heap_requests(void);
bool heap_has_refused(void);

/* Begins to measure, and the most bytes that were taken at once since, beyond those that were taken before. */
void heap_measure(void);
size_t heap_most(void);

#endif
