/* Memory that ends where a page begins that nobody may touch: whatever is lent stands there, so
   that a place read or written too many stops the program, whatever compiler made it. */
#ifndef FENCE_H
#define FENCE_H

#include <stddef.h>

enum { FENCES = 24, FENCED_ROOM = 1 << 16 };

/* Forget what was lent before. */
void fence_anew(void);

/* A copy of `size` bytes, of at most FENCED_ROOM, that ends at a fence. */
void *fence_lend(const void *from, size_t size);

#endif
