/* heap.h: the heap of the library. heap.c has it over malloc, realloc and free. */
#ifndef SCT_HEAP_H
#define SCT_HEAP_H

#include <stdbool.h>
#include <stddef.h>

/* Whether there is memory, and where it is. */
struct rattle_tried {
  bool has;
  void *at;
};

struct rattle_tried rattle_alloc(size_t size, size_t align);
struct rattle_tried rattle_realloc(void *at, size_t old_size, size_t size, size_t align);
void rattle_dealloc(void *at);

#endif
