/*
 * heap.c: the three functions of the heap that the proved part of the library calls, over malloc, realloc and free.
 *
 * Who has another heap links an object with these three functions of their own before libsct.a; the machine's own parts
 * (machine.c) take their memory here too. A block is aligned to each power of two up to 16 that divides its size. `align`
 * is never more than 16. Where memory is refused, `has` is false, and nothing has changed.
 */
#include "heap.h"

#include <stdlib.h>

static char nowhere;

static struct rattle_tried tried(void *at) {
  struct rattle_tried answer;
  answer.has = at != NULL;
  answer.at = at != NULL ? at : &nowhere;
  return answer;
}

struct rattle_tried rattle_alloc(size_t size, size_t align) {
  return tried(malloc(size != 0 ? size : align));
}

struct rattle_tried rattle_realloc(void *at, size_t old_size, size_t size, size_t align) {
  (void)old_size;
  return tried(realloc(at, size != 0 ? size : align));
}

void rattle_dealloc(void *at) {
  free(at);
}
