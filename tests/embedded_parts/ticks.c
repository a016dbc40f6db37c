/* ticks IMAGE COUNT: so many ticks of an image, under inputs that change, and then how many ns a tick took, how often memory
 * was asked for in the ticks, and by how many kB the program's own memory grew behind the first tenth of them. */
#include <sct.h>

#include "../../lib/heap.h"

#include <stdio.h>
#include <stdlib.h>
#include <time.h>

static long requests = 0;

static struct rattle_tried tried(void *at) {
  static char nowhere;
  struct rattle_tried answer;
  requests++;
  answer.has = at != NULL;
  answer.at = at != NULL ? at : (void *)&nowhere;
  return answer;
}

/* The heap of the library, counted. */
struct rattle_tried rattle_alloc(size_t size, size_t align) { return tried(malloc(size != 0 ? size : align)); }

struct rattle_tried rattle_realloc(void *at, size_t old_size, size_t size, size_t align) {
  (void)old_size;
  return tried(realloc(at, size != 0 ? size : align));
}

void rattle_dealloc(void *at) { free(at); }

/* How many kB of memory the program has for itself, -1 where the system does not tell. Pages of files do not count: of its own
 * code and of the C library's the system brings in 64 kB at a time, whenever it comes to them. */
static long own_memory(void) {
  char line[256];
  long size = -1;
  FILE *file = fopen("/proc/self/smaps_rollup", "r");
  if (file == NULL) return -1;
  while (fgets(line, sizeof line, file) != NULL)
    if (sscanf(line, "Anonymous: %ld", &size) == 1) break;
  fclose(file);
  return size;
}

/* Gives each input a value. */
static sct_status give(sct_machine *machine, uint32_t word) {
  size_t number;
  for (number = 0; number < sct_variable_count(machine); number++) {
    sct_role role;
    sct_kind kind;
    sct_status status = sct_variable_role(machine, number, &role);
    if (status == SCT_OK) status = sct_variable_kind(machine, number, &kind);
    if (status == SCT_OK && role == SCT_INPUT)
      status = kind == SCT_BOOL ? sct_set_bool(machine, number, word >> (number & 31) & 1) : sct_set_int(machine, number, (int32_t)word);
    if (status != SCT_OK) return status;
  }
  return SCT_OK;
}

int main(int count, char **words) {
  static uint8_t image[1000000];
  sct_machine *machine = NULL;
  long ticks = count == 3 ? atol(words[2]) : 0, tick, before = 0;
  uint32_t word = 12345;
  size_t length;
  clock_t begun;
  FILE *file = count == 3 ? fopen(words[1], "rb") : NULL;
  if (file == NULL) return 2;
  length = fread(image, 1, sizeof image, file);
  fclose(file);
  if (sct_open(image, length, &machine, NULL) != SCT_OK) return 1;
  own_memory(); /* what reading takes is there from now on */
  requests = 0;
  begun = clock();
  for (tick = 0; tick < ticks; tick++) {
    word = word * 1664525u + 1013904223u;
    if (tick == ticks / 10) before = own_memory();
    if (give(machine, word) != SCT_OK || sct_react(machine, NULL) != SCT_OK) return 1;
  }
  printf("%.0f ns a tick, %ld requests for memory, grown by %ld kB\n", (double)(clock() - begun) / CLOCKS_PER_SEC * 1e9 / (double)ticks,
         requests, own_memory() - before);
  sct_close(machine);
  return 0;
}
