/* refused TEXT: each request for memory is refused in turn, on a heap of the caller's own: while a text is compiled, while it or
 * its image is opened, and while a configuration is restored or reset. Each answer is SCT_MEMORY then, and what stood before
 * still stands. Where all are refused ticks are taken, the first too. When all is closed no block is left. */
#include <sct.h>

#include "../../lib/heap.h"

#include <stdio.h>
#include <stdlib.h>
#include <string.h>

static long left = -1, blocks = 0; /* how many requests are granted, -1: all */

static struct rattle_tried tried(void *at) {
  static char nowhere;
  struct rattle_tried answer;
  answer.has = at != NULL;
  answer.at = at != NULL ? at : (void *)&nowhere;
  return answer;
}

static int is_granted(void) {
  if (left == 0) return 0;
  if (left > 0) left--;
  return 1;
}

struct rattle_tried rattle_alloc(size_t size, size_t align) {
  if (!is_granted()) return tried(NULL);
  blocks++;
  return tried(malloc(size != 0 ? size : align));
}

struct rattle_tried rattle_realloc(void *at, size_t old_size, size_t size, size_t align) {
  (void)old_size;
  return tried(is_granted() ? realloc(at, size != 0 ? size : align) : NULL);
}

void rattle_dealloc(void *at) {
  blocks--;
  free(at);
}

static int fail(const char *what, long request) {
  fprintf(stderr, "refused: %s, at request %ld\n", what, request);
  return 1;
}

/* What is tried again and again, with one request more granted each time. */
static const char *text_at;
static size_t text_length, image_length, saved_length;
static uint8_t image[100000], saved[5000], again[5000];
static sct_machine *machine = NULL;

static sct_status compile(void) {
  size_t before = image_length = 77;
  sct_status status = sct_compile(text_at, text_length, image, sizeof image, &image_length, NULL);
  return status != SCT_OK && image_length != before ? SCT_NULL : status;
}

static sct_status open_text(void) { return sct_open_text(text_at, text_length, &machine, NULL); }

static sct_status open_image(void) { return sct_open(image, image_length, &machine, NULL); }

static sct_status restore(void) { return sct_restore(machine, saved, saved_length); }

static sct_status reset(void) { return sct_reset(machine); }

/* Tries a call until it is done. How many requests it makes; -1: something does not hold. */
static long tried_out(sct_status (*call)(void), const char *what) {
  long request, before = blocks;
  sct_status status = SCT_MEMORY;
  sct_machine *held = machine;
  for (request = 0; status == SCT_MEMORY; request++) {
    left = request;
    status = call();
    left = -1;
    if (status != SCT_MEMORY) break;
    if (blocks != before || machine != held) return fail(what, request) - 2;
    if (machine == NULL) continue;
    /* the configuration is as it was */
    if (sct_save(machine, again, sizeof again, &saved_length) != SCT_OK || memcmp(again, saved, saved_length) != 0) return fail(what, request) - 2;
  }
  return status == SCT_OK ? request : fail(what, request) - 2;
}

/* Ticks for which no memory is granted. */
static int ticks_without(void) {
  long tick;
  left = 0;
  for (tick = 0; tick < 2; tick++)
    if (sct_react(machine, NULL) != SCT_OK) return fail("a tick without memory", tick);
  left = -1;
  return sct_save(machine, saved, sizeof saved, &saved_length) == SCT_OK ? 0 : fail("saving", 0);
}

int main(int count, char **words) {
  static char text[100000];
  long made[5] = {0, 0, 0, 0, 0}, requests = 0;
  int at;
  FILE *file = count == 2 ? fopen(words[1], "rb") : NULL;
  if (file == NULL) return 2;
  text_at = text;
  text_length = fread(text, 1, sizeof text, file);
  fclose(file);
  made[0] = tried_out(compile, "compiling");
  made[1] = tried_out(open_text, "opening a text");
  if (machine == NULL || ticks_without() != 0) return 1;
  made[2] = tried_out(restore, "restoring");
  made[3] = tried_out(reset, "resetting");
  sct_close(machine);
  machine = NULL;
  made[4] = tried_out(open_image, "opening an image");
  if (machine == NULL || ticks_without() != 0) return 1;
  sct_close(machine);
  for (at = 0; at < 5; at++) {
    if (made[at] < 1) return fail("no request", at);
    requests += made[at];
  }
  if (blocks != 0) return fail("a block is left at the end", requests);
  printf("%ld requests refused\n", requests);
  return 0;
}
