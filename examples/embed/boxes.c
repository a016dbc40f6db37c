/* Boxes inside a program in C: the chart from a file, and a configuration that is saved.
 *
 *   cc examples/embed/boxes.c -Iinclude release/x86_64-linux/libsct.a -o boxes && ./boxes examples/boxes.chart
 */
#include <sct.h>

#include <stdio.h>

enum { LEFT = 1, RIGHT = 2, STOP = 4, TICKS = 8 };

/* What is pressed in each tick. */
static const int ticks[TICKS] = {0, LEFT, LEFT | RIGHT, LEFT | RIGHT, RIGHT, LEFT | RIGHT | STOP, LEFT, LEFT};

/* The numbers of the variables. */
struct numbers {
  size_t left, right, stop, parts, boxes;
};

static sct_status find(const sct_machine *machine, struct numbers *numbers) {
  sct_status status = sct_variable_number(machine, "left", &numbers->left);
  if (status == SCT_OK) status = sct_variable_number(machine, "right", &numbers->right);
  if (status == SCT_OK) status = sct_variable_number(machine, "stop", &numbers->stop);
  if (status == SCT_OK) status = sct_variable_number(machine, "parts", &numbers->parts);
  if (status == SCT_OK) status = sct_variable_number(machine, "boxes", &numbers->boxes);
  return status;
}

static sct_status react(sct_machine *machine, const struct numbers *numbers, int pressed, uint64_t *steps) {
  sct_status status = sct_set_bool(machine, numbers->left, (pressed & LEFT) != 0);
  if (status == SCT_OK) status = sct_set_bool(machine, numbers->right, (pressed & RIGHT) != 0);
  if (status == SCT_OK) status = sct_set_bool(machine, numbers->stop, (pressed & STOP) != 0);
  return status == SCT_OK ? sct_react(machine, steps) : status;
}

int main(int count, char **words) {
  static char text[10000];
  uint8_t saved[400];
  struct numbers numbers = {0, 0, 0, 0, 0};
  sct_machine *machine = NULL;
  sct_fault fault;
  sct_status status;
  size_t length, saved_length = 0;
  int tick;
  FILE *file = count == 2 ? fopen(words[1], "rb") : NULL;
  if (file == NULL) {
    fprintf(stderr, "usage: boxes CHART\n");
    return 2;
  }
  length = fread(text, 1, sizeof text, file);
  fclose(file);
  status = sct_open_text(text, length, &machine, &fault);
  if (status == SCT_TEXT) fprintf(stderr, "%s:%d:%d: %s\n", words[1], (int)fault.line, (int)fault.column, fault.words);
  if (status == SCT_OK) status = find(machine, &numbers);
  for (tick = 0; status == SCT_OK && tick < TICKS; tick++) {
    int32_t boxes = 0, parts = 0;
    uint64_t steps = 0;
    /* between two ticks a configuration is some bytes, which a machine of the same image takes */
    status = sct_save(machine, saved, sizeof saved, &saved_length);
    if (status == SCT_OK) status = sct_reset(machine);
    if (status == SCT_OK) status = sct_restore(machine, saved, saved_length);
    if (status == SCT_OK) status = react(machine, &numbers, ticks[tick], &steps);
    if (status == SCT_OK) status = sct_get_int(machine, numbers.boxes, &boxes);
    if (status == SCT_OK) status = sct_get_int(machine, numbers.parts, &parts);
    if (status == SCT_OK) printf("{\"out\":{\"boxes\":%d,\"parts\":%d},\"steps\":%d,\"tick\":%d}\n", (int)boxes, (int)parts, (int)steps, tick + 1);
  }
  if (status != SCT_OK) fprintf(stderr, "%s\n", sct_status_words(status));
  sct_close(machine);
  return status == SCT_OK ? 0 : 1;
}
