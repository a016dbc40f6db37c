/* Every status of sct.h, provoked; what was refused has changed nothing. Prints what does not hold, and ends with 1 then. */
#include <sct.h>

#include <stdio.h>
#include <string.h>

static int failed = 0, passed = 0;

static void check(int holds, int line) {
  if (holds) passed++;
  else {
    failed++;
    fprintf(stderr, "statuses.c: line %d does not hold\n", line);
  }
}

#define HOLDS(condition) check((condition) ? 1 : 0, __LINE__)

static const char text[] =
    "scl sums {\n"
    "  input int n;\n"
    "  input bool clear;\n"
    "  output int sum;\n"
    "  output bool any;\n"
    "  local int before;\n"
    "  again:\n"
    "  before = sum;\n"
    "  sum = before + n;\n"
    "  if (clear) {\n"
    "    sum = 0;\n"
    "  }\n"
    "  any = n != 0;\n"
    "  pause;\n"
    "  goto again;\n"
    "}\n";

enum { N, CLEAR, SUM, ANY, BEFORE, COUNT };

static void refuse_texts(void) {
  uint8_t image[2000];
  size_t length = 77;
  sct_fault fault;
  HOLDS(sct_compile(NULL, 5, image, sizeof image, &length, &fault) == SCT_NULL);
  HOLDS(sct_compile(text, strlen(text), image, sizeof image, NULL, &fault) == SCT_NULL);
  HOLDS(sct_compile(text, strlen(text), NULL, 5, &length, &fault) == SCT_NULL && length == 77);
  HOLDS(sct_compile(NULL, 0, NULL, 0, &length, &fault) == SCT_TEXT && fault.number == 2 && fault.line == 1 && fault.column == 1);
  HOLDS(sct_compile("chart \"", 7, NULL, 0, &length, &fault) == SCT_TEXT && fault.number == 1);
  HOLDS(fault.line == 1 && fault.column == 7 && strcmp(fault.words, "E01 at 6") == 0 && length == 77);
  HOLDS(sct_compile("scl p {\n  x = 1;\n}", 18, NULL, 0, &length, &fault) == SCT_TEXT && fault.number == 3);
  HOLDS(fault.line == 2 && fault.column == 3 && strcmp(fault.words, "E03 at 10") == 0);
  HOLDS(sct_compile("scl p {\n  x = 1;\n}", 18, NULL, 0, &length, NULL) == SCT_TEXT);
  HOLDS(sct_compile("scl p { output int x; a: x = 1; goto a; }", 41, NULL, 0, &length, &fault) == SCT_TEXT && fault.number == 13);
  HOLDS(fault.line == 0 && fault.column == 0);
  HOLDS(sct_compile(text, strlen(text), image, 10, &length, &fault) == SCT_BUFFER && length > 10 && fault.number == 0);
  HOLDS(sct_compile(text, strlen(text), image, length, &length, &fault) == SCT_OK);
  HOLDS(sct_compile(text, strlen(text), image, length - 1, &length, &fault) == SCT_BUFFER);
}

static void refuse_images(void) {
  uint8_t image[2000];
  size_t length = 0, at;
  sct_fault fault;
  sct_machine *machine = (sct_machine *)&fault;
  HOLDS(sct_compile(text, strlen(text), image, sizeof image, &length, NULL) == SCT_OK);
  HOLDS(sct_open(image, length, NULL, &fault) == SCT_NULL);
  HOLDS(sct_open(NULL, 4, &machine, &fault) == SCT_NULL && machine == NULL);
  HOLDS(sct_open(NULL, 0, &machine, &fault) == SCT_IMAGE && machine == NULL && fault.number >= 21);
  for (at = 0; at < length; at++) HOLDS(sct_open(image, at, &machine, &fault) == SCT_IMAGE && fault.number == 21);
  image[length - 1] ^= 64;
  HOLDS(sct_open(image, length, &machine, &fault) == SCT_IMAGE && fault.number >= 21 && fault.line == 0);
  HOLDS(sct_open(image, length, &machine, NULL) == SCT_IMAGE && machine == NULL);
  HOLDS(sct_open_text("scl", 3, &machine, &fault) == SCT_TEXT && machine == NULL && fault.number == 2);
  HOLDS(sct_open_text(text, strlen(text), NULL, &fault) == SCT_NULL);
}

static void refuse_nulls(sct_machine *machine) {
  size_t number = 0;
  int truth = 0;
  int32_t value = 0;
  uint8_t byte = 0;
  sct_kind kind;
  sct_role role;
  sct_close(NULL);
  HOLDS(sct_variable_count(NULL) == 0 && sct_variable_name(NULL, 0) == NULL && sct_variable_name(machine, COUNT) == NULL);
  HOLDS(sct_variable_kind(NULL, 0, &kind) == SCT_NULL && sct_variable_kind(machine, 0, NULL) == SCT_NULL);
  HOLDS(sct_variable_role(NULL, 0, &role) == SCT_NULL && sct_variable_role(machine, 0, NULL) == SCT_NULL);
  HOLDS(sct_variable_number(NULL, "n", &number) == SCT_NULL && sct_variable_number(machine, NULL, &number) == SCT_NULL);
  HOLDS(sct_variable_number(machine, "n", NULL) == SCT_NULL);
  HOLDS(sct_set_bool(NULL, 0, 1) == SCT_NULL && sct_set_int(NULL, 0, 1) == SCT_NULL && sct_react(NULL, NULL) == SCT_NULL);
  HOLDS(sct_get_bool(NULL, ANY, &truth) == SCT_NULL && sct_get_bool(machine, ANY, NULL) == SCT_NULL);
  HOLDS(sct_get_int(NULL, SUM, &value) == SCT_NULL && sct_get_int(machine, SUM, NULL) == SCT_NULL);
  HOLDS(sct_save(NULL, &byte, 1, &number) == SCT_NULL && sct_save(machine, NULL, 1, &number) == SCT_NULL);
  HOLDS(sct_save(machine, &byte, 1, NULL) == SCT_NULL);
  HOLDS(sct_restore(NULL, &byte, 1) == SCT_NULL && sct_restore(machine, NULL, 1) == SCT_NULL && sct_reset(NULL) == SCT_NULL);
}

static void refuse_variables(sct_machine *machine) {
  size_t number = 77;
  int truth = 77;
  int32_t value = 77;
  sct_kind kind;
  sct_role role;
  HOLDS(sct_variable_count(machine) == COUNT && strcmp(sct_variable_name(machine, BEFORE), "before") == 0);
  HOLDS(sct_variable_kind(machine, CLEAR, &kind) == SCT_OK && kind == SCT_BOOL);
  HOLDS(sct_variable_role(machine, BEFORE, &role) == SCT_OK && role == SCT_LOCAL);
  HOLDS(sct_variable_kind(machine, COUNT, &kind) == SCT_NUMBER && sct_variable_role(machine, (size_t)-1, &role) == SCT_NUMBER);
  HOLDS(sct_variable_number(machine, "nn", &number) == SCT_NUMBER && sct_variable_number(machine, "", &number) == SCT_NUMBER && number == 77);
  HOLDS(sct_variable_number(machine, "any", &number) == SCT_OK && number == ANY);
  HOLDS(sct_set_int(machine, COUNT, 1) == SCT_NUMBER && sct_set_bool(machine, COUNT, 1) == SCT_NUMBER);
  HOLDS(sct_set_int(machine, SUM, 1) == SCT_ROLE && sct_set_bool(machine, ANY, 1) == SCT_ROLE && sct_set_int(machine, BEFORE, 1) == SCT_ROLE);
  HOLDS(sct_set_bool(machine, N, 1) == SCT_KIND && sct_set_int(machine, CLEAR, 1) == SCT_KIND && sct_set_bool(machine, CLEAR, 2) == SCT_KIND);
  HOLDS(sct_get_int(machine, ANY, &value) == SCT_KIND && sct_get_bool(machine, SUM, &truth) == SCT_KIND);
  HOLDS(sct_get_int(machine, COUNT, &value) == SCT_NUMBER && sct_get_bool(machine, COUNT, &truth) == SCT_NUMBER);
  HOLDS(truth == 77 && value == 77);
}

static int32_t sum_of(const sct_machine *machine) {
  int32_t sum = -77;
  HOLDS(sct_get_int(machine, SUM, &sum) == SCT_OK);
  return sum;
}

static void refuse_configurations(sct_machine *machine) {
  uint8_t saved[100], other[100];
  size_t length = 0, at;
  uint64_t steps = 0;
  HOLDS(sct_reset(machine) == SCT_OK && sum_of(machine) == 0);
  HOLDS(sct_set_int(machine, N, 5) == SCT_OK && sct_react(machine, &steps) == SCT_OK && steps > 0 && sum_of(machine) == 5);
  HOLDS(sct_react(machine, NULL) == SCT_OK && sum_of(machine) == 5);
  HOLDS(sct_save(machine, NULL, 0, &length) == SCT_BUFFER && length == 4 * (COUNT + 1));
  HOLDS(sct_save(machine, saved, length - 1, &length) == SCT_BUFFER && sct_save(machine, saved, sizeof saved, &length) == SCT_OK);
  HOLDS(sct_set_int(machine, N, 3) == SCT_OK && sct_react(machine, NULL) == SCT_OK && sum_of(machine) == 8);
  HOLDS(sct_restore(machine, saved, length - 1) == SCT_CONTROL && sct_restore(machine, NULL, 0) == SCT_CONTROL && sum_of(machine) == 8);
  memcpy(other, saved, sizeof saved);
  other[4 * ANY] = 2; /* no truth value */
  HOLDS(sct_restore(machine, other, length) == SCT_CONTROL && sum_of(machine) == 8);
  for (at = 0; at < 4; at++) { /* of each status of the thread with one byte changed one alone, where it is absent, could fit */
    memcpy(other, saved, sizeof saved);
    other[4 * COUNT + at] ^= 129;
    HOLDS(sct_restore(machine, other, length) == SCT_CONTROL && sum_of(machine) == 8);
  }
  HOLDS(sct_restore(machine, saved, length) == SCT_OK && sum_of(machine) == 5);
  HOLDS(sct_set_int(machine, N, INT32_MIN) == SCT_OK && sct_react(machine, NULL) == SCT_OK && sum_of(machine) == INT32_MIN + 5);
}

static const char chart[] =
    "chart doors {\n"
    "  input bool open;\n"
    "  output bool light;\n"
    "  region Main {\n"
    "    initial state Shut { go if open do light = true -> Open; }\n"
    "    state Open { go if not open do light = false -> Shut; }\n"
    "  }\n"
    "}\n";

static int is_active(const sct_machine *machine, size_t number) {
  int active = 77;
  HOLDS(sct_active(machine, number, &active) == SCT_OK);
  return active;
}

static void ask_states(const sct_machine *none) {
  sct_machine *machine = NULL;
  int active = 77;
  HOLDS(sct_state_count(NULL) == 0 && sct_state_name(NULL, 0) == NULL && sct_active(NULL, 0, &active) == SCT_NULL);
  HOLDS(sct_state_count(none) == 0 && sct_state_name(none, 0) == NULL && sct_active(none, 0, &active) == SCT_NUMBER);
  HOLDS(sct_open_text(chart, strlen(chart), &machine, NULL) == SCT_OK);
  if (machine == NULL) return;
  HOLDS(sct_state_count(machine) == 2 && strcmp(sct_state_name(machine, 0), "Main.Shut") == 0);
  HOLDS(strcmp(sct_state_name(machine, 1), "Main.Open") == 0 && sct_state_name(machine, 2) == NULL);
  HOLDS(sct_active(machine, 0, NULL) == SCT_NULL && sct_active(machine, 2, &active) == SCT_NUMBER && active == 77);
  HOLDS(!is_active(machine, 0) && !is_active(machine, 1)); /* before the first tick no thread rests */
  HOLDS(sct_react(machine, NULL) == SCT_OK && is_active(machine, 0) && !is_active(machine, 1));
  HOLDS(sct_set_bool(machine, 0, 1) == SCT_OK && sct_react(machine, NULL) == SCT_OK && !is_active(machine, 0) && is_active(machine, 1));
  HOLDS(sct_react(machine, NULL) == SCT_OK && is_active(machine, 0) && !is_active(machine, 1));
  sct_close(machine);
}

int main(void) {
  sct_machine *machine = NULL;
  int status;
  refuse_texts();
  refuse_images();
  HOLDS(sct_open_text(text, strlen(text), &machine, NULL) == SCT_OK && machine != NULL);
  refuse_nulls(machine);
  refuse_variables(machine);
  refuse_configurations(machine);
  ask_states(machine);
  sct_close(machine);
  for (status = SCT_OK; status <= SCT_CONTROL; status++) HOLDS(strcmp(sct_status_words((sct_status)status), "no status") != 0);
  printf("%d passed, %d failed\n", passed, failed);
  return failed ? 1 : 0;
}
