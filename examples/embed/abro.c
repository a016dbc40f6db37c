/* ABRO inside a program in C: the ticks of examples/abro.ticks, as a trace.
 *
 *   cc examples/embed/abro.c -Iinclude release/x86_64-linux/libsct.a -o abro && ./abro
 */
#include <sct.h>

#include <stdio.h>
#include <string.h>

static const char text[] =
    "chart ABRO {\n"
    "  input bool A; input bool B; input bool R; output bool O;\n"
    "  region Main {\n"
    "    initial state ABO {\n"
    "      region Body {\n"
    "        initial state Wait {\n"
    "          region GetA { initial state WA { go if A -> DA; } final state DA; }\n"
    "          region GetB { initial state WB { go if B -> DB; } final state DB; }\n"
    "          join do O = true -> Done;\n"
    "        }\n"
    "        state Done;\n"
    "      }\n"
    "      strong if R do O = false -> ABO;\n"
    "    }\n"
    "  }\n"
    "}\n";

/* The inputs of each tick that are true. */
static const char *const ticks[] = {"", "A", "B", "R", "A", "ABR", "AB"};

/* Gives `true` to each of these inputs, whose names have one letter. */
static sct_status give(sct_machine *machine, const char *names) {
  for (; *names != 0; names++) {
    const char name[2] = {*names, 0};
    size_t number = 0;
    sct_status status = sct_variable_number(machine, name, &number);
    if (status == SCT_OK) status = sct_set_bool(machine, number, 1);
    if (status != SCT_OK) return status;
  }
  return SCT_OK;
}

int main(void) {
  sct_machine *machine = NULL;
  sct_fault fault;
  size_t tick, output = 0;
  sct_status status = sct_open_text(text, strlen(text), &machine, &fault);
  if (status == SCT_TEXT) fprintf(stderr, "%s, line %d\n", fault.words, (int)fault.line);
  if (status == SCT_OK) status = sct_variable_number(machine, "O", &output);
  for (tick = 0; status == SCT_OK && tick < sizeof ticks / sizeof *ticks; tick++) {
    int value = 0;
    uint64_t steps = 0;
    status = give(machine, ticks[tick]);
    if (status == SCT_OK) status = sct_react(machine, &steps);
    if (status == SCT_OK) status = sct_get_bool(machine, output, &value);
    if (status == SCT_OK)
      printf("{\"out\":{\"O\":%s},\"steps\":%d,\"tick\":%d}\n", value ? "true" : "false", (int)steps, (int)tick + 1);
  }
  if (status != SCT_OK) fprintf(stderr, "%s\n", sct_status_words(status));
  sct_close(machine);
  return status == SCT_OK ? 0 : 1;
}
