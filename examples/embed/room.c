/* A heater and the room that it heats: the machine decides, the room follows, and what is measured there goes back into
 * the machine. A line for each minute.
 *
 *   cc examples/embed/room.c -Iinclude release/x86_64-linux/libsct.a -o room && ./room examples/heater.scl
 */
#include <sct.h>

#include <stdio.h>

/* A room: tenths of a degree. */
struct room {
  int inside, outside;
};

/* One minute: a sixtieth of what is warmer inside is lost, and a heater at full power brings two degrees. */
static void heat(struct room *room, int power) {
  room->inside += power / 5 - (room->inside - room->outside) / 60;
}

int main(int count, char **words) {
  static char text[10000];
  struct room room = {160, 20};
  size_t length, degrees = 0, open = 0, power = 0;
  sct_machine *machine = NULL;
  sct_fault fault;
  sct_status status;
  int minute;
  FILE *file = count == 2 ? fopen(words[1], "rb") : NULL;
  if (file == NULL) {
    fprintf(stderr, "usage: room SCL\n");
    return 2;
  }
  length = fread(text, 1, sizeof text, file);
  fclose(file);
  status = sct_open_text(text, length, &machine, &fault);
  if (status == SCT_TEXT) fprintf(stderr, "%s:%d:%d: %s\n", words[1], (int)fault.line, (int)fault.column, fault.words);
  if (status == SCT_OK) status = sct_variable_number(machine, "degrees", &degrees);
  if (status == SCT_OK) status = sct_variable_number(machine, "open", &open);
  if (status == SCT_OK) status = sct_variable_number(machine, "power", &power);
  for (minute = 1; status == SCT_OK && minute <= 40; minute++) {
    int32_t percent = 0;
    status = sct_set_int(machine, degrees, room.inside / 10);
    if (status == SCT_OK) status = sct_set_bool(machine, open, minute >= 20 && minute < 25);
    if (status == SCT_OK) status = sct_react(machine, NULL);
    if (status == SCT_OK) status = sct_get_int(machine, power, &percent);
    if (status != SCT_OK) break;
    heat(&room, (int)percent);
    printf("%d %d.%d %d\n", minute, room.inside / 10, room.inside % 10, (int)percent);
  }
  if (status != SCT_OK) fprintf(stderr, "%s\n", sct_status_words(status));
  sct_close(machine);
  return status == SCT_OK ? 0 : 1;
}
