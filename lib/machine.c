/*
 * machine.c: the calls of sct.h. It keeps the handle of a machine, and the cells of inputs and values, tests what a caller can
 * get wrong, and leaves all else to the proved calls of proved.h.
 */
#include "../include/sct.h"

#include "heap.h"
#include "proved.h"

#include <string.h>

/* What is C's own of a machine lies in one block of memory, behind this; the handle leads to what is proved. */
struct sct_machine {
  struct sct_machine_handle handle;
  size_t variables;
  size_t threads;
  size_t states;
  size_t *name_starts;
  size_t *state_starts;
  struct sct_row *rows;
  int32_t *inputs;
  int32_t *values;
  int32_t *saved_values; /* what is on its way to or from bytes */
  uint32_t *saved_statuses;
  char *names; /* each with a zero byte behind it */
  char *state_names;
};

/* What stands where a slice of no items begins: its pointer is not null. */
static uint64_t nothing[1];

const char *sct_status_words(sct_status status) {
  switch (status) {
    case SCT_OK: return "done";
    case SCT_NULL: return "a pointer is null";
    case SCT_MEMORY: return "memory was refused";
    case SCT_TEXT: return "the text is refused";
    case SCT_IMAGE: return "the bytes are no valid image";
    case SCT_NUMBER: return "there is no such variable";
    case SCT_ROLE: return "the variable is no input";
    case SCT_KIND: return "the kind does not fit";
    case SCT_BUFFER: return "the buffer is too short";
    case SCT_CONTROL: return "the bytes hold no configuration of this machine";
  }
  return "no status";
}

/* ---- faults */

/* The number that stands here in decimal digits. */
static uint64_t number_at(const char *digits) {
  uint64_t number = 0;
  for (; *digits >= '0' && *digits <= '9'; digits++) number = number * 10 + (uint64_t)(*digits - '0');
  return number;
}

/* Finds the line and the column of a place in a text. */
static void find_place(const char *text, size_t length, uint64_t offset, sct_fault *fault) {
  size_t at;
  fault->line = 1;
  fault->column = 1;
  for (at = 0; at < length && at < offset; at++) {
    if (text[at] == '\n') {
      fault->line++;
      fault->column = 1;
    } else {
      fault->column++;
    }
  }
}

static void forget(sct_fault *fault) {
  if (fault != NULL) memset(fault, 0, sizeof *fault);
}

/* Reads a fault from its words, as `E03 at 57`; the text counts where the fault is one of a text. What the status is. */
static sct_status tell(int32_t status, const char *words, const char *text, size_t length, sct_fault *fault) {
  if (status != SCT_TEXT && status != SCT_IMAGE) return (sct_status)status;
  if (strncmp(words, "E52", 3) == 0) return SCT_MEMORY;
  if (fault != NULL) {
    memcpy(fault->words, words, sizeof fault->words);
    fault->number = (int32_t)number_at(words + 1);
    if (status == SCT_TEXT && strncmp(words + 3, " at ", 4) == 0) find_place(text, length, number_at(words + 7), fault);
  }
  return (sct_status)status;
}

/* ---- compiling */

sct_status sct_compile(const char *text, size_t text_length, uint8_t *image, size_t capacity, size_t *image_length, sct_fault *fault) {
  struct sct_lengths lengths = {0, 0};
  char words[sizeof fault->words];
  int32_t status;
  if ((text == NULL && text_length > 0) || image_length == NULL || (image == NULL && capacity > 0)) return SCT_NULL;
  memset(words, 0, sizeof words);
  forget(fault);
  status = sct_text_compile(text_length > 0 ? (const uint8_t *)text : (const uint8_t *)nothing, text_length,
                            capacity > 0 ? image : (uint8_t *)nothing, capacity, (uint8_t *)words, sizeof words - 1, &lengths);
  if (status == SCT_OK || status == SCT_BUFFER) *image_length = lengths.given;
  return tell(status, words, text, text_length, fault);
}

/* ---- opening and closing */

/* Adds the size of some items to a size. Whether it is no more than half of what there can be. */
static int has_room(size_t *size, size_t count, size_t each) {
  if (count > (SIZE_MAX / 2 - *size) / each) return 0;
  *size += count * each;
  return 1;
}

/* A machine with room for its parts, none of which is filled. Null: memory was refused. */
static sct_machine *room_for(const struct sct_counts *counts) {
  size_t size = sizeof(sct_machine), variables = counts->variables, states = counts->states;
  sct_machine *machine;
  struct rattle_tried tried;
  if (!has_room(&size, variables, sizeof(size_t)) || !has_room(&size, states, sizeof(size_t)) ||
      !has_room(&size, variables, sizeof(struct sct_row)) || !has_room(&size, variables, 3 * sizeof(int32_t)) ||
      !has_room(&size, counts->threads, sizeof(uint32_t)) || !has_room(&size, counts->names, 1) ||
      !has_room(&size, counts->state_names, 1))
    return NULL;
  tried = rattle_alloc(size, 16);
  if (!tried.has) return NULL;
  machine = (sct_machine *)tried.at;
  machine->variables = variables;
  machine->threads = counts->threads;
  machine->states = states;
  machine->name_starts = (size_t *)(void *)(machine + 1);
  machine->state_starts = machine->name_starts + variables;
  machine->rows = (struct sct_row *)(void *)(machine->state_starts + states);
  machine->inputs = (int32_t *)(void *)(machine->rows + variables);
  machine->values = machine->inputs + variables;
  machine->saved_values = machine->values + variables;
  machine->saved_statuses = (uint32_t *)(void *)(machine->saved_values + variables);
  machine->names = (char *)(machine->saved_statuses + counts->threads);
  machine->state_names = machine->names + counts->names;
  return machine;
}

/* Finds where each name begins, of those that stand in a row with a zero byte behind each. */
static void find_starts(const char *names, size_t *starts, size_t count) {
  size_t number, at = 0;
  for (number = 0; number < count; number++) {
    starts[number] = at;
    at += strlen(names + at) + 1;
  }
}

/* Where a slice of bytes begins, of which there may be none. */
static const uint8_t *bytes_at(const void *bytes, size_t length) {
  return length > 0 ? (const uint8_t *)bytes : (const uint8_t *)nothing;
}

/* Fills the parts of a machine by what is behind its handle. */
static int32_t fill(sct_machine *machine, const struct sct_counts *counts) {
  int32_t status = sct_machine_names(&machine->handle, machine->rows, machine->variables, (uint8_t *)machine->names, counts->names,
                                     (uint8_t *)machine->state_names, counts->state_names);
  if (status != SCT_OK) return status;
  find_starts(machine->names, machine->name_starts, machine->variables);
  find_starts(machine->state_names, machine->state_starts, machine->states);
  memset(machine->inputs, 0, machine->variables * sizeof(int32_t));
  return sct_machine_save(&machine->handle, machine->values, machine->variables, machine->saved_statuses, machine->threads);
}

/* Gives the machine behind a handle that was opened; where memory is refused, it is closed. */
static sct_status machine_of(struct sct_machine_handle handle, const struct sct_counts *counts, sct_machine **machine) {
  sct_machine *made = room_for(counts);
  if (made == NULL) {
    sct_machine_close(&handle);
    return SCT_MEMORY;
  }
  made->handle = handle;
  if (fill(made, counts) != SCT_OK) {
    sct_close(made);
    return SCT_MEMORY; /* the image is valid, so nothing else can have been refused */
  }
  *machine = made;
  return SCT_OK;
}

/* What opens bytes behind a handle: an image, or a text. */
typedef int32_t opens(const uint8_t *, size_t, uint8_t *, size_t, struct sct_lengths *, struct sct_machine_handle *, struct sct_counts *);

static sct_status open_by(opens *call, const void *bytes, size_t length, sct_machine **machine, sct_fault *fault) {
  struct sct_lengths lengths = {0, 0};
  struct sct_counts counts = {0, 0, 0, 0, 0};
  struct sct_machine_handle handle = {NULL};
  char words[sizeof fault->words];
  int32_t status;
  if (machine == NULL) return SCT_NULL;
  *machine = NULL;
  if (bytes == NULL && length > 0) return SCT_NULL;
  memset(words, 0, sizeof words);
  forget(fault);
  status = call(bytes_at(bytes, length), length, (uint8_t *)words, sizeof words - 1, &lengths, &handle, &counts);
  if (status != SCT_OK) return tell(status, words, (const char *)bytes, length, fault);
  return machine_of(handle, &counts, machine);
}

sct_status sct_open(const uint8_t *image, size_t image_length, sct_machine **machine, sct_fault *fault) {
  return open_by(sct_image_open, image, image_length, machine, fault);
}

sct_status sct_open_text(const char *text, size_t text_length, sct_machine **machine, sct_fault *fault) {
  return open_by(sct_text_open, text, text_length, machine, fault);
}

void sct_close(sct_machine *machine) {
  if (machine == NULL) return;
  sct_machine_close(&machine->handle);
  rattle_dealloc(machine);
}

/* ---- variables */

size_t sct_variable_count(const sct_machine *machine) {
  return machine != NULL ? machine->variables : 0;
}

const char *sct_variable_name(const sct_machine *machine, size_t number) {
  if (machine == NULL || number >= machine->variables) return NULL;
  return machine->names + machine->name_starts[number];
}

sct_status sct_variable_kind(const sct_machine *machine, size_t number, sct_kind *kind) {
  if (machine == NULL || kind == NULL) return SCT_NULL;
  if (number >= machine->variables) return SCT_NUMBER;
  *kind = (sct_kind)machine->rows[number].kind;
  return SCT_OK;
}

sct_status sct_variable_role(const sct_machine *machine, size_t number, sct_role *role) {
  if (machine == NULL || role == NULL) return SCT_NULL;
  if (number >= machine->variables) return SCT_NUMBER;
  *role = (sct_role)machine->rows[number].role;
  return SCT_OK;
}

sct_status sct_variable_number(const sct_machine *machine, const char *name, size_t *number) {
  size_t at;
  if (machine == NULL || name == NULL || number == NULL) return SCT_NULL;
  for (at = 0; at < machine->variables; at++) {
    if (strcmp(machine->names + machine->name_starts[at], name) == 0) {
      *number = at;
      return SCT_OK;
    }
  }
  return SCT_NUMBER;
}

/* ---- ticks */

/* Gives a value to an input of this kind. */
static sct_status set(sct_machine *machine, size_t number, uint32_t kind, int32_t value) {
  if (machine == NULL) return SCT_NULL;
  if (number >= machine->variables) return SCT_NUMBER;
  if (machine->rows[number].role != SCT_INPUT) return SCT_ROLE;
  if (machine->rows[number].kind != kind) return SCT_KIND;
  machine->inputs[number] = value;
  return SCT_OK;
}

sct_status sct_set_bool(sct_machine *machine, size_t number, int value) {
  sct_status status = set(machine, number, SCT_BOOL, machine != NULL && number < machine->variables ? machine->inputs[number] : 0);
  if (status != SCT_OK) return status;
  if (value != 0 && value != 1) return SCT_KIND;
  machine->inputs[number] = value;
  return SCT_OK;
}

sct_status sct_set_int(sct_machine *machine, size_t number, int32_t value) {
  return set(machine, number, SCT_INT, value);
}

sct_status sct_react(sct_machine *machine, uint64_t *steps) {
  uint64_t count = 0;
  int32_t status;
  if (machine == NULL) return SCT_NULL;
  status = sct_machine_react(&machine->handle, machine->inputs, machine->variables, machine->values, machine->variables, &count);
  if (status != SCT_OK) return (sct_status)status;
  memset(machine->inputs, 0, machine->variables * sizeof(int32_t));
  if (steps != NULL) *steps = count;
  return SCT_OK;
}

/* The value of a variable of this kind. */
static sct_status get(const sct_machine *machine, size_t number, uint32_t kind, const int32_t **value) {
  if (machine == NULL) return SCT_NULL;
  if (number >= machine->variables) return SCT_NUMBER;
  if (machine->rows[number].kind != kind) return SCT_KIND;
  *value = machine->values + number;
  return SCT_OK;
}

sct_status sct_get_bool(const sct_machine *machine, size_t number, int *value) {
  const int32_t *cell = NULL;
  sct_status status = value != NULL ? get(machine, number, SCT_BOOL, &cell) : SCT_NULL;
  if (status == SCT_OK) *value = *cell;
  return status;
}

sct_status sct_get_int(const sct_machine *machine, size_t number, int32_t *value) {
  const int32_t *cell = NULL;
  sct_status status = value != NULL ? get(machine, number, SCT_INT, &cell) : SCT_NULL;
  if (status == SCT_OK) *value = *cell;
  return status;
}

/* ---- states of a chart */

size_t sct_state_count(const sct_machine *machine) {
  return machine != NULL ? machine->states : 0;
}

const char *sct_state_name(const sct_machine *machine, size_t number) {
  if (machine == NULL || number >= machine->states) return NULL;
  return machine->state_names + machine->state_starts[number];
}

sct_status sct_active(const sct_machine *machine, size_t number, int *active) {
  sct_machine *own = (sct_machine *)machine; /* its handle is taken and put back */
  bool is = false;
  int32_t status;
  if (machine == NULL || active == NULL) return SCT_NULL;
  if (number >= machine->states) return SCT_NUMBER;
  status = sct_machine_active(&own->handle, (uint32_t)number, &is);
  if (status == SCT_OK) *active = is;
  return (sct_status)status;
}

/* ---- configurations */

static size_t saved_length(const sct_machine *machine) {
  return (machine->variables + machine->threads) * 4;
}

/* A cell as four bytes, the lowest first. */
static void put_cell(uint8_t *bytes, uint32_t cell) {
  bytes[0] = (uint8_t)(cell & 255);
  bytes[1] = (uint8_t)(cell >> 8 & 255);
  bytes[2] = (uint8_t)(cell >> 16 & 255);
  bytes[3] = (uint8_t)(cell >> 24);
}

static uint32_t cell_at(const uint8_t *bytes) {
  return (uint32_t)bytes[0] | (uint32_t)bytes[1] << 8 | (uint32_t)bytes[2] << 16 | (uint32_t)bytes[3] << 24;
}

sct_status sct_save(const sct_machine *machine, uint8_t *bytes, size_t capacity, size_t *length) {
  sct_machine *own = (sct_machine *)machine; /* its handle is taken and put back */
  int32_t status;
  size_t at;
  if (machine == NULL || length == NULL || (bytes == NULL && capacity > 0)) return SCT_NULL;
  *length = saved_length(machine);
  if (capacity < *length) return SCT_BUFFER;
  status = sct_machine_save(&own->handle, own->saved_values, machine->variables, own->saved_statuses, machine->threads);
  if (status != SCT_OK) return (sct_status)status;
  for (at = 0; at < machine->variables; at++) put_cell(bytes + 4 * at, (uint32_t)machine->saved_values[at]);
  for (at = 0; at < machine->threads; at++) put_cell(bytes + 4 * (machine->variables + at), machine->saved_statuses[at]);
  return SCT_OK;
}

sct_status sct_restore(sct_machine *machine, const uint8_t *bytes, size_t length) {
  int32_t status;
  size_t at;
  if (machine == NULL || (bytes == NULL && length > 0)) return SCT_NULL;
  if (length != saved_length(machine)) return SCT_CONTROL;
  for (at = 0; at < machine->variables; at++) {
    uint32_t cell = cell_at(bytes + 4 * at);
    memcpy(machine->saved_values + at, &cell, sizeof cell);
  }
  for (at = 0; at < machine->threads; at++) machine->saved_statuses[at] = cell_at(bytes + 4 * (machine->variables + at));
  status = sct_machine_restore(&machine->handle, machine->saved_values, machine->variables, machine->saved_statuses,
                               machine->threads);
  if (status == SCT_OK) memcpy(machine->values, machine->saved_values, machine->variables * sizeof(int32_t));
  return (sct_status)status;
}

sct_status sct_reset(sct_machine *machine) {
  int32_t status;
  if (machine == NULL) return SCT_NULL;
  status = sct_machine_reset(&machine->handle);
  if (status != SCT_OK) return (sct_status)status;
  return (sct_status)sct_machine_save(&machine->handle, machine->values, machine->variables, machine->saved_statuses, machine->threads);
}
