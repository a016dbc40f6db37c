/*
 * proved.h: the calls of the proved part of the library (crates/sct_c), as C declares them. A slice is a pointer, which is
 * not null, and a count. Each keeps nothing behind the call but what a handle holds, and changes what it is lent alone.
 *
 * What is assumed of whoever calls them: a handle is made null, and written by these calls alone; none is copied where both are
 * used.
 */
#ifndef SCT_PROVED_H
#define SCT_PROVED_H

#include <stdbool.h>
#include <stddef.h>
#include <stdint.h>

struct sct_lengths {
  size_t given;
  size_t words;
};

struct sct_counts {
  size_t variables;
  size_t threads;
  size_t names;
  size_t states;
  size_t state_names;
};

struct sct_row {
  uint32_t kind;
  uint32_t role;
  uint32_t name_length;
};

struct sct_machine_handle {
  void *at;
};

int32_t sct_text_compile(const uint8_t *text, size_t text_length, uint8_t *image, size_t capacity, uint8_t *words, size_t room,
                         struct sct_lengths *lengths);
int32_t sct_image_open(const uint8_t *bytes, size_t length, uint8_t *words, size_t room, struct sct_lengths *lengths,
                       struct sct_machine_handle *machine, struct sct_counts *counts);
int32_t sct_text_open(const uint8_t *text, size_t text_length, uint8_t *words, size_t room, struct sct_lengths *lengths,
                      struct sct_machine_handle *machine, struct sct_counts *counts);
int32_t sct_machine_names(struct sct_machine_handle *machine, struct sct_row *rows, size_t row_count, uint8_t *names, size_t room,
                          uint8_t *states, size_t states_room);
int32_t sct_machine_react(struct sct_machine_handle *machine, const int32_t *inputs, size_t input_count, int32_t *values,
                          size_t value_count, uint64_t *steps);
int32_t sct_machine_save(struct sct_machine_handle *machine, int32_t *values, size_t value_count, uint32_t *statuses,
                         size_t status_count);
int32_t sct_machine_restore(struct sct_machine_handle *machine, const int32_t *values, size_t value_count, const uint32_t *statuses,
                            size_t status_count);
int32_t sct_machine_active(struct sct_machine_handle *machine, uint32_t number, bool *active);
int32_t sct_machine_reset(struct sct_machine_handle *machine);
void sct_machine_close(struct sct_machine_handle *machine);

#endif
