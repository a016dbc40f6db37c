/*
 * sct.h: the verified machine of Soilannual in a program in C or C++.
 *
 * Link with libsct.a, which needs of the C library malloc, realloc, free and what copies and compares memory. Nothing is
 * printed and no file is opened. The library has no variables of its own: any number of machines can be open, and each
 * call works on what it is given. One machine is used by one thread at a time; no call is made from a signal handler, nor
 * in the forked child of a process with threads.
 *
 * Each call that can be refused gives a status. Where it is not SCT_OK nothing has changed, except where a call says what
 * it then writes. Pointers are to memory of the caller's, which stays so; the library keeps none of them behind a call.
 * Lengths are in bytes, numbers of variables count from 0 in the order of the image.
 */
#ifndef SCT_H
#define SCT_H

#include <stddef.h>
#include <stdint.h>

#ifdef __cplusplus
extern "C" {
#endif

/* What a call answers. */
typedef enum sct_status {
  SCT_OK = 0,
  SCT_NULL = 1,    /* a pointer is null that may not be */
  SCT_MEMORY = 2,  /* memory was refused */
  SCT_TEXT = 3,    /* the text is refused: the fault says why */
  SCT_IMAGE = 4,   /* the bytes spell no image, or none that keeps the rules: the fault says why */
  SCT_NUMBER = 5,  /* no variable has this number, or this name; or no state has this number */
  SCT_ROLE = 6,    /* the variable is no input */
  SCT_KIND = 7,    /* the variable is of the other kind, or the value is none of its kind */
  SCT_BUFFER = 8,  /* the buffer is too short; the length that it needs was written */
  SCT_CONTROL = 9  /* the bytes hold no configuration in which this machine rests */
} sct_status;

/* The kind of a variable. */
typedef enum sct_kind { SCT_BOOL = 0, SCT_INT = 1 } sct_kind;

/* Who writes a variable, and who sees it. */
typedef enum sct_role { SCT_INPUT = 0, SCT_OUTPUT = 1, SCT_LOCAL = 2 } sct_role;

/* Why a text or an image is refused. `words` ends with a zero byte, and is cut off where it is longer; it is the line that
 * the program `sct` prints, as `E03 at 57`, and docs/faults.md has a cause and a cure for each. `number` is that of the
 * fault, 3 for E03, or 0 where nothing was refused. `line` and `column` count from 1, the column in bytes, and are 0 where
 * the fault has no place in the text. */
typedef struct sct_fault {
  int32_t number;
  uint64_t line;
  uint64_t column;
  char words[256];
} sct_fault;

/* A machine. Its parts are the library's. */
typedef struct sct_machine sct_machine;

/* Words for a status, in English. They are never freed. */
const char *sct_status_words(sct_status status);

/* Compiles a text, a chart, an extended chart or an SCL program, of `text_length` bytes into the bytes of an image, which go
 * into `image`, a buffer of `capacity` bytes, and writes their count to `image_length`. `image` may be null where `capacity`
 * is 0: so one asks for the length. `fault` may be null. The image of an extended chart is that of the chart to which it is
 * reduced (docs/extended.md); where its text has a fault, the place of that is in this text.
 * SCT_TEXT: the text is refused, and `fault` says why. SCT_BUFFER: `image_length` has the length that is needed.
 * SCT_MEMORY, SCT_NULL. */
sct_status sct_compile(const char *text, size_t text_length, uint8_t *image, size_t capacity, size_t *image_length, sct_fault *fault);

/* Opens the image in these bytes, which are decoded and verified, and gives a machine that stands before its first tick. The
 * bytes are copied. The machine is the caller's, who closes it. `fault` may be null.
 * SCT_IMAGE: `fault` says why. SCT_MEMORY, SCT_NULL. Where it is refused `*machine` is null. */
sct_status sct_open(const uint8_t *image, size_t image_length, sct_machine **machine, sct_fault *fault);

/* Compiles a text as sct_compile does, and opens its image; of a chart the states are known then, and of an extended chart those
 * of the chart to which it is reduced. SCT_TEXT: `fault` says why. */
sct_status sct_open_text(const char *text, size_t text_length, sct_machine **machine, sct_fault *fault);

/* Gives back all memory of a machine, which is not used again: what a later call with it does is not defined, as of memory that
 * was given to free. A null pointer is let pass. */
void sct_close(sct_machine *machine);

/* How many variables a machine has; 0 of a null pointer. */
size_t sct_variable_count(const sct_machine *machine);

/* The name of a variable, 1 to 64 letters, digits and `_` and a zero byte. It lives as long as the machine. Null where no
 * variable has this number. */
const char *sct_variable_name(const sct_machine *machine, size_t number);

/* The kind and the role of a variable. SCT_NUMBER, SCT_NULL. */
sct_status sct_variable_kind(const sct_machine *machine, size_t number, sct_kind *kind);
sct_status sct_variable_role(const sct_machine *machine, size_t number, sct_role *role);

/* The number of the variable of this name. SCT_NUMBER: there is none. SCT_NULL. */
sct_status sct_variable_number(const sct_machine *machine, const char *name, size_t *number);

/* Gives a value to an input for the next tick. What was not given since the last tick is `false` or 0. A truth value is 0
 * or 1. SCT_NUMBER, SCT_ROLE, SCT_KIND, SCT_NULL. */
sct_status sct_set_bool(sct_machine *machine, size_t number, int value);
sct_status sct_set_int(sct_machine *machine, size_t number, int32_t value);

/* One tick, under the inputs that were given since the last one. `steps` takes how many steps it took, and may be null. The
 * inputs are taken back then. It takes no memory: a machine has the room for its ticks from when it is opened. SCT_NULL. */
sct_status sct_react(sct_machine *machine, uint64_t *steps);

/* The value of a variable after the last tick, or before the first: 0 or 1 of a truth value. SCT_NUMBER, SCT_KIND, SCT_NULL. */
sct_status sct_get_bool(const sct_machine *machine, size_t number, int *value);
sct_status sct_get_int(const sct_machine *machine, size_t number, int32_t *value);

/* How many states the chart has from whose text a machine was opened; 0 where it was opened from an image, or from the text of
 * a program, which has none. */
size_t sct_state_count(const sct_machine *machine);

/* The name of a state, with the regions and states that it is in, as `Main.Running/Left.Belt`. It lives as long as the machine.
 * Null where no state has this number. States are numbered from 0 in the order of the text. */
const char *sct_state_name(const sct_machine *machine, size_t number);

/* Whether a state is active between two ticks, as 1 or 0. SCT_NUMBER: there is none of this number. SCT_NULL. */
sct_status sct_active(const sct_machine *machine, size_t number, int *active);

/* The configuration of a machine between two ticks as bytes, of which there are always as many for one image. They go into
 * `bytes`, a buffer of `capacity` bytes, and `length` takes their count. `bytes` may be null where `capacity` is 0. Inputs
 * that were given for the next tick are no part of it. SCT_BUFFER: `length` has the length that is needed. SCT_NULL. */
sct_status sct_save(const sct_machine *machine, uint8_t *bytes, size_t capacity, size_t *length);

/* Puts a machine into the configuration in these bytes. They are accepted exactly where a machine of this image can rest in
 * them, whoever made them. Inputs that were given for the next tick stay. SCT_CONTROL, SCT_MEMORY, SCT_NULL. */
sct_status sct_restore(sct_machine *machine, const uint8_t *bytes, size_t length);

/* Puts a machine before its first tick. SCT_MEMORY, SCT_NULL. */
sct_status sct_reset(sct_machine *machine);

#ifdef __cplusplus
}
#endif

#endif
