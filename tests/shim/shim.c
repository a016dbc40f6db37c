/* The shim. It is preloaded into the program, stands between it and the system, and makes what the program asks for fail
 * where it is told to. It is told by a plan, which is text: words KIND:FROM:COUNT:DEED:VALUE with a space between. Of the
 * calls of this kind, counted from 1 after the program's main has begun, those from FROM on, COUNT of them (0: all):
 *
 *   fail  are not made, and give the error of this number (VALUE)
 *   take  are made for at most VALUE bytes (reads and writes alone; 0: no byte is moved, and that is the answer)
 *   stop  end the process with status 99, and are not made
 *
 * Of the words for one call the first counts; a kind has at most four.
 *
 * Kinds: memory (a request for memory), thread (a thread to be started), input and output and errors (a read of standard
 * input, a write of standard output or standard error), open, load (a read of a file), store (a write of a file), seek (of
 * a place in a file, or its size and its sort), close, rename, unlink, sync (of a file or a folder to the disk), rights (a
 * file is given an owner or permissions).
 *
 * With SHIM=PLAN in the environment the program runs once by this plan. With SHIM_SERVE="IN OUT", the numbers of two open
 * files, it serves: it stands before its main, reads plans from IN, 512 bytes each with 0 behind the text, and for each
 * forks a run of main, over the files input, output and errors of its folder. Then it writes to OUT what the run left: its
 * status as waitpid tells it, its peak memory in KiB, the blocks of memory that it had not given back when it exited, its
 * threads that were started, that were joined and that ended, and for each kind how many calls were met and how many the
 * plan made fail: signed numbers of 64 bits. */
#define _GNU_SOURCE
#include <dlfcn.h>
#include <errno.h>
#include <fcntl.h>
#include <pthread.h>
#include <stdarg.h>
#include <stdatomic.h>
#include <stdint.h>
#include <stdio.h>
#include <stdlib.h>
#include <string.h>
#include <sys/mman.h>
#include <sys/resource.h>
#include <sys/stat.h>
#include <sys/syscall.h>
#include <sys/wait.h>
#include <unistd.h>

#pragma GCC diagnostic ignored "-Wmissing-attributes"

enum kind { MEMORY, THREAD, INPUT, OUTPUT, ERRORS, OPEN, LOAD, STORE, SEEK, CLOSE, RENAME, UNLINK, SYNC, RIGHTS, KINDS };
static const char *const names[KINDS] = {"memory", "thread", "input", "output", "errors", "open",
                                         "load", "store", "seek", "close", "rename", "unlink", "sync", "rights"};
enum deed { NONE, FAIL, TAKE, STOP };

struct plan {
  long from, count, value;
  enum deed deed;
};

/* What a run leaves. It lies in memory that the run shares with the one who forked it. */
struct left {
  int64_t status, peak;
  _Atomic int64_t live, started, joined, ended, met[KINDS], failed[KINDS];
};

enum { PLAN_BYTES = 512, PATIENCE = 60, WORDS = 4 };
static struct plan plans[KINDS][WORDS];
static struct left alone, *left = &alone;
static int is_begun;
static int (*program)(int, char **, char **);

extern void *__libc_malloc(size_t), *__libc_calloc(size_t, size_t), *__libc_realloc(void *, size_t);
extern void *__libc_memalign(size_t, size_t);
extern void __libc_free(void *);

static _Noreturn void leave(int status) {
  for (;;)
    syscall(SYS_exit_group, status);
}

/* A thread may have done all its work, and not have come to its end yet, when the program ends: it has a second. */
void _exit(int status) {
  for (int turn = 0; turn < 10000 && left->ended < left->started && left->joined < left->started; turn++)
    usleep(100);
  leave(status);
}

static void read_plan(const char *text) {
  char kind[16], deed[16];
  long from, count, value;
  int read;
  memset(plans, 0, sizeof plans);
  for (; sscanf(text, " %15[a-z]:%ld:%ld:%15[a-z]:%ld%n", kind, &from, &count, deed, &value, &read) == 5; text += read)
    for (int k = 0; k < KINDS; k++)
      for (int w = 0; w < WORDS && !strcmp(kind, names[k]); w++)
        if (!plans[k][w].deed) {
          plans[k][w] = (struct plan){from, count, value, *deed == 'f' ? FAIL : *deed == 't' ? TAKE : STOP};
          break;
        }
}

/* Counts a call, and gives what the plan has for it, or NULL. */
static const struct plan *planned(enum kind kind) {
  int64_t number;
  if (!is_begun)
    return NULL;
  number = atomic_fetch_add(&left->met[kind], 1) + 1;
  for (const struct plan *plan = plans[kind]; plan < plans[kind] + WORDS && plan->deed; plan++)
    if (number >= plan->from && (!plan->count || number < plan->from + plan->count)) {
      atomic_fetch_add(&left->failed[kind], 1);
      if (plan->deed == STOP)
        leave(99);
      if (plan->deed == FAIL)
        errno = (int)plan->value;
      return plan;
    }
  return NULL;
}

static int met(enum kind kind) { return planned(kind) != NULL; }

/* ---- memory */

static void *counted(void *block) {
  if (block && is_begun)
    atomic_fetch_add(&left->live, 1);
  return block;
}

void *malloc(size_t size) { return met(MEMORY) ? NULL : counted(__libc_malloc(size)); }
void *calloc(size_t count, size_t size) { return met(MEMORY) ? NULL : counted(__libc_calloc(count, size)); }
void *memalign(size_t unit, size_t size) { return met(MEMORY) ? NULL : counted(__libc_memalign(unit, size)); }
void *aligned_alloc(size_t unit, size_t size) { return memalign(unit, size); }

int posix_memalign(void **block, size_t unit, size_t size) {
  void *made = memalign(unit, size);
  if (!made)
    return ENOMEM;
  *block = made;
  return 0;
}

void *realloc(void *block, size_t size) {
  if (met(MEMORY))
    return NULL;
  return block ? __libc_realloc(block, size) : counted(__libc_malloc(size));
}

void free(void *block) {
  if (block && is_begun)
    atomic_fetch_sub(&left->live, 1);
  __libc_free(block);
}

void *mmap(void *at, size_t size, int protection, int flags, int file, off_t from) {
  return met(MEMORY) ? MAP_FAILED : (void *)syscall(SYS_mmap, at, size, protection, flags, file, from);
}

/* ---- threads */

struct body {
  void *(*body)(void *), *given;
};

static void *run_body(void *boxed) {
  struct body own = *(struct body *)boxed;
  void *result;
  __libc_free(boxed);
  result = own.body(own.given);
  atomic_fetch_add(&left->ended, 1);
  return result;
}

int pthread_create(pthread_t *thread, const pthread_attr_t *how, void *(*body)(void *), void *given) {
  static int (*real)(pthread_t *, const pthread_attr_t *, void *(*)(void *), void *);
  struct body *boxed;
  int error;
  if (met(THREAD))
    return errno;
  if (!real)
    *(void **)&real = dlsym(RTLD_NEXT, "pthread_create");
  if (!(boxed = __libc_malloc(sizeof *boxed)))
    return EAGAIN;
  *boxed = (struct body){body, given};
  if (!(error = real(thread, how, run_body, boxed)))
    atomic_fetch_add(&left->started, 1);
  else
    __libc_free(boxed);
  return error;
}

int pthread_join(pthread_t thread, void **result) {
  static int (*real)(pthread_t, void **);
  int error;
  if (!real)
    *(void **)&real = dlsym(RTLD_NEXT, "pthread_join");
  if (!(error = real(thread, result)))
    atomic_fetch_add(&left->joined, 1);
  return error;
}

/* ---- streams and files */

/* A read or a write of so many bytes by the system's call of this number. */
static ssize_t moved(long call, enum kind kind, int file, void *bytes, size_t count) {
  const struct plan *plan = planned(kind);
  if (plan && plan->deed == FAIL)
    return -1;
  if (plan && count > (size_t)plan->value)
    count = (size_t)plan->value;
  return plan && !count ? 0 : syscall(call, file, bytes, count);
}

ssize_t read(int file, void *bytes, size_t count) {
  return moved(SYS_read, file == 0 ? INPUT : LOAD, file, bytes, count);
}

ssize_t write(int file, const void *bytes, size_t count) {
  return moved(SYS_write, file == 1 ? OUTPUT : file == 2 ? ERRORS : STORE, file, (void *)bytes, count);
}

int openat(int folder, const char *name, int flags, ...) {
  va_list rest;
  mode_t mode = 0;
  va_start(rest, flags);
  if (flags & (O_CREAT | O_TMPFILE))
    mode = va_arg(rest, mode_t);
  va_end(rest);
  return met(OPEN) ? -1 : (int)syscall(SYS_openat, folder, name, flags, mode);
}

int open(const char *name, int flags, ...) {
  va_list rest;
  mode_t mode = 0;
  va_start(rest, flags);
  if (flags & (O_CREAT | O_TMPFILE))
    mode = va_arg(rest, mode_t);
  va_end(rest);
  return openat(AT_FDCWD, name, flags, mode);
}

off_t lseek(int file, off_t by, int from) { return met(SEEK) ? -1 : syscall(SYS_lseek, file, by, from); }
int close(int file) { return met(CLOSE) ? -1 : (int)syscall(SYS_close, file); }
int rename(const char *old, const char *new) { return met(RENAME) ? -1 : (int)syscall(SYS_rename, old, new); }
int unlink(const char *name) { return met(UNLINK) ? -1 : (int)syscall(SYS_unlink, name); }

int fsync(int file) { return met(SYNC) ? -1 : (int)syscall(SYS_fsync, file); }
int fchmod(int file, mode_t mode) { return met(RIGHTS) ? -1 : (int)syscall(SYS_fchmod, file, mode); }

int chown(const char *name, uid_t owner, gid_t group) {
  return met(RIGHTS) ? -1 : (int)syscall(SYS_fchownat, AT_FDCWD, name, owner, group, 0);
}

int fstat(int file, struct stat *told) {
  return met(SEEK) ? -1 : (int)syscall(SYS_newfstatat, file, "", told, AT_EMPTY_PATH);
}

int statx(int folder, const char *restrict name, int flags, unsigned wanted, struct statx *restrict told) {
  return met(SEEK) ? -1 : (int)syscall(SYS_statx, folder, name, flags, wanted, told);
}

int fstat64(int file, struct stat64 *told) { return fstat(file, (struct stat *)told); }

/* The other names under which the C library has these calls. */
int open64(const char *name, int flags, ...) __attribute__((alias("open")));
int __open(const char *name, int flags, ...) __attribute__((alias("open")));
int __open64(const char *name, int flags, ...) __attribute__((alias("open")));
int openat64(int folder, const char *name, int flags, ...) __attribute__((alias("openat")));
ssize_t __read(int file, void *bytes, size_t count) __attribute__((alias("read")));
ssize_t __write(int file, const void *bytes, size_t count) __attribute__((alias("write")));
off_t lseek64(int file, off_t by, int from) __attribute__((alias("lseek")));
off_t __lseek(int file, off_t by, int from) __attribute__((alias("lseek")));
int __close(int file) __attribute__((alias("close")));
void *mmap64(void *, size_t, int, int, int, off_t) __attribute__((alias("mmap")));

/* ---- how it begins */

static int begin(int count, char **words, char **environment) {
  is_begun = 1;
  return program(count, words, environment);
}

static void put_in_place(int file, const char *name, int flags) {
  int opened = (int)syscall(SYS_openat, AT_FDCWD, name, flags, 0600);
  if (opened < 0 || dup2(opened, file) < 0)
    leave(98);
  syscall(SYS_close, opened);
}

static int serve(int count, char **words, char **environment) {
  static char plan[PLAN_BYTES];
  int in, out, status;
  pid_t run;
  struct rusage used;
  if (sscanf(getenv("SHIM_SERVE"), "%d %d", &in, &out) != 2)
    leave(98);
  left = (void *)syscall(SYS_mmap, 0, sizeof *left, PROT_READ | PROT_WRITE, MAP_SHARED | MAP_ANONYMOUS, -1, 0);
  while (syscall(SYS_read, in, plan, sizeof plan) == sizeof plan) {
    memset(left, 0, sizeof *left);
    read_plan(plan);
    if (!(run = fork())) {
      syscall(SYS_close, in);
      syscall(SYS_close, out);
      put_in_place(0, "input", O_RDONLY);
      put_in_place(1, "output", O_WRONLY | O_CREAT | O_TRUNC | O_APPEND);
      put_in_place(2, "errors", O_WRONLY | O_CREAT | O_TRUNC | O_APPEND);
      alarm(PATIENCE);
      return begin(count, words, environment);
    }
    if (run < 0 || wait4(run, &status, 0, &used) != run)
      leave(98);
    left->status = status;
    left->peak = used.ru_maxrss;
    if (syscall(SYS_write, out, left, sizeof *left) != sizeof *left)
      leave(98);
  }
  leave(0);
}

int __libc_start_main(int (*main)(int, char **, char **), int count, char **words, void (*init)(void), void (*fini)(void),
                      void (*unload)(void), void *stack) {
  int (*real)(int (*)(int, char **, char **), int, char **, void (*)(void), void (*)(void), void (*)(void), void *);
  *(void **)&real = dlsym(RTLD_NEXT, "__libc_start_main");
  program = main;
  if (getenv("SHIM"))
    read_plan(getenv("SHIM"));
  return real(getenv("SHIM_SERVE") ? serve : begin, count, words, init, fini, unload, stack);
}
