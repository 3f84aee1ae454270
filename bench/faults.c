/* A library that is loaded before the C library's, by LD_PRELOAD, and lets calls fail: bench/faults.sh builds it and sets its variables.

   FAULT_CALL   memory, open, read, output, errors or thread: the calls that are counted, from 1. `output` and `errors` are the
                writes to the two standard streams, `memory` is malloc, realloc and calloc, and `thread` pthread_create.
   FAULT_FROM   the first call that is not as usual, and
   FAULT_TO     the last one
   FAULT_HOW    for memory, open, read, output and errors a number of errno, with which these calls fail; or, negative, the most bytes that
                a read or a write moves, and 0 for a write that takes nothing
   FAULT_TOLD   a file to which a line is written at the end: how many calls were counted, how many were not as usual, and for reads
                the file that the first of them asked for

   The library itself takes no memory. */
#define _GNU_SOURCE
#include <dlfcn.h>
#include <errno.h>
#include <fcntl.h>
#include <pthread.h>
#include <stdatomic.h>
#include <stdio.h>
#include <stdlib.h>
#include <string.h>
#include <sys/syscall.h>
#include <unistd.h>

/* The C library's own names of these. */
extern void *__libc_malloc(size_t size);
extern void *__libc_calloc(size_t count, size_t size);
extern void *__libc_realloc(void *block, size_t size);

enum call { NONE, MEMORY, OPEN, READ, OUTPUT, ERRORS, THREAD };

static const char *const names[] = {"", "memory", "open", "read", "output", "errors", "thread"};

static enum call counted_call;
static long first_fault, last_fault, how;
static const char *told;
static atomic_long calls, faults;
static char at_fault[4096];
static int (*usual_create)(pthread_t *, const pthread_attr_t *, void *(*)(void *), void *);

static long number_of(const char *name) {
  const char *text = getenv(name);
  return text ? strtol(text, NULL, 10) : 0;
}

__attribute__((constructor)) static void begin(void) {
  const char *wanted = getenv("FAULT_CALL");
  usual_create = dlsym(RTLD_NEXT, "pthread_create");
  first_fault = number_of("FAULT_FROM");
  last_fault = number_of("FAULT_TO");
  how = number_of("FAULT_HOW");
  told = getenv("FAULT_TOLD");
  for (enum call call = MEMORY; wanted && call <= THREAD; call++)
    if (strcmp(wanted, names[call]) == 0) counted_call = call;
}

__attribute__((destructor)) static void tell(void) {
  char line[sizeof at_fault + 64];
  enum call call = counted_call;
  counted_call = NONE;
  if (!told) return;
  int length = snprintf(line, sizeof line, "%ld %ld %s\n", atomic_load(&calls), atomic_load(&faults), at_fault);
  int file = syscall(SYS_openat, AT_FDCWD, told, O_WRONLY | O_CREAT | O_TRUNC, 0600);
  if (file >= 0) syscall(SYS_write, file, line, length);
  counted_call = call;
}

/* The program ends so, and no destructor is called. */
void _exit(int status) {
  tell();
  for (;;) syscall(SYS_exit_group, status);
}

/* Whether this call is one that is not as usual. */
static int is_fault(enum call call) {
  if (call != counted_call) return 0;
  long number = atomic_fetch_add(&calls, 1) + 1;
  if (number < first_fault || number > last_fault) return 0;
  return atomic_fetch_add(&faults, 1) + 1;
}

static void keep_name(const char *name) {
  snprintf(at_fault, sizeof at_fault, "%s", name);
}

static void keep_file(int file) {
  char link[64], name[sizeof at_fault];
  snprintf(link, sizeof link, "/proc/self/fd/%d", file);
  ssize_t length = syscall(SYS_readlinkat, AT_FDCWD, link, name, sizeof name - 1);
  name[length < 0 ? 0 : length] = 0;
  keep_name(name);
}

static int refuses(void) {
  if (!is_fault(MEMORY)) return 0;
  errno = ENOMEM;
  return 1;
}

void *malloc(size_t size) { return refuses() ? NULL : __libc_malloc(size); }

void *calloc(size_t count, size_t size) { return refuses() ? NULL : __libc_calloc(count, size); }

void *realloc(void *block, size_t size) { return refuses() ? NULL : __libc_realloc(block, size); }

static int open_as(int folder, const char *name, int flags, mode_t mode) {
  int fault = is_fault(OPEN);
  if (fault == 1) keep_name(name);
  if (fault) {
    errno = how;
    return -1;
  }
  return syscall(SYS_openat, folder, name, flags, mode);
}

/* The program opens files to read them alone, so no mode is passed. */
int open(const char *name, int flags, ...) { return open_as(AT_FDCWD, name, flags, 0); }

int open64(const char *name, int flags, ...) { return open_as(AT_FDCWD, name, flags, 0); }

int openat(int folder, const char *name, int flags, ...) { return open_as(folder, name, flags, 0); }

ssize_t read(int file, void *bytes, size_t count) {
  int fault = is_fault(READ);
  if (fault == 1) keep_file(file);
  if (fault && how > 0) {
    errno = how;
    return -1;
  }
  if (fault && count > (size_t)-how) count = -how;
  return syscall(SYS_read, file, bytes, count);
}

ssize_t write(int file, const void *bytes, size_t count) {
  int fault = is_fault(file == 1 ? OUTPUT : file == 2 ? ERRORS : NONE);
  if (fault && how > 0) {
    errno = how;
    return -1;
  }
  if (fault && count > (size_t)-how) count = -how;
  return count || !fault ? syscall(SYS_write, file, bytes, count) : 0;
}

int pthread_create(pthread_t *thread, const pthread_attr_t *attributes, void *(*body)(void *), void *given) {
  return is_fault(THREAD) ? EAGAIN : usual_create(thread, attributes, body, given);
}
