// A library that is loaded before the C library, and lets calls of it fail that the program makes, as its environment says:
//   FAULT        which calls: memory, read, write or thread
//   FAULT_AT     the first one that fails, counted from 1; 0: none
//   FAULT_MODE   once: that one alone; always: it and each one behind it; short: it gives or takes one byte; interrupted: it says that a signal came
//   FAULT_COUNTS a file for how many calls of each kind there were, in that order; without it none is written
#define _GNU_SOURCE
#include <dlfcn.h>
#include <errno.h>
#include <fcntl.h>
#include <pthread.h>
#include <stdatomic.h>
#include <stdio.h>
#include <stdlib.h>
#include <string.h>
#include <sys/syscall.h>
#include <unistd.h>

enum kind { MEMORY, READ, WRITE, THREAD, KINDS, NONE = KINDS };
enum mode { ONCE, ALWAYS, SHORT, INTERRUPTED };

static const char *const names[] = {"memory", "read", "write", "thread"};
static const char *const modes[] = {"once", "always", "short", "interrupted"};
static atomic_long calls[KINDS];
static enum kind chosen = NONE;
static enum mode mode;
static long first;

void *__libc_malloc(size_t);
void *__libc_calloc(size_t, size_t);
void *__libc_realloc(void *, size_t);
void *__libc_memalign(size_t, size_t);

// Before this the program isn't in its `main`, and nothing fails.
__attribute__((constructor)) static void begin(void) {
  const char *at = getenv("FAULT_AT"), *how = getenv("FAULT_MODE"), *what = getenv("FAULT");
  first = at ? atol(at) : 0;
  for (int each = ONCE; each <= INTERRUPTED; each++)
    if (how && !strcmp(how, modes[each])) mode = each;
  for (int kind = 0; kind < KINDS; kind++) {
    calls[kind] = 0;
    if (what && !strcmp(what, names[kind])) chosen = kind;
  }
}

static void tell(const char *file) {
  char line[100];
  int length = sprintf(line, "%ld %ld %ld %ld\n", (long)calls[MEMORY], (long)calls[READ], (long)calls[WRITE], (long)calls[THREAD]);
  int to = open(file, O_WRONLY | O_CREAT | O_TRUNC, 0600);
  syscall(SYS_write, to, line, length);
}

// The program ends with this, and not with `exit`.
void _exit(int status) {
  const char *file = getenv("FAULT_COUNTS");
  if (file) tell(file);
  for (;;) syscall(SYS_exit_group, status);
}

// Whether this call, one more of its kind, is one that is to fail.
static int is_faulty(enum kind kind) {
  long call = ++calls[kind];
  return kind == chosen && first && (mode == ALWAYS ? call >= first : call == first);
}

static void *refused(void) {
  errno = ENOMEM;
  return NULL;
}

void *malloc(size_t size) { return is_faulty(MEMORY) ? refused() : __libc_malloc(size); }
void *calloc(size_t count, size_t size) { return is_faulty(MEMORY) ? refused() : __libc_calloc(count, size); }
void *realloc(void *block, size_t size) { return is_faulty(MEMORY) ? refused() : __libc_realloc(block, size); }
void *aligned_alloc(size_t align, size_t size) { return is_faulty(MEMORY) ? refused() : __libc_memalign(align, size); }

ssize_t read(int from, void *into, size_t size) {
  if (is_faulty(READ)) {
    if (mode != SHORT) return errno = mode == INTERRUPTED ? EINTR : EIO, -1;
    size = size ? 1 : 0;
  }
  return syscall(SYS_read, from, into, size);
}

ssize_t write(int to, const void *from, size_t size) {
  if (to == STDOUT_FILENO && is_faulty(WRITE)) {
    if (mode != SHORT) return errno = ENOSPC, -1;
    size = size ? 1 : 0;
  }
  return syscall(SYS_write, to, from, size);
}

ssize_t __write(int to, const void *from, size_t size) { return write(to, from, size); }

int pthread_create(pthread_t *thread, const pthread_attr_t *about, void *(*body)(void *), void *value) {
  int (*create)(pthread_t *, const pthread_attr_t *, void *(*)(void *), void *) = dlsym(RTLD_NEXT, "pthread_create");
  return is_faulty(THREAD) ? EAGAIN : create(thread, about, body, value);
}
