// A shared object to be loaded before a program: allocation number FAIL_AT, from 0, fails, and their count is written to the file FAIL_LOG.
#define _GNU_SOURCE
#include <dlfcn.h>
#include <errno.h>
#include <stdio.h>
#include <stdlib.h>

static long count;

static int fails(void) {
  const char *at = getenv("FAIL_AT");
  return __atomic_fetch_add(&count, 1, __ATOMIC_SEQ_CST) == (at ? atol(at) : -1);
}

void *malloc(size_t size) {
  static void *(*real)(size_t);
  if (!real) real = dlsym(RTLD_NEXT, "malloc");
  if (!fails()) return real(size);
  errno = ENOMEM;
  return NULL;
}

void *realloc(void *old, size_t size) {
  static void *(*real)(void *, size_t);
  if (!real) real = dlsym(RTLD_NEXT, "realloc");
  if (!fails()) return real(old, size);
  errno = ENOMEM;
  return NULL;
}

static void tell(void) {
  const char *log = getenv("FAIL_LOG");
  long all = count;
  FILE *file = log ? fopen(log, "w") : NULL;
  if (!file) return;
  fprintf(file, "%ld\n", all);
  fclose(file);
}

// a program with threads ends by this call, and no destructor runs
void _exit(int status) {
  void (*real)(int) = dlsym(RTLD_NEXT, "_exit");
  tell();
  real(status);
  abort();
}

__attribute__((destructor)) static void tell_at_end(void) { tell(); }
