/* Loaded before the C library, it makes the allocation whose number is in FAILING give nothing. The file MARK is there from then on. */
#define _GNU_SOURCE
#include <dlfcn.h>
#include <fcntl.h>
#include <stddef.h>
#include <stdlib.h>
#include <unistd.h>

static unsigned long calls;

static int fails(void) {
  const char *failing = getenv("FAILING"), *mark = getenv("MARK");
  calls += 1;
  if (failing == NULL || mark == NULL || strtoul(failing, NULL, 10) != calls) return 0;
  close(open(mark, O_CREAT | O_WRONLY, 0600));
  return 1;
}

void *malloc(size_t size) {
  static void *(*next)(size_t);
  if (next == NULL) *(void **)&next = dlsym(RTLD_NEXT, "malloc");
  return fails() ? NULL : next(size);
}

void *realloc(void *block, size_t size) {
  static void *(*next)(void *, size_t);
  if (next == NULL) *(void **)&next = dlsym(RTLD_NEXT, "realloc");
  return fails() ? NULL : next(block, size);
}
