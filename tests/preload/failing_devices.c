/* Loaded before the C library, it writes down each call of a device that the program makes, and lets one of them fail.
 *
 * Standard input is the script, standard output takes the replies, and what the program opens is a file. A file is handed over in
 * pieces of FETCHED bytes, the script in pieces of PULLED, and PUT bytes of the replies are taken at once; the call whose number is in
 * FAILING fails. A number that isn't set, or is 0, bounds nothing and lets nothing fail. Into the file CALLS goes a line for each call,
 * behind which stands its answer: a number of bytes, 0 of a file that was opened, or -1.
 *
 *   open NAME ANSWER
 *   read NAME ROOM ANSWER
 *   pull ROOM ANSWER
 *   put SIZE ANSWER */
#define _GNU_SOURCE
#include <dlfcn.h>
#include <errno.h>
#include <fcntl.h>
#include <stdarg.h>
#include <stdio.h>
#include <stdlib.h>
#include <sys/types.h>
#include <unistd.h>

enum { FILES = 64, LONGEST = 256 };

/* The names of the files, by their descriptors. */
static char names[FILES][LONGEST];

static unsigned long number(const char *name) {
  const char *text = getenv(name);
  return text == NULL ? 0 : strtoul(text, NULL, 10);
}

static size_t piece(size_t size, const char *most) {
  unsigned long bound = number(most);
  return bound != 0 && bound < size ? bound : size;
}

static int fails(void) {
  static unsigned long calls;
  calls += 1;
  if (calls != number("FAILING")) return 0;
  errno = EIO;
  return 1;
}

static int next_open(const char *name, int flags, mode_t mode) {
  static int (*next)(const char *, int, ...);
  if (next == NULL) *(void **)&next = dlsym(RTLD_NEXT, "open");
  return next(name, flags, mode);
}

__attribute__((format(printf, 1, 2))) static void note(const char *form, ...) {
  static int file = -1;
  int error = errno;
  const char *calls = getenv("CALLS");
  if (file < 0 && calls != NULL) file = next_open(calls, O_WRONLY | O_CREAT | O_APPEND | O_CLOEXEC, 0600);
  va_list parts;
  va_start(parts, form);
  if (file < 0 || vdprintf(file, form, parts) < 0) abort();
  va_end(parts);
  errno = error;
}

int open(const char *name, int flags, ...) {
  mode_t mode = 0;
  if ((flags & O_CREAT) != 0) {
    va_list rest;
    va_start(rest, flags);
    mode = va_arg(rest, mode_t); /* NOLINT(clang-analyzer-valist.Uninitialized): it doesn't see va_start in a second file of a run */
    va_end(rest);
  }
  int file = fails() ? -1 : next_open(name, flags, mode);
  if (file >= FILES) abort();
  if (file >= 0) snprintf(names[file], LONGEST, "%s", name);
  note("open %s %d\n", name, file < 0 ? -1 : 0);
  return file;
}

ssize_t read(int file, void *into, size_t size) {
  static ssize_t (*next)(int, void *, size_t);
  if (next == NULL) *(void **)&next = dlsym(RTLD_NEXT, "read");
  ssize_t came = fails() ? -1 : next(file, into, piece(size, file == 0 ? "PULLED" : "FETCHED"));
  if (file == 0)
    note("pull %zu %zd\n", size, came);
  else
    note("read %s %zu %zd\n", file < FILES ? names[file] : "", size, came);
  return came;
}

ssize_t write(int file, const void *from, size_t size) {
  static ssize_t (*next)(int, const void *, size_t);
  if (next == NULL) *(void **)&next = dlsym(RTLD_NEXT, "write");
  if (file == 2) return next(file, from, size);
  ssize_t taken = fails() ? -1 : next(file, from, piece(size, "PUT"));
  note("put %zu %zd\n", size, taken);
  return taken;
}
