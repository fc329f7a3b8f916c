/* A library to preload, which bounds and fails the program's calls of read and write.
 * - FEW_BYTES: each call moves at most so many bytes. With no number, or 0, it moves what it is asked for.
 * - FAIL_FILE: the file whose calls fail and are counted: 1 and 2 for the standard streams, or a path.
 * - FAIL_CALL: the call of that file, from 0 on, that fails. All others go on.
 * - FAIL_BEHIND: how many bytes that file takes or gives. Each call behind them fails.
 * - COUNT_CALLS: a file; when the program exits, the number of calls of FAIL_FILE is written there. */
#define _GNU_SOURCE
#include <errno.h>
#include <stddef.h>
#include <stdio.h>
#include <stdlib.h>
#include <string.h>
#include <sys/syscall.h>
#include <unistd.h>

static long calls = 0;
static long moved = 0;

static long number_of(const char *name, long otherwise) {
  const char *number = getenv(name);
  return number ? strtol(number, NULL, 10) : otherwise;
}

static int is_the_file(int file) {
  const char *wanted = getenv("FAIL_FILE");
  char link[64], path[4096];
  if (!wanted) return 0;
  if (strlen(wanted) == 1) return wanted[0] - '0' == file;
  snprintf(link, sizeof link, "/proc/self/fd/%d", file);
  ssize_t length = readlink(link, path, sizeof path - 1);
  if (length < 0) return 0;
  path[length] = 0;
  return strcmp(path, wanted) == 0;
}

static ssize_t call(long kind, int file, void *bytes, size_t count) {
  size_t few = (size_t)number_of("FEW_BYTES", 0);
  int counts = is_the_file(file);
  if (few > 0 && few < count) count = few;
  if (counts) {
    long behind = number_of("FAIL_BEHIND", -1);
    calls += 1;
    if (calls - 1 == number_of("FAIL_CALL", -1) || (behind >= 0 && moved >= behind)) {
      errno = EINTR;
      return -1;
    }
    if (behind >= 0 && (size_t)(behind - moved) < count) count = (size_t)(behind - moved);
  }
  ssize_t done = syscall(kind, file, bytes, count);
  if (counts && done > 0) moved += done;
  return done;
}

ssize_t read(int file, void *bytes, size_t count) { return call(SYS_read, file, bytes, count); }
ssize_t write(int file, const void *bytes, size_t count) { return call(SYS_write, file, (void *)bytes, count); }

__attribute__((destructor)) static void tell(void) {
  const char *path = getenv("COUNT_CALLS");
  FILE *file = path ? fopen(path, "w") : NULL;
  if (!file) return;
  fprintf(file, "%ld\n", calls);
  fclose(file);
}
