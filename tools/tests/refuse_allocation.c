/* A library to preload: the Nth call of malloc, calloc or realloc that asks for memory answers that there is none,
 * N being the number in REFUSE_ALLOCATION. With no number, or 0, none is refused. Calls before main count too. Where
 * COUNT_ALLOCATIONS names a file, the number of calls is written there when the program exits. */
#define _GNU_SOURCE
#include <dlfcn.h>
#include <errno.h>
#include <stddef.h>
#include <stdio.h>
#include <stdlib.h>

extern void *__libc_malloc(size_t size);
extern void *__libc_calloc(size_t count, size_t size);
extern void *__libc_realloc(void *old, size_t size);

static long left = -1;
static long calls = 0;

static int refused(void) {
  calls += 1;
  if (left < 0) {
    const char *number = getenv("REFUSE_ALLOCATION");
    left = number ? strtol(number, NULL, 10) : 0;
  }
  if (left == 0) return 0;
  left -= 1;
  if (left != 0) return 0;
  errno = ENOMEM;
  return 1;
}

void *malloc(size_t size) { return refused() ? NULL : __libc_malloc(size); }
void *calloc(size_t count, size_t size) { return refused() ? NULL : __libc_calloc(count, size); }
void *realloc(void *old, size_t size) { return refused() ? NULL : __libc_realloc(old, size); }

__attribute__((destructor)) static void tell(void) {
  const char *path = getenv("COUNT_ALLOCATIONS");
  long counted = calls;
  FILE *file = path ? fopen(path, "w") : NULL;
  if (!file) return;
  fprintf(file, "%ld\n", counted);
  fclose(file);
}
