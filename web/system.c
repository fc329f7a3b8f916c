/* What a C library has and a WebAssembly module has not: memory, a few functions over bytes, and numbers of 128 bits. No proof covers it;
 * tools/tests/test_page holds the module's answers to those of the program. */
#include <stdbool.h>
#include <stddef.h>
#include <stdint.h>
#include <stdlib.h>
#include <string.h>

/* ---- bytes: each of the first three is one instruction */

void *memcpy(void *restrict to, const void *restrict from, size_t count) { return __builtin_memcpy(to, from, count); }

void *memmove(void *to, const void *from, size_t count) { return __builtin_memmove(to, from, count); }

void *memset(void *to, int byte, size_t count) { return __builtin_memset(to, byte, count); }

size_t strlen(const char *text) {
  size_t length = 0;
  while (text[length]) length++;
  return length;
}

int strcmp(const char *one, const char *other) {
  while (*one && *one == *other) one++, other++;
  return (unsigned char)*one - (unsigned char)*other;
}

/* ---- memory: blocks of certain sizes, eight for each power of two, each with a list of those that were given back. None is ever split. */

extern unsigned char __heap_base;

enum { PAGE = 65536, ALIGNMENT = 16, PAGES_AT_ONCE = 16, KINDS = 256 };

struct block {
  size_t room, kind;
  size_t unused[2]; /* what follows is at a multiple of the alignment */
};

static uintptr_t unused_from, unused_to;
static void *given_back[KINDS];

/* The kind of block for a size, and the room that it has. */
static size_t kind_of(size_t size, size_t *room) {
  if (size < ALIGNMENT) size = ALIGNMENT;
  unsigned top = 31 - (unsigned)__builtin_clz((uint32_t)size);
  size_t step = (size_t)1 << (top > 7 ? top - 3 : 4);
  *room = (size + step - 1) & ~(step - 1);
  top = 31 - (unsigned)__builtin_clz((uint32_t)*room);
  return top * 8 + (*room >> (top - 3)) % 8;
}

/* Makes the memory reach this far past what is in use. */
static bool reaches(size_t size) {
  if (!unused_from) {
    unused_from = ((uintptr_t)&__heap_base + ALIGNMENT - 1) & ~(uintptr_t)(ALIGNMENT - 1);
    unused_to = (uintptr_t)__builtin_wasm_memory_size(0) * PAGE;
  }
  if (size <= unused_to - unused_from) return true;
  size_t pages = (size - (unused_to - unused_from) + PAGE - 1) / PAGE;
  if (pages < PAGES_AT_ONCE && __builtin_wasm_memory_grow(0, PAGES_AT_ONCE) != (size_t)-1) {
    unused_to += PAGES_AT_ONCE * PAGE;
    return true;
  }
  if (__builtin_wasm_memory_grow(0, pages) == (size_t)-1) return false;
  unused_to += pages * PAGE;
  return true;
}

void *malloc(size_t size) {
  size_t room;
  if (size > PTRDIFF_MAX) return NULL;
  size_t kind = kind_of(size, &room);
  void *at = given_back[kind];
  if (at) {
    given_back[kind] = *(void **)at;
    return at;
  }
  if (!reaches(sizeof(struct block) + room)) return NULL;
  struct block *block = (struct block *)unused_from;
  unused_from += sizeof(struct block) + room;
  block->room = room, block->kind = kind;
  return block + 1;
}

void free(void *at) {
  if (!at) return;
  size_t kind = ((struct block *)at)[-1].kind;
  *(void **)at = given_back[kind];
  given_back[kind] = at;
}

void *realloc(void *old, size_t size) {
  if (!old) return malloc(size);
  size_t room = ((struct block *)old)[-1].room;
  if (size <= room) return old;
  void *at = malloc(size);
  if (!at) return NULL;
  memcpy(at, old, room);
  free(old);
  return at;
}

/* ---- numbers of 128 bits, under the names that the compiler calls */

typedef unsigned __int128 wide;

union halves {
  struct {
    uint64_t low, high;
  };
  wide whole;
};

static wide whole_of(uint64_t high, uint64_t low) { return (union halves){.low = low, .high = high}.whole; }

wide __multi3(wide x, wide y) {
  union halves a = {.whole = x}, b = {.whole = y};
  uint64_t short_bits = 0xffffffff;
  uint64_t a_low = a.low & short_bits, a_high = a.low >> 32, b_low = b.low & short_bits, b_high = b.low >> 32;
  uint64_t low = a_low * b_low, middle = a_high * b_low + (low >> 32), other = a_low * b_high + (middle & short_bits);
  return whole_of(a_high * b_high + (middle >> 32) + (other >> 32) + a.high * b.low + a.low * b.high, (other << 32) | (low & short_bits));
}

wide __ashlti3(wide x, int by) {
  union halves a = {.whole = x};
  if (by >= 64) return whole_of(a.low << (by - 64), 0);
  return by ? whole_of(a.high << by | a.low >> (64 - by), a.low << by) : x;
}

wide __lshrti3(wide x, int by) {
  union halves a = {.whole = x};
  if (by >= 64) return whole_of(0, a.high >> (by - 64));
  return by ? whole_of(a.high >> by, a.high << (64 - by) | a.low >> by) : x;
}
