/* How the program asks for memory. An answer is two words: whether there was some, and where; without memory an address that is never read. No proof
 * covers it; tools/tests/test_dist holds each answer to that of the toolchain's own library, whose meanings these are. */
#include <stddef.h>
#include <stdint.h>
#include <stdlib.h>

/* A size of 0 takes as much as the alignment: the answer is then an address of its own, and NULL means want of memory alone. */
void *ddcap_taken(uint64_t size, uint64_t alignment) { return size != (size_t)size ? NULL : malloc((size_t)(size ? size : alignment)); }

/* Where there is none, the old memory stays as it was. */
void *ddcap_grown(void *old, uint64_t size, uint64_t alignment) {
  return size != (size_t)size ? NULL : realloc(old, (size_t)(size ? size : alignment));
}

void rattle_dealloc(void *at) { free(at); }

#if defined(__ELF__) && (defined(__x86_64__) || defined(__aarch64__))
/* Here two words are answered as C answers a struct of them; for other machines tools/build/retarget makes the pair. */
struct memory {
  uint64_t given;
  void *at;
};

static char nothing;

static struct memory memory_at(void *at) { return (struct memory){at != NULL, at ? at : &nothing}; }

struct memory rattle_alloc(uint64_t size, uint64_t alignment) { return memory_at(ddcap_taken(size, alignment)); }

struct memory rattle_realloc(void *old, uint64_t kept, uint64_t size, uint64_t alignment) {
  (void)kept; /* realloc knows it */
  return memory_at(ddcap_grown(old, size, alignment));
}
#endif
