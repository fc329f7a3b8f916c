/* What the program asks of an open file, as Linux's statx and fcntl have it on each machine: the program knows these places and numbers. */
#ifndef DDCAP_FACTS_H
#define DDCAP_FACTS_H
#include <stdint.h>

enum { COPY = 1030 };       /* a command of fcntl */
enum { KNOWN = 0x101 };     /* the kind and the number */
enum { REGULAR = 0100000 }; /* a kind: a file on a disk */

/* Two numbers make a device; with the file's own they say which file it is. */
struct facts {
  uint32_t known;
  uint32_t unused[6];
  uint16_t kind;
  uint64_t number;
  uint64_t unused_too[12];
  uint32_t device[2];
  uint64_t room[14];
};
_Static_assert(sizeof(struct facts) == 256, "Linux has 256 bytes for it");

#endif
