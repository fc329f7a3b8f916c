/* What the program calls of a system: its words, files, the number of the last failed call. It calls them by the names of dist/names, so that each
 * system has its own flags, types and numbers here; the program knows those of Linux. No proof covers it; tools/tests/test_dist holds each answer to that
 * of the toolchain's own library, whose meanings these are. */
#define _FILE_OFFSET_BITS 64
#include "facts.h"

#include <errno.h>
#include <fcntl.h>
#include <limits.h>
#include <signal.h>
#include <stdarg.h>
#include <stddef.h>
#include <stdint.h>
#include <sys/stat.h>
#include <unistd.h>
#ifdef _WIN32
#include <io.h>
#include <windows.h>
#endif

/* ---- the program's words */

static size_t count;
static char **arguments;

enum { NO_ARGUMENT = -1, NO_ROOM = -2 };

/* The length of an argument, which is written to the buffer without a NUL. Where it is longer than the room, the room is filled. */
int64_t rattle_arg(uint64_t number, char *buffer, uint64_t room) {
  if (number >= count || arguments[number] == NULL) return NO_ARGUMENT;
  const char *argument = arguments[number];
  uint64_t length = 0;
  for (; argument[length] != '\0'; length++) {
    if (length == room) return NO_ROOM;
    buffer[length] = argument[length];
  }
  return (int64_t)length;
}

/* ---- the number of the last failed call, as Linux numbers it */

#ifdef __linux__
int32_t rattle_errno(void) { return errno; }

void rattle_set_errno(int32_t number) { errno = number; }
#else
enum { OTHER_FAULT = 5 }; /* EIO */

/* For each number of this system that of Linux. */
static const struct {
  int own, linux_number;
} numbers[] = {
    {0, 0},        {EPERM, 1},  {ENOENT, 2},   {EINTR, 4},   {EIO, 5},     {EBADF, 9},   {EAGAIN, 11}, {ENOMEM, 12}, {EACCES, 13},
    {EEXIST, 17},  {ENOTDIR, 20}, {EISDIR, 21}, {EINVAL, 22}, {ENFILE, 23}, {EMFILE, 24}, {EFBIG, 27},  {ENOSPC, 28}, {ESPIPE, 29},
    {EROFS, 30},   {EPIPE, 32}, {ENAMETOOLONG, 36},
};
enum { NUMBERS = sizeof numbers / sizeof *numbers };

int32_t rattle_errno(void) {
  for (size_t i = 0; i < NUMBERS; i++)
    if (numbers[i].own == errno) return numbers[i].linux_number;
  return OTHER_FAULT;
}

void rattle_set_errno(int32_t number) {
  errno = EIO;
  for (size_t i = 0; i < NUMBERS; i++)
    if (numbers[i].linux_number == number) errno = numbers[i].own;
}
#endif

/* ---- files */

#ifdef __linux__
static int own_flags(int32_t flags) { return flags; }
#else
#ifndef O_BINARY
#define O_BINARY 0
#endif
#ifndef O_CLOEXEC
#define O_CLOEXEC 0
#endif

/* The flags of this system for those of Linux. */
static int own_flags(int32_t flags) {
  static const int modes[] = {O_RDONLY, O_WRONLY, O_RDWR, O_RDWR};
  int own = modes[flags & 3] | O_BINARY | O_CLOEXEC;
  if (flags & 0100) own |= O_CREAT;
  if (flags & 0200) own |= O_EXCL;
  if (flags & 01000) own |= O_TRUNC;
  if (flags & 02000) own |= O_APPEND;
  return own;
}
#endif

int32_t ddcap_open(const char *path, int32_t flags, ...) {
  va_list more;
  va_start(more, flags);
  int mode = flags & 0100 ? va_arg(more, int) : 0;
  va_end(more);
#ifdef _WIN32
  if (mode) mode = _S_IREAD | _S_IWRITE;
#endif
  return open(path, own_flags(flags), mode);
}

/* A call moves at most so much: macOS refuses more, and the counts of others are numbers of 32 bits. */
static size_t at_once(uint64_t length) { return length < INT_MAX ? (size_t)length : INT_MAX; }

int64_t ddcap_read(int32_t file, void *to, uint64_t room) { return read(file, to, at_once(room)); }

int64_t ddcap_write(int32_t file, const void *from, uint64_t length) { return write(file, from, at_once(length)); }

int64_t ddcap_write_at_once(int32_t file, const void *from, uint64_t length) { return ddcap_write(file, from, length); }

int32_t ddcap_close(int32_t file) { return close(file); }

int64_t ddcap_lseek(int32_t file, int64_t by, int32_t from) { return lseek(file, by, from); }

int32_t ddcap_ftruncate(int32_t file, int64_t length) { return ftruncate(file, length); }

/* Another number for an open file, and no smaller one than `from`. Windows gives the lowest that is free. */
static int copied(int file, int from) {
#ifdef _WIN32
  int copy = _dup(file);
  if (copy < 0 || copy >= from) return copy;
  int higher = copied(file, from);
  close(copy);
  return higher;
#else
  return fcntl(file, F_DUPFD_CLOEXEC, from);
#endif
}

/* The program has one command, which copies. */
int32_t ddcap_fcntl(int32_t file, int32_t command, ...) {
  va_list more;
  va_start(more, command);
  int64_t from = command == COPY ? va_arg(more, int64_t) : -1;
  va_end(more);
  if (from < 0 || from > INT_MAX) {
    errno = EINVAL;
    return -1;
  }
  return copied(file, (int)from);
}

/* ---- what is told of an open file */

#ifdef _WIN32
static int32_t tell_of(int file, struct facts *facts) {
  HANDLE handle = (HANDLE)_get_osfhandle(file);
  BY_HANDLE_FILE_INFORMATION told;
  if (handle == INVALID_HANDLE_VALUE) return -1;
  if (GetFileType(handle) != FILE_TYPE_DISK) return 0;
  if (!GetFileInformationByHandle(handle, &told)) {
    errno = EIO;
    return -1;
  }
  facts->kind = told.dwFileAttributes & FILE_ATTRIBUTE_DIRECTORY ? 0 : REGULAR;
  facts->device[1] = told.dwVolumeSerialNumber;
  facts->number = (uint64_t)told.nFileIndexHigh << 32 | told.nFileIndexLow;
  return 0;
}
#else
static int32_t tell_of(int file, struct facts *facts) {
  struct stat told;
  if (fstat(file, &told) != 0) return -1;
  facts->kind = S_ISREG(told.st_mode) ? REGULAR : 0;
  facts->device[0] = (uint32_t)((uint64_t)told.st_dev >> 32);
  facts->device[1] = (uint32_t)told.st_dev;
  facts->number = told.st_ino;
  return 0;
}
#endif

/* The program asks of open files alone, whether they are files on a disk, and which. */
int32_t ddcap_statx(int32_t file, const char *path, int32_t flags, uint32_t wanted, struct facts *facts) {
  (void)path, (void)flags, (void)wanted;
  *facts = (struct facts){.known = KNOWN};
  return tell_of(file, facts);
}

/* ---- the rest */

/* The program asks that a broken pipe be a failed write; no other signal is its matter. */
int64_t ddcap_signal(int32_t number, int64_t action) {
  (void)number, (void)action;
#ifdef SIGPIPE
  signal(SIGPIPE, SIG_IGN);
#endif
  return 0;
}

/* What the processor has, in glibc's words: all, or nothing where a processor for x86-64 lacks what the program was compiled for. */
const void *ddcap_features(uint32_t leaf) {
  static const uint32_t all[16] = {~0u, ~0u, ~0u, ~0u, ~0u, ~0u, ~0u, ~0u, ~0u, ~0u, ~0u, ~0u, ~0u, ~0u, ~0u, ~0u};
  static const uint32_t none[16] = {0};
  (void)leaf, (void)none;
#if defined(__x86_64__)
  __builtin_cpu_init();
  if (!__builtin_cpu_supports("sse4.2") || !__builtin_cpu_supports("ssse3") || !__builtin_cpu_supports("popcnt")) return none;
#endif
  return all;
}

int32_t ddcap_main(void);

int main(int given_count, char **given) {
  count = (size_t)given_count;
  arguments = given;
#ifdef _WIN32
  for (int stream = 0; stream <= 2; stream++) _setmode(stream, O_BINARY);
#endif
  return ddcap_main();
}
