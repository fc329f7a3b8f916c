/* Calls each function of dist/system.c and dist/memory.c, or with -DOF_TOOLCHAIN those of the toolchain's library in their place, and compares its
 * answers with what they must be. Run it with the arguments `one` and an empty one, in a folder of its own. It counts the calls of the C library's
 * memory, and refuses those for REFUSED bytes. The last line is 'N passed, M failed'. */
#define _GNU_SOURCE /* struct statx */
#include <errno.h>
#include <fcntl.h>
#include <stdbool.h>
#include <stdint.h>
#include <stdio.h>
#include <string.h>
#include <sys/stat.h>
#include <sys/types.h>
#include <unistd.h>

struct memory {
  bool given;
  void *at;
};

struct memory rattle_alloc(size_t size, size_t alignment);
struct memory rattle_realloc(void *old, size_t kept, size_t size, size_t alignment);
void rattle_dealloc(void *at);
ssize_t rattle_arg(size_t number, char *buffer, size_t room);
int32_t rattle_errno(void);
void rattle_set_errno(int32_t number);

extern void *__libc_malloc(size_t size);
extern void *__libc_realloc(void *old, size_t size);
extern void __libc_free(void *at);

enum { REFUSED = 4321 };

static size_t asked;         /* the bytes of the last call for memory */
static void *volatile freed; /* the address of the last call that gave some back */

static void *refused(void) {
  errno = ENOMEM;
  return NULL;
}

void *malloc(size_t size) {
  asked = size;
  return size == REFUSED ? refused() : __libc_malloc(size);
}

void *realloc(void *old, size_t size) {
  asked = size;
  return size == REFUSED ? refused() : __libc_realloc(old, size);
}

void free(void *at) {
  freed = at;
  __libc_free(at);
}

static int passed, failed;

static void expect(const char *row, bool is_right) {
  *(is_right ? &passed : &failed) += 1;
  if (!is_right) printf("system: %s\n", row);
}

static void expect_argument(const char *row, size_t number, size_t room, ssize_t answer, const char *written) {
  char buffer[9] = "........";
  ssize_t got = rattle_arg(number, buffer, room);
  expect(row, got == answer && strcmp(buffer, written) == 0);
}

static void test_arguments(void) {
  expect_argument("an argument, with room to spare", 1, 8, 3, "one.....");
  expect_argument("an argument, with just the room", 1, 3, 3, "one.....");
  expect_argument("an argument that has no room fills it", 1, 2, -2, "on......");
  expect_argument("an argument, with no room at all", 1, 0, -2, "........");
  expect_argument("an empty argument", 2, 8, 0, "........");
  expect_argument("an empty argument needs no room", 2, 0, 0, "........");
  expect_argument("behind the last argument", 3, 8, -1, "........");
  expect_argument("the number of no argument", SIZE_MAX, 8, -1, "........");
}

static void test_memory(void) {
  struct memory bytes = rattle_alloc(16, 8), old = bytes;
  expect("new memory", bytes.given && bytes.at != NULL && asked == 16);
  memcpy(bytes.at, "0123456789abcdef", 16);
  bytes = rattle_realloc(old.at, 16, REFUSED, 8);
  expect("want of more memory", !bytes.given && bytes.at != NULL && rattle_errno() == ENOMEM);
  expect("and the old is as it was", memcmp(old.at, "0123456789abcdef", 16) == 0);
  bytes = rattle_realloc(old.at, 16, 100000, 8);
  expect("more memory", bytes.given && asked == 100000 && memcmp(bytes.at, "0123456789abcdef", 16) == 0);
  bytes = rattle_realloc(bytes.at, 16, 0, 8);
  expect("memory that shrinks to nothing has an address", bytes.given && bytes.at != NULL && asked == 8);
  rattle_dealloc(bytes.at);
  expect("memory is given back", freed == bytes.at);
  bytes = rattle_alloc(0, 2);
  expect("no bytes have an address", bytes.given && bytes.at != NULL && asked == 2);
  rattle_dealloc(bytes.at);
  bytes = rattle_alloc(REFUSED, 8);
  expect("want of memory", !bytes.given && bytes.at != NULL && rattle_errno() == ENOMEM);
}

static void test_errors(void) {
  errno = EINTR;
  expect("the number of a failed call", rattle_errno() == EINTR);
  rattle_set_errno(ENOENT);
  expect("the number is set", errno == ENOENT && rattle_errno() == ENOENT);
  rattle_set_errno(0);
  expect("the number is cleared", errno == 0 && rattle_errno() == 0);
}

#ifdef OF_TOOLCHAIN
static void test_files(void) {}
#else
int32_t ddcap_open(const char *path, int32_t flags, ...);
int64_t ddcap_read(int32_t file, void *to, uint64_t room);
int64_t ddcap_write(int32_t file, const void *from, uint64_t length);
int32_t ddcap_close(int32_t file);
int64_t ddcap_lseek(int32_t file, int64_t by, int32_t from);
int32_t ddcap_fcntl(int32_t file, int32_t command, ...);
int32_t ddcap_ftruncate(int32_t file, int64_t length);
int32_t ddcap_statx(int32_t file, const char *path, int32_t flags, uint32_t wanted, struct statx *facts);

enum { READ, WRITE, CREATE = 0100, EMPTY = 01000 }; /* Linux's flags */
enum { FROM_BEGINNING, FROM_HERE, FROM_END };
enum { COPY = 1030, ABOUT_IT = 0x1000, ALL = 0xfff };                             /* of fcntl and statx */
enum { NO_SUCH_FILE = 2, NOT_OPENED = 9, A_FOLDER = 21, NO_SUCH_PLACE = 22 }; /* Linux's numbers */

static bool is_told(int32_t file, struct statx *facts) { return ddcap_statx(file, "", ABOUT_IT, ALL, facts) == 0; }

/* Whether this is a file on a disk. */
static bool is_on_disk(int32_t file) {
  struct statx facts;
  return is_told(file, &facts) && S_ISREG(facts.stx_mode);
}

/* Whether both are one file, by whatever name each was opened. */
static bool is_same(int32_t one, int32_t other) {
  struct statx a, b;
  return is_told(one, &a) && is_told(other, &b) && a.stx_ino == b.stx_ino && a.stx_dev_major == b.stx_dev_major && a.stx_dev_minor == b.stx_dev_minor;
}

static void test_facts(void) {
  struct statx facts;
  int ends[2];
  int32_t file = ddcap_open("made", READ), again = ddcap_open("./made", READ), other = ddcap_open("other", WRITE | CREATE, 0666);
  expect("a file is on a disk", is_on_disk(file));
  expect("a file is itself by another name", is_same(file, again));
  expect("two files are two", is_on_disk(other) && !is_same(file, other));
  expect("a second name", link("made", "second") == 0);
  int32_t second = ddcap_open("second", READ);
  expect("a file with two names is one", is_same(file, second));
  int32_t null = ddcap_open("/dev/null", WRITE);
  expect("a device is no file on a disk", is_told(null, &facts) && !is_on_disk(null));
  expect("a pipe is none either", pipe(ends) == 0 && is_told(ends[0], &facts) && !is_on_disk(ends[0]));
  ddcap_close(other);
  expect("nothing is told of what is not opened", ddcap_statx(other, "", ABOUT_IT, ALL, &facts) == -1 && rattle_errno() == NOT_OPENED);
  for (int end = 0; end < 2; end++) close(ends[end]);
  ddcap_close(file), ddcap_close(again), ddcap_close(second), ddcap_close(null);
}

static void test_copies(void) {
  char bytes[9] = "........";
  int input = dup(0);
  close(0);
  int32_t file = ddcap_open("made", READ), copy = ddcap_fcntl(file, COPY, (int64_t)3);
  expect("a file gets the number of a closed stream", file == 0);
  expect("a copy never does", copy >= 3);
  expect("a copy is closed in a program that is started", fcntl(copy, F_GETFD) == FD_CLOEXEC);
  expect("it outlives what it was made of", ddcap_close(file) == 0 && ddcap_read(copy, bytes, 3) == 3 && strcmp(bytes, "one.....") == 0);
  expect("another command", ddcap_fcntl(copy, COPY + 1, (int64_t)3) == -1 && rattle_errno() == NO_SUCH_PLACE);
  ddcap_close(copy);
  expect("a copy of nothing", ddcap_fcntl(copy, COPY, (int64_t)3) == -1 && rattle_errno() == NOT_OPENED);
  if (input >= 0) dup2(input, 0), close(input);
}

static void test_lengths(void) {
  char bytes[9] = "........";
  int32_t file = ddcap_open("made", WRITE | CREATE, 0666), reader = ddcap_open("made", READ);
  expect("what is opened to write keeps what it has", ddcap_read(reader, bytes, 8) == 7 && strcmp(bytes, "one two.") == 0);
  expect("a file is cut", ddcap_ftruncate(file, 3) == 0 && ddcap_lseek(reader, 0, FROM_END) == 3);
  expect("and has zeros where it grows", ddcap_ftruncate(file, 5) == 0 && ddcap_lseek(reader, 3, FROM_BEGINNING) == 3 &&
    ddcap_read(reader, bytes, 8) == 2 && bytes[0] == 0 && bytes[1] == 0);
  expect("what is opened to read is not cut", ddcap_ftruncate(reader, 0) == -1 && rattle_errno() == NO_SUCH_PLACE);
  expect("a file has no length below 0", ddcap_ftruncate(file, -1) == -1 && rattle_errno() == NO_SUCH_PLACE);
  expect("it is emptied, and written from the beginning", ddcap_ftruncate(file, 0) == 0 && ddcap_write(file, "one two", 7) == 7);
  expect("so it has this alone", ddcap_lseek(reader, 0, FROM_END) == 7);
  ddcap_close(file), ddcap_close(reader);
  expect("what is closed is not cut", ddcap_ftruncate(file, 0) == -1 && rattle_errno() == NOT_OPENED);
}

static void test_files(void) {
  char bytes[9] = "........";
  expect("a file that is not there", ddcap_open("none", READ) == -1 && rattle_errno() == NO_SUCH_FILE);
  expect("a folder is not written to", ddcap_open(".", WRITE) == -1 && rattle_errno() == A_FOLDER);
  int32_t file = ddcap_open("made", WRITE | CREATE | EMPTY, 0666);
  expect("a file is made", file > 2);
  expect("bytes are written", ddcap_write(file, "one two", 7) == 7);
  expect("what is opened to write can't be read", ddcap_read(file, bytes, 8) == -1 && rattle_errno() == NOT_OPENED);
  expect("it is closed", ddcap_close(file) == 0);
  expect("and not twice", ddcap_close(file) == -1 && rattle_errno() == NOT_OPENED);
  file = ddcap_open("made", READ);
  expect("bytes are read", ddcap_read(file, bytes, 3) == 3 && strcmp(bytes, "one.....") == 0);
  expect("the place", ddcap_lseek(file, 0, FROM_HERE) == 3);
  expect("the end", ddcap_lseek(file, 0, FROM_END) == 7 && ddcap_read(file, bytes, 8) == 0);
  expect("before the beginning", ddcap_lseek(file, -1, FROM_BEGINNING) == -1 && rattle_errno() == NO_SUCH_PLACE);
  expect("beyond 4 GB", ddcap_lseek(file, 5000000000, FROM_BEGINNING) == 5000000000);
  expect("the beginning", ddcap_lseek(file, 0, FROM_BEGINNING) == 0 && ddcap_read(file, bytes, 8) == 7 && strcmp(bytes, "one two.") == 0);
  expect("what is opened to read can't be written", ddcap_write(file, "x", 1) == -1 && rattle_errno() == NOT_OPENED);
  ddcap_close(file);
  test_facts();
  test_copies();
  test_lengths();
  file = ddcap_open("made", WRITE | EMPTY);
  expect("it is emptied", ddcap_lseek(file, 0, FROM_END) == 0);
  ddcap_close(file);
}
#endif

/* dist/system.c has main. */
int32_t ddcap_main(void) {
  test_arguments();
  test_memory();
  test_errors();
  test_files();
  printf("%d passed, %d failed\n", passed, failed);
  return failed != 0;
}

#ifdef OF_TOOLCHAIN
int main(void) { return ddcap_main(); }
#endif
