/* What the compiled program calls, answered from memory: files, streams, words. dist/names has the names, and dist/memory.c the rest. No proof covers
 * it; tools/tests/test_library and tools/tests/test_page hold its answers to those of the program. The numbers are Linux's, whatever system it is
 * compiled for: the program knows them. */
#include "texts.h"
#include "../dist/facts.h"

#include <stdarg.h>
#include <stdlib.h>
#include <string.h>

enum { NO_SUCH_TEXT = 2, NOT_OPENED = 9, NO_MEMORY = 12, NOT_SO = 22, NO_NUMBER_LEFT = 24, NO_SEEK = 29 }; /* errno */
enum { TO_WRITE = 3, TO_CREATE = 0100, TO_EMPTY = 01000 };                                  /* flags of open */
enum { FROM_BEGINNING, FROM_HERE, FROM_END };                                              /* of lseek */
enum { NO_ARGUMENT = -1, NO_ROOM = -2 };

int32_t ddcap_main(void);

static _Thread_local struct run *now;

static int64_t failed(int32_t number) {
  now->last_error = number;
  return -1;
}

int32_t rattle_errno(void) { return now->last_error; }

void rattle_set_errno(int32_t number) { now->last_error = number; }

/* ---- words: argument 0 is the program's name ---- */

int64_t rattle_arg(uint64_t number, char *buffer, uint64_t room) {
  if (number > now->word_count) return NO_ARGUMENT;
  const char *word = number ? now->words[number - 1] : "ddcap";
  uint64_t length = strlen(word);
  memcpy(buffer, word, (size_t)(length < room ? length : room));
  return length > room ? NO_ROOM : (int64_t)length;
}

/* ---- texts ---- */

static struct text *named(struct run *run, const char *name) {
  for (size_t i = FIRST_NAMED; i < run->text_count; i++)
    if (strcmp(run->texts[i].name, name) == 0) return &run->texts[i];
  return NULL;
}

/* A new text with a copy of this name, or NULL. */
static struct text *new_text(struct run *run, const char *name) {
  if (run->text_count < FIRST_NAMED) run->text_count = FIRST_NAMED;
  if (run->text_count == MOST_TEXTS) return NULL;
  size_t length = strlen(name) + 1;
  char *copy = malloc(length);
  if (!copy) return NULL;
  memcpy(copy, name, length);
  struct text *text = &run->texts[run->text_count++];
  *text = (struct text){.name = copy};
  return text;
}

bool give_text(struct run *run, const char *name, const unsigned char *bytes, size_t length) {
  struct text *text = new_text(run, name);
  if (!text) return false;
  text->bytes = (unsigned char *)bytes; /* never written: the first write takes memory of the run's own */
  text->length = length;
  return true;
}

/* Makes room for so many bytes in all, with as much again. */
static bool make_room(struct text *text, size_t wanted) {
  if (wanted <= text->room) return true;
  size_t room = wanted > PTRDIFF_MAX / 2 ? wanted : 2 * wanted + 256;
  void *grown = realloc(text->bytes, room);
  if (!grown) return false;
  text->bytes = grown;
  text->room = room;
  return true;
}

/* Makes the bytes of a text the run's own, so many of them as stay; false where there is no memory. */
static bool own(struct text *text, size_t kept) {
  if (!text->is_written) {
    struct text copy = {.name = text->name, .length = kept, .is_written = true};
    if (!make_room(&copy, kept)) return false;
    if (kept) memcpy(copy.bytes, text->bytes, kept);
    *text = copy;
  }
  text->length = kept;
  return true;
}

/* Gives a text the lowest free number that is none of a stream's. */
static int32_t numbered(struct opened opened) {
  for (int32_t number = ERRORS + 2; number < MOST_OPENED; number++)
    if (!now->opened[number].text) {
      now->opened[number] = opened;
      return number;
    }
  return (int32_t)failed(NO_NUMBER_LEFT);
}

int32_t ddcap_open(const char *name, int32_t flags, ...) {
  struct text *text = named(now, name);
  if (!text && !(flags & TO_CREATE)) return (int32_t)failed(NO_SUCH_TEXT);
  if (!text && ((text = new_text(now, name)))) text->is_written = true;
  if (!text || (flags & TO_EMPTY && !own(text, 0))) return (int32_t)failed(NO_MEMORY);
  return numbered((struct opened){text, 0, flags & TO_WRITE});
}

/* What has this number, or NULL. */
static struct opened *opened_as(int32_t number) {
  return number >= 0 && number < MOST_OPENED && now->opened[number].text ? &now->opened[number] : NULL;
}

int32_t ddcap_close(int32_t number) {
  struct opened *opened = opened_as(number);
  if (!opened) return (int32_t)failed(NOT_OPENED);
  opened->text = NULL;
  return 0;
}

/* The program has one command: another number for what is opened. The copy has a place of its own, since the first number is closed at once. */
int32_t ddcap_fcntl(int32_t number, int32_t command, ...) {
  struct opened *opened = opened_as(number);
  if (!opened) return (int32_t)failed(NOT_OPENED);
  return command == COPY ? numbered(*opened) : (int32_t)failed(NOT_SO);
}

/* A text is a file on a disk, whose number is its place among the texts: so each is told from the others. */
int32_t ddcap_statx(int32_t number, const char *path, int32_t flags, uint32_t wanted, struct facts *facts) {
  (void)path, (void)flags, (void)wanted;
  struct opened *opened = opened_as(number);
  if (!opened) return (int32_t)failed(NOT_OPENED);
  *facts = (struct facts){.known = KNOWN, .kind = REGULAR, .number = (uint64_t)(opened->text - now->texts)};
  return 0;
}

int32_t ddcap_ftruncate(int32_t number, int64_t length) {
  struct opened *opened = opened_as(number);
  if (!opened || !opened->is_to_write || length < 0) return (int32_t)failed(NOT_SO);
  struct text *text = opened->text;
  size_t kept = (uint64_t)length < text->length ? (size_t)length : text->length;
  if ((uint64_t)length > PTRDIFF_MAX || !own(text, kept) || !make_room(text, (size_t)length)) return (int32_t)failed(NO_MEMORY);
  if ((size_t)length > kept) memset(text->bytes + kept, 0, (size_t)length - kept);
  text->length = (size_t)length;
  return 0;
}

int64_t ddcap_lseek(int32_t number, int64_t by, int32_t from) {
  struct opened *opened = opened_as(number);
  if (!opened) return failed(NOT_OPENED);
  int64_t place = by + (from == FROM_BEGINNING ? 0 : (int64_t)(from == FROM_HERE ? opened->place : opened->text->length));
  if (place < 0 || (uint64_t)place > PTRDIFF_MAX) return failed(NOT_SO);
  if (from == FROM_BEGINNING && now->most_readings && opened->text->readings++ == now->most_readings) return failed(NO_SEEK);
  opened->place = (size_t)place;
  return place;
}

/* Standard input is empty. */
int64_t ddcap_read(int32_t number, void *to, uint64_t room) {
  struct opened *opened = opened_as(number);
  if (!opened) return number == 0 ? 0 : failed(NOT_OPENED);
  size_t left = opened->place < opened->text->length ? opened->text->length - opened->place : 0;
  size_t count = room < left ? (size_t)room : left;
  if (count) memcpy(to, opened->text->bytes + opened->place, count);
  opened->place += count;
  if (now->was_read) now->was_read(count);
  return (int64_t)count;
}

int64_t ddcap_write(int32_t number, const void *from, uint64_t count) {
  struct opened *opened = opened_as(number);
  if (!opened || !opened->is_to_write) return failed(NOT_OPENED);
  struct text *text = opened->text;
  if (!own(text, text->length)) return failed(NO_MEMORY);
  if (count > PTRDIFF_MAX - opened->place || !make_room(text, opened->place + (size_t)count)) return failed(NO_MEMORY);
  if (opened->place > text->length) memset(text->bytes + text->length, 0, opened->place - text->length);
  if (count) memcpy(text->bytes + opened->place, from, (size_t)count);
  opened->place += (size_t)count;
  if (opened->place > text->length) text->length = opened->place;
  return (int64_t)count;
}

int64_t ddcap_write_at_once(int32_t number, const void *from, uint64_t count) { return ddcap_write(number, from, count); }

/* ---- the rest ---- */

int64_t ddcap_signal(int32_t number, int64_t action) {
  (void)number, (void)action;
  return 0;
}

/* What the processor has, in glibc's words: all, or nothing where a processor for x86-64 lacks what the program was compiled for. */
const void *ddcap_features(uint32_t leaf) {
  static const uint32_t all[16] = {~0u, ~0u, ~0u, ~0u, ~0u, ~0u, ~0u, ~0u, ~0u, ~0u, ~0u, ~0u, ~0u, ~0u, ~0u, ~0u};
  static const uint32_t none[16] = {0};
  (void)leaf;
#if defined(__x86_64__)
  __builtin_cpu_init();
  if (!__builtin_cpu_supports("sse4.2") || !__builtin_cpu_supports("ssse3") || !__builtin_cpu_supports("popcnt")) return none;
#endif
  (void)none;
  return all;
}

int32_t run_program(struct run *run) {
  struct run *outer = now;
  if (run->text_count < FIRST_NAMED) run->text_count = FIRST_NAMED;
  for (int number = OUTPUT; number <= ERRORS; number++) {
    run->texts[number].is_written = true;
    run->opened[number + 1] = (struct opened){&run->texts[number], 0, true};
  }
  now = run;
  int32_t status = ddcap_main();
  now = outer;
  return status;
}

void end_run(struct run *run) {
  for (size_t i = 0; i < run->text_count; i++) {
    free(run->texts[i].name);
    if (run->texts[i].is_written) free(run->texts[i].bytes);
  }
  *run = (struct run){0};
}
