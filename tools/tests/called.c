/* The program as calls, for tools/tests/called.py: a run of its own over texts in memory (lib/texts.c), whose words and texts are given one by one. */
#include "../../lib/texts.h"

#include <stdlib.h>

#define SEEN __attribute__((visibility("default")))

SEEN struct run *begin(void) { return calloc(1, sizeof(struct run)); }

/* Name and bytes stay the caller's as long as the run; false where there is no memory, or no place. */
SEEN bool give(struct run *run, const char *name, const unsigned char *bytes, size_t length) { return give_text(run, name, bytes, length); }

/* Answers the status. */
SEEN int32_t answer(struct run *run, const char *const *words, size_t count) {
  run->words = words, run->word_count = count;
  return run_program(run);
}

/* What there is afterwards, by number: standard output, standard error, and the texts with a name. */
SEEN size_t count(const struct run *run) { return run->text_count; }
SEEN const char *name(const struct run *run, size_t number) { return run->texts[number].name; }
SEEN const unsigned char *bytes(const struct run *run, size_t number) { return run->texts[number].bytes; }
SEEN size_t length(const struct run *run, size_t number) { return run->texts[number].length; }
SEEN bool is_written(const struct run *run, size_t number) { return run->texts[number].is_written; }

SEEN void end(struct run *run) {
  end_run(run);
  free(run);
}
