/* What web/run.mjs calls of the module. An instance serves one run: texts are given, the words are run, and what was written is read. */
#include "../lib/texts.h"
#include <stdlib.h>
#include <string.h>

#define EXPORTED(name) __attribute__((export_name(#name))) name

/* What the page is told while a run goes on: how many bytes were read. */
__attribute__((import_module("page"), import_name("was_read"))) void was_read(size_t count);

static struct run run = {.was_read = was_read};

/* The address of so many bytes that the caller fills, or 0. */
void *EXPORTED(room)(size_t size) { return malloc(size ? size : 1); }

/* Gives a text under a name that ends with a NUL. 0 where there is no memory, or no place. */
int32_t EXPORTED(give)(const char *name, const unsigned char *bytes, size_t length) { return give_text(&run, name, bytes, length); }

/* From now on each text can be begun again so often, and then no more, as if it came through a pipe. */
void EXPORTED(begin_again_at_most)(size_t times) { run.most_readings = times; }

/* Runs the program on words that each end with a NUL, and answers its status; -1 where there is no memory. */
int32_t EXPORTED(run_words)(const char *words, size_t length) {
  size_t count = 0;
  for (size_t i = 0; i < length; i++) count += words[i] == '\0';
  const char **each = malloc((count ? count : 1) * sizeof *each);
  if (!each) return -1;
  for (size_t i = 0; i < count; i++) {
    each[i] = words;
    words += strlen(words) + 1;
  }
  run.words = each, run.word_count = count;
  return run_program(&run);
}

/* What there is afterwards, by number: standard output, standard error, and the texts with a name. */
size_t EXPORTED(text_count)(void) { return run.text_count; }
const char *EXPORTED(text_name)(size_t number) { return run.texts[number].name; }
const unsigned char *EXPORTED(text_bytes)(size_t number) { return run.texts[number].bytes; }
size_t EXPORTED(text_length)(size_t number) { return run.texts[number].length; }
int32_t EXPORTED(text_is_written)(size_t number) { return run.texts[number].is_written; }
