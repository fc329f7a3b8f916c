/* The calls of ddcap.h: each is one run of the program over the texts that it is given. */
#include "ddcap.h"

#include <stdlib.h>
#include <string.h>

#include "texts.h"

#define EXPORTED __attribute__((visibility("default")))

enum { MOST_WORDS = 8 };

static char no_memory[] = "out of memory\n"; /* what the program prints; never written */

static int without_memory(struct ddcap_answer *answer) {
  *answer = (struct ddcap_answer){DDCAP_NO_MEMORY, sizeof no_memory - 1, no_memory};
  return answer->status;
}

/* These two texts as one with a NUL after it; NULL where there is no memory. */
static char *joined(const struct text *first, const struct text *second, size_t *length) {
  *length = first->length + second->length;
  char *text = malloc(*length + 1);
  if (!text) return NULL;
  if (first->length) memcpy(text, first->bytes, first->length);
  if (second->length) memcpy(text + first->length, second->bytes, second->length);
  text[*length] = '\0';
  return text;
}

/* A word and its options. */
struct call {
  const char *words[MOST_WORDS];
  size_t count;
};

static struct call call_of(const char *word, unsigned choices) {
  struct call call = {{word}, 1};
  if (choices & DDCAP_LINE) call.words[call.count++] = "--line";
  if (choices & DDCAP_QUEUED) call.words[call.count++] = "--queued";
  if (choices & DDCAP_JSON) call.words[call.count++] = "--json";
  if (choices & DDCAP_ALL) call.words[call.count++] = "--all";
  return call;
}

/* Makes a run, whose texts are given or not, and answers with what it prints. */
static int answered_by(struct run *run, bool is_given, struct ddcap_answer *answer) {
  int status = is_given ? run_program(run) : DDCAP_NO_MEMORY;
  size_t length = 0;
  char *text = is_given ? joined(&run->texts[OUTPUT], &run->texts[ERRORS], &length) : NULL;
  if (!text || status == DDCAP_NO_MEMORY) { /* over texts in memory nothing else fails */
    free(text);
    return without_memory(answer);
  }
  *answer = (struct ddcap_answer){status, length, text};
  return status;
}

/* Runs this word over one or two texts. */
static int answered(const char *word, const char *a, size_t a_length, const char *b, size_t b_length, unsigned choices, struct ddcap_answer *answer) {
  struct call call = call_of(word, choices);
  call.words[call.count++] = "a";
  if (b) call.words[call.count++] = "b";
  struct run run = {.words = call.words, .word_count = call.count};
  bool is_given = give_text(&run, "a", (const unsigned char *)a, a_length) && (!b || give_text(&run, "b", (const unsigned char *)b, b_length));
  int status = answered_by(&run, is_given, answer);
  end_run(&run);
  return status;
}

/* What a run wrote under this name, which may be nothing. */
static int written(const struct run *run, const char *name, struct ddcap_answer *answer) {
  static const struct text nothing;
  const struct text *found = &nothing;
  for (size_t i = FIRST_NAMED; i < run->text_count; i++)
    if (strcmp(run->texts[i].name, name) == 0) found = &run->texts[i];
  size_t length;
  char *text = joined(found, &nothing, &length);
  if (!text) return without_memory(answer);
  *answer = (struct ddcap_answer){DDCAP_ACCEPTED, length, text};
  return answer->status;
}

EXPORTED int ddcap_check(const char *a, size_t a_length, const char *b, size_t b_length, unsigned choices, struct ddcap_answer *answer) {
  return answered("check", a, a_length, b ? b : "", b ? b_length : 0, choices, answer);
}

EXPORTED int ddcap_alone(const char *a, size_t a_length, unsigned choices, struct ddcap_answer *answer) {
  return answered("alone", a, a_length, NULL, 0, choices, answer);
}

EXPORTED int ddcap_why(const char *a, size_t a_length, const char *b, size_t b_length, unsigned choices, struct ddcap_answer *answer) {
  return answered("why", a, a_length, b, b_length, choices, answer);
}

EXPORTED int ddcap_tap(const char *wire, size_t wire_length, unsigned choices, struct ddcap_answer *answer, struct ddcap_answer *a,
                       struct ddcap_answer *b) {
  struct call call = call_of("tap", choices);
  call.words[call.count++] = "wire";
  call.words[call.count++] = "a";
  call.words[call.count++] = "b";
  struct run run = {.words = call.words, .word_count = call.count};
  bool is_given = give_text(&run, "wire", (const unsigned char *)wire, wire_length);
  int status = answered_by(&run, is_given, answer);
  written(&run, "a", a);
  written(&run, "b", b);
  end_run(&run);
  if (status == DDCAP_NO_MEMORY || (a->status == DDCAP_ACCEPTED && b->status == DDCAP_ACCEPTED)) return status;
  ddcap_free(answer);
  return without_memory(answer);
}

EXPORTED void ddcap_free(struct ddcap_answer *answer) {
  if (answer->text != no_memory) free(answer->text);
  answer->text = no_memory;
  answer->length = 0;
}
