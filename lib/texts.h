/* One run of the program over texts in memory: its words, the texts that they name, and what it writes. Nothing outlives a run, and nothing is
 * shared: each thread may have a run of its own. */
#ifndef DDCAP_TEXTS_H
#define DDCAP_TEXTS_H
#include <stdbool.h>
#include <stddef.h>
#include <stdint.h>

enum { OUTPUT, ERRORS, FIRST_NAMED, MOST_TEXTS = 10, MOST_OPENED = 16 };

/* A text by its name. Its bytes are the caller's where they were given, and the run's own where the program wrote them. */
struct text {
  char *name;
  unsigned char *bytes;
  size_t length;
  size_t room; /* of the run's own bytes */
  bool is_written;
  size_t readings; /* how often it was begun again */
};

struct opened {
  struct text *text; /* NULL: no text has this number */
  size_t place;
  bool is_to_write;
};

/* All 0 but the words, where a run begins. */
struct run {
  const char *const *words; /* without the program's name */
  size_t word_count;
  struct text texts[MOST_TEXTS]; /* standard output, standard error, and those with a name */
  size_t text_count;
  struct opened opened[MOST_OPENED]; /* by the numbers that the program calls them */
  int32_t last_error;
  size_t most_readings;           /* a text that was begun again so often can't be once more; 0: it always can */
  void (*was_read)(size_t count); /* told of each read, by how many bytes; NULL: nobody is told */
};

/* Gives a text under a name. Its bytes stay the caller's, who keeps them as long as the run; false where there is no memory, or no place. */
bool give_text(struct run *run, const char *name, const unsigned char *bytes, size_t length);

/* Runs the program, and answers its status. What it wrote is in `texts`. */
int32_t run_program(struct run *run);

/* Gives back all memory that the run took. */
void end_run(struct run *run);

#endif
