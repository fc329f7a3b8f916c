/* ddcap.h: judges captures of a DDCMP line between two DECnet nodes, and makes them of what passed on it, as the program ddcap does. docs/CAPTURES.md
 * says what a capture is.
 *
 * Nothing is shared and nothing outlives a call, so each thread may judge at the same time; a stack of 128 KB is enough for it. No file is read or
 * written, and nothing is printed.
 *
 *   struct ddcap_answer answer;
 *   if (ddcap_check(a, strlen(a), b, strlen(b), 0, &answer) == DDCAP_REFUSED) puts(answer.text);
 *   ddcap_free(&answer);
 */
#ifndef DDCAP_H
#define DDCAP_H
#include <stddef.h>
#ifdef __cplusplus
extern "C" {
#endif

enum {
  DDCAP_ACCEPTED = 0, /* the captures obey the rules; of one end: as far as one end shows */
  DDCAP_REFUSED = 1,
  DDCAP_FAULTY = 2,   /* a text is not a capture: `a: line 3: syntax`; or the choices do not fit the call */
  DDCAP_NO_MEMORY = 3
};

/* Choices, which may be added up; DDCAP_LINE and DDCAP_QUEUED do not go together. */
enum {
  DDCAP_LINE = 1,  /* DDCMP alone is judged, without links */
  DDCAP_JSON = 2,  /* the answer is a JSON object, of `ddcap_why` one on a line for each part; docs/KEYS.md has their keys */
  DDCAP_QUEUED = 4, /* the nodes may have a queue between NSP and DDCMP, as most real nodes have; docs/LINKS.md says what differs */
  DDCAP_ALL = 8 /* all refusals, and not the first alone; docs/WORDS.md says how */
};

/* What the program prints for it, standard output first. `text` ends with a NUL that `length` doesn't count. It is never NULL. */
struct ddcap_answer {
  int status;
  size_t length;
  char *text;
};

/* Judges the captures of both ends, as `ddcap check A B`. The texts need no NUL at their end. Answers the status. */
int ddcap_check(const char *a, size_t a_length, const char *b, size_t b_length, unsigned choices, struct ddcap_answer *answer);

/* Judges the capture of one end without the other, as `ddcap alone A`. */
int ddcap_alone(const char *a, size_t a_length, unsigned choices, struct ddcap_answer *answer);

/* Tells why they are refused, as `ddcap why A B`; with a `b` of NULL why one is, as `ddcap why A`. */
int ddcap_why(const char *a, size_t a_length, const char *b, size_t b_length, unsigned choices, struct ddcap_answer *answer);

/* Makes both captures of the text of a wire, as `ddcap tap WIRE A B`; docs/WIRE.md says what that is. The texts of `a` and `b` are the captures,
 * empty where none were made; their status is 0, or DDCAP_NO_MEMORY, which the call then answers too. Of the choices DDCAP_LINE and DDCAP_JSON fit.
 * DDCAP_REFUSED says that a unit is unexplained, or that the captures do not fit together. All three answers have to be freed. */
int ddcap_tap(const char *wire, size_t wire_length, unsigned choices, struct ddcap_answer *answer, struct ddcap_answer *a, struct ddcap_answer *b);

/* Frees the text of an answer. */
void ddcap_free(struct ddcap_answer *answer);

#ifdef __cplusplus
}
#endif
#endif
