/* Judges two captures, and tells why they are refused:
 *
 *   cc -o judge lib/example.c out/libddcap.a && ./judge examples/wrong_response.a examples/wrong_response.b
 */
#include "ddcap.h"

#include <stdio.h>
#include <stdlib.h>

/* The text of a file, which the caller frees; NULL where it can't be read. */
static char *read_text(const char *path, size_t *length) {
  FILE *file = fopen(path, "rb");
  char *text = NULL;
  *length = 0;
  for (size_t room = 0; file && !ferror(file) && !feof(file);) {
    if (*length == room) {
      char *grown = realloc(text, room = 2 * room + 4096);
      if (!grown) break;
      text = grown;
    }
    *length += fread(text + *length, 1, room - *length, file);
  }
  int is_whole = file && feof(file) && !ferror(file);
  if (file) fclose(file);
  if (is_whole) return text;
  free(text);
  return NULL;
}

int main(int count, char **words) {
  if (count != 3) return fprintf(stderr, "%s A B\n", words[0]), DDCAP_FAULTY;
  size_t a_length, b_length;
  char *a = read_text(words[1], &a_length), *b = read_text(words[2], &b_length);
  int status = DDCAP_NO_MEMORY;
  if (a && b) {
    struct ddcap_answer answer;
    status = ddcap_check(a, a_length, b, b_length, 0, &answer);
    if (status == DDCAP_REFUSED) {
      ddcap_free(&answer);
      status = ddcap_why(a, a_length, b, b_length, 0, &answer);
    }
    fputs(answer.text, status > DDCAP_REFUSED ? stderr : stdout);
    ddcap_free(&answer);
  } else {
    fprintf(stderr, "%s can't be read\n", a ? words[2] : words[1]);
  }
  free(a);
  free(b);
  return status;
}
