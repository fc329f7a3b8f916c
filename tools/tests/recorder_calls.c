/* recorder_calls FILE FORM: calls examples/recorder.h, with this format, as a node would that made a capture in another one than 2, which is read
   from standard input; tells each call that was not taken, as `line 3`. FORM 0 is the format that recorder_open has. */
#include "recorder.h"
#include <stdlib.h>
#include <string.h>

static unsigned char bytes[1 << 17];
static char line[1 << 19];

/* The bytes that these digits spell, `-` for none: how many they are. */
static size_t spelled(const char *digits)
{
    size_t count = 0;
    for (; digits[0] != '-' && digits[0] && digits[1]; digits += 2) {
        char two[3] = {digits[0], digits[1], 0};
        bytes[count++] = (unsigned char)strtoul(two, NULL, 16);
    }
    return count;
}

/* Makes the call of this line; where its number is that of the next unit, by that name. */
static int called(struct recorder *log)
{
    char *last = strrchr(line, ' ');
    char *hint = strchr(line, ' ') + 1;
    if (line[0] == 'u') {
        if (strncmp(line, "u in ", 5) && strncmp(line, "u up ", 5) && strncmp(line, "u interrupt", 11)) return recorder_user(log, line + 2);
        *last = 0;
        return recorder_message(log, line + 2, bytes, spelled(last + 1));
    }
    size_t length = spelled(last + 1);
    long long number = hint[0] == '-' && hint[1] == ' ' ? RECORDER_BEFORE : strtoll(hint, NULL, 10);
    if (number == log->next) number = RECORDER_NEXT;
    switch (line[0]) {
    case 's': return recorder_sent(log, bytes, length);
    case 'n': return recorder_noise(log, bytes, length);
    case 'x': return recorder_composed(log, bytes, length);
    case 'd': return recorder_dropped(log, bytes, length, number);
    case 'k': return recorder_kept(log, bytes, length, number);
    default: return recorder_received(log, bytes, length, number);
    }
}

int main(int count, char **words)
{
    struct recorder log;
    char own[16], peer[16];
    if (count != 3 || scanf("ddcap %*d %15s %15s\n", own, peer) != 2) return 1;
    int form = atoi(words[2]);
    if (!(form ? recorder_open_as(&log, form, words[1], own, peer) : recorder_open(&log, words[1], own, peer))) {
        puts("head");
        return 0;
    }
    for (int number = 2; fgets(line, sizeof line, stdin); number++) {
        line[strcspn(line, "\n")] = 0;
        if (!called(&log)) printf("line %d\n", number);
    }
    return fclose(log.file) != 0;
}
