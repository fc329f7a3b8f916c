/* A recorder for a node's own code, in C. It writes the capture that `ddcap check` and `ddcap alone` judge (docs/CAPTURES.md).

     struct recorder log;
     recorder_open(&log, "node.a", "1.1", "1.2");
     recorder_user(&log, "start");                    the user's event, when the node acts on it; also "halt", "open 1" and so on
     recorder_sent(&log, unit, length);               when the station decides on the unit, before it waits in a queue for the line
     recorder_received(&log, unit, length, number);   when the station acts on a unit that arrived
     recorder_kept(&log, unit, length, number);       the same, if the station accepts the packet in it and counts its number
     recorder_noise(&log, NULL, 0);                   when a block check showed bytes that are not a unit of the peer
     recorder_message(&log, "in 1", bytes, length);   before the units that carry the message; "up 1" when it is delivered

   A unit is header, data and checks as they passed, without SYN and pads. `number` says which of the peer's units this is, counted from 0 over all
   that the peer sent. RECORDER_NEXT is the next one: that is right if no unit was lost, and enough for `alone`.

   recorder_open begins a capture in format 2. If the node starts anew, gives up a call, or loses packets inside, its capture has to say so, in
   format 3, which has more calls:

     recorder_open_as(&log, 3, "node.a", "1.1", "1.2");
     recorder_user(&log, "boot");                     when the whole node starts anew; "start" follows
     recorder_user(&log, "abort 1");                  when a call that was not answered is given up, and nothing is sent for it
     recorder_dropped(&log, unit, length, number);    in place of `kept`, if the packet is lost inside the node before NSP meets it
     recorder_composed(&log, packet, length);         a packet that will never be sent, before recorder_sent of those that are composed later
     recorder_message(&log, "interrupt 1", bytes, length);  and "interrupted 1": an interrupt of at most 16 bytes is handed in, or delivered

   If the line already runs when you switch the recorder on, open it in format 4: its head says that this is a part of a run, which
   `ddcap check --line` and `alone --line` judge, and it has the lines of format 3. `number` counts from where the peer's recorder was switched
   on, and is RECORDER_BEFORE for a unit that was sent before that. RECORDER_NEXT means that too, until a number was given: that is enough for
   `alone`.

   Each call answers 1; or 0 if the file failed, after which nothing is written, or if it can't be a line of the capture's format, which is not
   written then. recorder.py says what comes of other calls. */
#ifndef DDCAP_RECORDER_H
#define DDCAP_RECORDER_H
#include <stdio.h>
#include <string.h>

#define RECORDER_NEXT (-1LL)
#define RECORDER_BEFORE (-2LL)
#define RECORDER_PART 4         /* the format of a part of a run */
#define RECORDER_UNIT 16393     /* the most bytes of a unit, */
#define RECORDER_PACKET 16383   /* of a packet, */
#define RECORDER_MESSAGE 65535  /* of a user's message, */
#define RECORDER_INTERRUPT 16   /* and of an interrupt */

struct recorder {
    FILE *file;
    int form;       /* the format: 1, 2, 3 or RECORDER_PART */
    long long next; /* the number of the peer's next unit, or RECORDER_BEFORE */
};

/* What follows these words is a number from 1 to `most`, spelled as a capture spells it: where it ends, else NULL. */
static inline const char *recorder_number(const char *words, long most)
{
    long number = 0;
    if (!words || *words == '0') return NULL;
    const char *at = words;
    for (; *at >= '0' && *at <= '9' && number <= most; at++) number = 10 * number + (*at - '0');
    return at != words && number <= most ? at : NULL;
}

static inline int recorder_node(const char *address)
{
    const char *at = recorder_number(address, 63);
    at = at && *at == '.' ? recorder_number(at + 1, 1023) : NULL;
    return at && !*at;
}

/* Whether these words are an event of a capture in this format, whose message has at most `most` bytes; 0 where an event has none. */
static inline int recorder_event(int form, const char *words, size_t most)
{
    static const struct { const char *verb; int addresses; size_t most; int form; } events[] = {
        {"start", 0, 0, 1}, {"halt", 0, 0, 1}, {"open", 1, 0, 1}, {"accept", 2, 0, 1}, {"reject", 2, 0, 1}, {"close", 1, 0, 1},
        {"in", 1, RECORDER_MESSAGE, 1}, {"up", 1, RECORDER_MESSAGE, 1}, {"boot", 0, 0, 3}, {"abort", 1, 0, 3},
        {"interrupt", 1, RECORDER_INTERRUPT, 3}, {"interrupted", 1, RECORDER_INTERRUPT, 3},
    };
    size_t verb = strcspn(words, " ");
    for (size_t event = 0; event < sizeof events / sizeof *events; event++) {
        if (strlen(events[event].verb) != verb || strncmp(events[event].verb, words, verb)) continue;
        const char *at = words + verb;
        for (int left = events[event].addresses; left > 0 && at; left--) at = *at == ' ' ? recorder_number(at + 1, 65535) : NULL;
        return at && !*at && events[event].most == most && events[event].form <= form;
    }
    return 0;
}

static inline int recorder_ended(struct recorder *log)
{
    fputc('\n', log->file);
    return fflush(log->file) == 0 && !ferror(log->file); /* so that nothing is missing if the node crashes */
}

static inline int recorder_line(struct recorder *log, const char *words, const unsigned char *bytes, size_t length, size_t most)
{
    if (length > most || !log->file || ferror(log->file)) return 0;
    fprintf(log->file, "%s %s", words, length ? "" : "-");
    for (size_t at = 0; at < length; at++) fprintf(log->file, "%02x", bytes[at]);
    return recorder_ended(log);
}

static inline int recorder_receipt(struct recorder *log, char letter, const unsigned char *unit, size_t length, long long number)
{
    char words[32];
    int is_part = log->form == RECORDER_PART;
    if (number == RECORDER_NEXT) number = log->next;
    int is_before = is_part && number == RECORDER_BEFORE;
    if (!is_before && (number < 0 || number >= 1000000000000000000LL - is_part)) return 0;
    if (is_before) snprintf(words, sizeof words, "%c -", letter);
    else snprintf(words, sizeof words, "%c %lld", letter, log->form == 2 ? number - log->next : number);
    if (!recorder_line(log, words, unit, length, RECORDER_UNIT)) return 0;
    if (!is_before) log->next = number + 1;
    return 1;
}

static inline int recorder_open_as(struct recorder *log, int form, const char *path, const char *own, const char *peer)
{
    log->file = NULL;
    log->form = form;
    log->next = form == RECORDER_PART ? RECORDER_BEFORE : 0;
    if (form < 1 || form > RECORDER_PART || !recorder_node(own) || !recorder_node(peer)) return 0;
    log->file = fopen(path, "wb");
    return log->file && fprintf(log->file, "ddcap %d %s %s%s", form, own, peer, form == RECORDER_PART ? " part" : "") > 0 && recorder_ended(log);
}

static inline int recorder_open(struct recorder *log, const char *path, const char *own, const char *peer)
{
    return recorder_open_as(log, 2, path, own, peer);
}

static inline int recorder_sent(struct recorder *log, const unsigned char *unit, size_t length)
{
    return recorder_line(log, "s", unit, length, RECORDER_UNIT);
}

static inline int recorder_received(struct recorder *log, const unsigned char *unit, size_t length, long long number)
{
    return recorder_receipt(log, 'r', unit, length, number);
}

static inline int recorder_kept(struct recorder *log, const unsigned char *unit, size_t length, long long number)
{
    return recorder_receipt(log, 'k', unit, length, number);
}

static inline int recorder_dropped(struct recorder *log, const unsigned char *unit, size_t length, long long number)
{
    return log->form >= 3 && recorder_receipt(log, 'd', unit, length, number);
}

static inline int recorder_composed(struct recorder *log, const unsigned char *packet, size_t length)
{
    return log->form >= 3 && recorder_line(log, "x", packet, length, RECORDER_PACKET);
}

static inline int recorder_noise(struct recorder *log, const unsigned char *bytes, size_t length)
{
    return recorder_line(log, "n", bytes, length, RECORDER_UNIT);
}

static inline int recorder_user(struct recorder *log, const char *event)
{
    if (!recorder_event(log->form, event, 0) || !log->file || ferror(log->file)) return 0;
    fprintf(log->file, "u %s", event);
    return recorder_ended(log);
}

static inline int recorder_message(struct recorder *log, const char *event, const unsigned char *bytes, size_t length)
{
    char words[32];
    size_t most = strncmp(event, "interrupt", 9) ? RECORDER_MESSAGE : RECORDER_INTERRUPT;
    if (!recorder_event(log->form, event, most)) return 0;
    snprintf(words, sizeof words, "u %.20s", event);
    return recorder_line(log, words, bytes, length, most);
}
#endif
