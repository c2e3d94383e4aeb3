/* The plain engine's search for a key, timed or counted in two libraries: see bench/search. */
#include "../include/contacts.h"
#include <stdio.h>
#include <stdlib.h>
#include <string.h>
#include <time.h>

#define ROWS 200
#define CLOCK 1000
#define NOBODY 255 /* the number of a key that no row has */

typedef contacts_document read_call(bool, const uint8_t *, size_t, uint32_t, const uint8_t *, size_t);
typedef contacts_served serve_call(bool, uint8_t *, size_t, uint32_t, const uint8_t *, size_t, uint8_t *, size_t,
                                   contacts_tally *);
read_call front_read;
serve_call front_serve;

static const struct side {
    const char *name;
    read_call *read;
    serve_call *serve;
} sides[] = {{"front", front_read, front_serve}, {"library", contacts_read, contacts_serve}};

enum place { LAST, FIRST, MIDDLE };
static const char *const place_names[] = {"last", "first", "middle"};

/* Keys that are alike but for one byte, and the number of the key that is looked for. */
struct search {
    size_t key;
    enum place place;
    unsigned number;
};
static const struct search searches[] = {
    {250, LAST, NOBODY}, {250, FIRST, NOBODY}, {250, MIDDLE, NOBODY}, {250, LAST, ROWS - 1}, {250, FIRST, ROWS - 1},
    {8, LAST, NOBODY},   {8, FIRST, NOBODY},   {8, LAST, ROWS - 1},   {7, LAST, NOBODY},     {7, FIRST, NOBODY},
    {7, LAST, ROWS - 1}, {1, LAST, NOBODY},    {1, LAST, ROWS - 1},
};
#define SEARCHES (sizeof searches / sizeof *searches)

/* What is called: a read or a Get of the key, and each with no key to look for. */
enum call { READ, READ_NOTHING, GET, NOOP, CALLS };

static uint8_t table[CONTACTS_TABLE_SIZE(ROWS)] __attribute__((aligned(64)));
static uint8_t key[CONTACTS_KEY_MAX], frame[CONTACTS_FRAME_MAX], reply[CONTACTS_REPLY_ROOM];
static contacts_tally tally;

static void make_key(const struct search *s, unsigned number) {
    size_t at = s->place == LAST ? s->key - 1 : s->place == FIRST ? 0 : s->key / 2;
    memset(key, 'k', sizeof key);
    key[at] = (uint8_t)number;
}

static size_t make_frame(uint8_t opcode, size_t extras, size_t key_len, size_t value) {
    size_t body = extras + key_len + value;
    memset(frame, 0, sizeof frame);
    frame[CONTACTS_FRAME_AT_MAGIC] = CONTACTS_MAGIC_REQUEST;
    frame[CONTACTS_FRAME_AT_OPCODE] = opcode;
    frame[CONTACTS_FRAME_AT_KEY_LENGTH + 1] = (uint8_t)key_len;
    frame[CONTACTS_FRAME_AT_EXTRAS_LENGTH] = (uint8_t)extras;
    frame[CONTACTS_FRAME_AT_BODY_LENGTH + 2] = (uint8_t)(body >> 8);
    frame[CONTACTS_FRAME_AT_BODY_LENGTH + 3] = (uint8_t)body;
    memcpy(frame + CONTACTS_FRAME_AT_EXTRAS + extras, key, key_len);
    return CONTACTS_FRAME_AT_EXTRAS + body;
}

/* One call, whose instructions callgrind counts. */
__attribute__((noinline)) int counted(const struct side *side, enum call call, size_t key_len, size_t frame_len) {
    if (call == READ || call == READ_NOTHING) {
        contacts_document d = side->read(true, table, sizeof table, CLOCK, key, call == READ ? key_len : 0);
        return d.outcome ? -1 : d.status;
    }
    contacts_served s = side->serve(true, table, sizeof table, CLOCK, frame, frame_len, reply, sizeof reply, &tally);
    return s.outcome ? -1 : s.status;
}

static void fill(const struct search *s) {
    memset(table, 0, sizeof table);
    table[CONTACTS_TABLE_AT_STATE] = CONTACTS_STATE_ACTIVE;
    table[CONTACTS_TABLE_AT_MODE] = CONTACTS_MODE_REVISION;
    for (unsigned i = 0; i < ROWS; i++) {
        make_key(s, i);
        size_t n = make_frame(CONTACTS_OP_SET, CONTACTS_SET_EXTRAS, s->key, 512);
        if (counted(&sides[1], GET, s->key, n) != 0) exit(1);
    }
    make_key(s, s->number);
}

/* The frame of a call, and whether both libraries answer it as they should. */
static size_t prepare(const struct search *s, enum call call) {
    size_t n = call == GET ? make_frame(CONTACTS_OP_GET, 0, s->key, 0) : make_frame(CONTACTS_OP_NOOP, 0, 0, 0);
    int found = call == NOOP || (call != READ_NOTHING && s->number != NOBODY);
    for (int i = 0; i < 2; i++)
        if (counted(&sides[i], call, s->key, n) != (found ? 0 : CONTACTS_STATUS_NOT_FOUND)) exit(1);
    return n;
}

static void name(const struct search *s) {
    const char *found = s->number == NOBODY ? "miss" : "hit, the last row";
    printf("| %zu | %s byte | %s |", s->key, place_names[s->place], found);
}

static double seconds(void) {
    struct timespec now;
    clock_gettime(CLOCK_MONOTONIC, &now);
    return (double)now.tv_sec + (double)now.tv_nsec / 1e9;
}

/* The best time of one call in nanoseconds, of both sides, in turns. */
static void race(const struct search *s, enum call call, int rounds, double best[2]) {
    size_t n = prepare(s, call);
    best[0] = best[1] = 1e9;
    for (int r = 0; r < rounds; r++)
        for (int i = 0; i < 2; i++) {
            double from = seconds();
            for (int k = 0; k < 8; k++) counted(&sides[i], call, s->key, n);
            double took = (seconds() - from) / 8 * 1e9;
            if (took < best[i]) best[i] = took;
        }
}

static void time_all(int rounds) {
    puts("| Key, bytes | Keys differ in their | Search | Read, front, ns | Read, library, ns | Get, front, ns | Get, library, ns "
         "| Search in a read, front, ns | library, ns | times |");
    puts("|---|---|---|---|---|---|---|---|---|---|");
    for (size_t i = 0; i < SEARCHES; i++) {
        const struct search *s = &searches[i];
        double read[2], nothing[2], get[2];
        fill(s);
        race(s, READ, rounds, read);
        race(s, READ_NOTHING, rounds, nothing);
        race(s, GET, rounds, get);
        double front = read[0] - nothing[0], library = read[1] - nothing[1];
        name(s);
        printf(" %.0f | %.0f | %.0f | %.0f | %.0f | %.0f | %.1f |\n", read[0], read[1], get[0], get[1], front, library,
               front / library);
    }
}

/* search times ROUNDS; search names, a line for each search; search count SEARCH CALL SIDE, which ends with that one call */
int main(int count, char **words) {
    if (count == 3 && !strcmp(words[1], "times")) {
        time_all(atoi(words[2]));
    } else if (count == 2 && !strcmp(words[1], "names")) {
        for (size_t i = 0; i < SEARCHES; i++) name(&searches[i]), puts("");
    } else if (count == 5 && !strcmp(words[1], "count")) {
        const struct search *s = &searches[(size_t)atoi(words[2]) % SEARCHES];
        enum call call = (enum call)(atoi(words[3]) % CALLS);
        fill(s);
        size_t n = prepare(s, call);
        return counted(&sides[atoi(words[4]) % 2], call, s->key, n) < 0;
    } else {
        return 2;
    }
    return 0;
}
