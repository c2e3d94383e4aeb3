/* The inline functions of include/contacts.h: what they pack is read back by the library, replies and listings are taken apart and
 * cut ones refused, and null is lent where the length is 0. Prints one line, or where an expectation fails. It is C and C++. */
#include "contacts.h"

#include <stdio.h>
#include <stdlib.h>
#include <string.h>

#define CHECK(what)                                                   \
    do {                                                              \
        if (!(what)) {                                                \
            fprintf(stderr, "header: line %d: %s\n", __LINE__, #what); \
            exit(1);                                                  \
        }                                                             \
    } while (0)

#define VBUCKET 3
#define CLOCK 1000000

static uint8_t table[CONTACTS_TABLE_SIZE(4)];
static uint8_t reply[CONTACTS_REPLY_ROOM];
static contacts_tally tally;

static const uint8_t *bytes_of(const char *text)
{
    return (const uint8_t *)text;
}

/* Writes a request with these extras, reads it back, serves it, and takes its reply apart. */
static contacts_reply asked(uint8_t opcode, const uint8_t *extras, size_t extras_len, const char *key, const char *value)
{
    uint8_t frame[CONTACTS_FRAME_MAX];
    contacts_written w = contacts_write_request(opcode, 0, VBUCKET, 7, 0, extras, extras_len, bytes_of(key), strlen(key),
                                                bytes_of(value), strlen(value), frame, sizeof frame);
    contacts_request r;
    contacts_served s;
    contacts_reply taken;
    CHECK(w.outcome == 0 && w.status == 0);
    r = contacts_read_request(frame, w.len);
    CHECK(r.outcome == 0 && r.status == 0 && r.extras.len == extras_len);
    CHECK(extras_len == 0 || memcmp(frame + r.extras.at, extras, extras_len) == 0);
    s = contacts_serve(false, table, sizeof table, CLOCK, frame, w.len, reply, sizeof reply, &tally);
    CHECK(s.outcome == 0);
    CHECK(contacts_split_reply(reply, s.reply, &taken));
    CHECK(taken.len == s.reply && taken.opcode == opcode && taken.opaque == 7 && taken.status == s.status);
    return taken;
}

static void numbers(void)
{
    uint8_t b[8] = {0};
    contacts_put64(b, 0x0102030405060708);
    CHECK(memcmp(b, "\1\2\3\4\5\6\7\10", 8) == 0);
    CHECK(contacts_get64(b) == 0x0102030405060708 && contacts_get32(b + 4) == 0x05060708 && contacts_get16(b) == 0x0102);
    contacts_put32(b, 0xfffefdfc);
    CHECK(contacts_get32(b) == 0xfffefdfc && contacts_get16(b) == 0xfffe && contacts_get64(b) == 0xfffefdfc05060708);
}

static void commands(void)
{
    uint8_t extras[CONTACTS_META_EXTRAS_BOTH];
    contacts_reply r;
    r = asked(CONTACTS_OP_SET, extras, contacts_pack_set(extras, 0xcafe, 60), "shoal", "bearing 143");
    CHECK(r.status == 0 && r.cas == 1);
    r = asked(CONTACTS_OP_GET, NULL, 0, "shoal", "");
    CHECK(r.status == 0 && r.extras.len == 4 && contacts_get32(reply + r.extras.at) == 0xcafe);
    CHECK(r.key.len == 0 && r.value.len == 11 && memcmp(reply + r.value.at, "bearing 143", 11) == 0);
    r = asked(CONTACTS_OP_GETK, NULL, 0, "shoal", "");
    CHECK(r.key.len == 5 && memcmp(reply + r.key.at, "shoal", 5) == 0 && r.value.at == r.key.at + 5);
    r = asked(CONTACTS_OP_TOUCH, extras, contacts_pack_touch(extras, 120), "shoal", "");
    CHECK(r.status == 0 && contacts_read(false, table, sizeof table, CLOCK, bytes_of("shoal"), 5).left == 120);
    r = asked(CONTACTS_OP_INCREMENT, extras, contacts_pack_counter(extras, 5, 40, 0), "hauls", "");
    CHECK(r.status == 0 && r.value.len == 8 && contacts_get64(reply + r.value.at) == 40);
    r = asked(CONTACTS_OP_INCREMENT, extras, contacts_pack_counter(extras, 5, 40, 0), "hauls", "");
    CHECK(contacts_get64(reply + r.value.at) == 45);
    r = asked(CONTACTS_OP_GET, NULL, 0, "wreck", "");
    CHECK(r.status == CONTACTS_STATUS_NOT_FOUND && r.value.len == 0 && r.len == 24);
}

/* The four layouts of with-meta extras, by what is left out. */
static void with_meta(void)
{
    uint8_t extras[CONTACTS_META_EXTRAS_BOTH];
    contacts_document d;
    CHECK(contacts_pack_meta(extras, 1, 0, 9, 90, 0, 0) == CONTACTS_META_EXTRAS);
    CHECK(asked(CONTACTS_OP_SET_WITH_META, extras, 24, "wreck", "36 m").status == 0);
    d = contacts_read(false, table, sizeof table, CLOCK, bytes_of("wreck"), 5);
    CHECK(d.outcome == 0 && d.flags == 1 && d.expiry == 0 && d.revision == 9 && d.cas == 90 && d.value.len == 4);
    CHECK(contacts_pack_meta(extras, 1, 0, 10, 91, 0, 1) == CONTACTS_META_EXTRAS_LENGTH);
    CHECK(asked(CONTACTS_OP_SET_WITH_META, extras, 26, "wreck", "36 m\1").status == 0);
    CHECK(contacts_pack_meta(extras, 1, 0, 2, 92, CONTACTS_OPTION_SKIP_CONFLICT, 0) == CONTACTS_META_EXTRAS_OPTIONS);
    CHECK(asked(CONTACTS_OP_SET_WITH_META, extras, 28, "wreck", "37 m").status == 0);
    CHECK(contacts_pack_meta(extras, 1, 0, 1, 93, CONTACTS_OPTION_SKIP_CONFLICT, 1) == CONTACTS_META_EXTRAS_BOTH);
    CHECK(asked(CONTACTS_OP_SET_WITH_META, extras, 30, "wreck", "38 m\1").status == 0);
    d = contacts_read(false, table, sizeof table, CLOCK, bytes_of("wreck"), 5);
    CHECK(d.revision == 1 && d.cas == 93 && memcmp(table + d.value.at, "38 m", 4) == 0 && d.value.len == 4);
}

static void listings(void)
{
    uint8_t extras[CONTACTS_KEYS_EXTRAS];
    const char *const keys[] = {"hauls", "shoal", "wreck"};
    contacts_part key;
    size_t at = 0, i;
    contacts_reply r = asked(CONTACTS_OP_GET_KEYS, extras, contacts_pack_keys(extras, 10), "", "");
    const uint8_t *value = reply + r.value.at;
    CHECK(r.status == 0 && r.value.len == 27);
    for (i = 0; i < 3; i++) {
        CHECK(contacts_next_key(value, r.value.len, &at, &key));
        CHECK(key.len == 5 && memcmp(value + key.at, keys[i], 5) == 0);
    }
    CHECK(!contacts_next_key(value, r.value.len, &at, &key) && at == r.value.len && key.len == 5);
    for (i = 1; i < 9; i++) {
        at = 0;
        CHECK(!contacts_next_key(value, i, &at, &key) && at == 0);
    }
    at = r.value.len + 1;
    CHECK(!contacts_next_key(value, r.value.len, &at, &key));
}

/* A reply that is cut, has another magic, or lengths that don't fit leaves what was taken apart before. */
static void cut_replies(void)
{
    uint8_t copy[CONTACTS_REPLY_ROOM];
    contacts_reply r = asked(CONTACTS_OP_GETK, NULL, 0, "shoal", ""), before = r;
    size_t n;
    for (n = 0; n < r.len; n++)
        CHECK(!contacts_split_reply(reply, n, &r));
    CHECK(contacts_split_reply(reply, r.len + 1, &r) && r.len == before.len);
    memcpy(copy, reply, r.len);
    copy[CONTACTS_FRAME_AT_MAGIC] = CONTACTS_MAGIC_REQUEST;
    CHECK(!contacts_split_reply(copy, r.len, &r));
    memcpy(copy, reply, r.len);
    copy[CONTACTS_FRAME_AT_EXTRAS_LENGTH] = 255;
    CHECK(!contacts_split_reply(copy, r.len, &r));
    memcpy(copy, reply, r.len);
    contacts_put16(copy + CONTACTS_FRAME_AT_KEY_LENGTH, 65535);
    CHECK(!contacts_split_reply(copy, r.len, &r));
    memcpy(copy, reply, r.len);
    contacts_put32(copy + CONTACTS_FRAME_AT_BODY_LENGTH, 0xffffffff);
    CHECK(!contacts_split_reply(copy, r.len, &r));
    CHECK(memcmp(&r, &before, sizeof r) == 0);
}

static void nulls(void)
{
    uint8_t small[CONTACTS_TABLE_SIZE(CONTACTS_REPLAY_ROWS)] = {0};
    contacts_served s;
    contacts_ran ran;
    CHECK(contacts_make(NULL, 0, 4, 1, 1, 0) == CONTACTS_OUTCOME_DAMAGED);
    CHECK(!contacts_sound(false, NULL, 0));
    CHECK(contacts_read(false, NULL, 0, CLOCK, NULL, 0).outcome == CONTACTS_OUTCOME_DAMAGED);
    CHECK(contacts_read(false, table, sizeof table, CLOCK, NULL, 0).status == CONTACTS_STATUS_NOT_FOUND);
    CHECK(contacts_purge(false, NULL, 0, CLOCK, 0).outcome == CONTACTS_OUTCOME_DAMAGED);
    CHECK(contacts_activate(false, NULL, 0).outcome == CONTACTS_OUTCOME_DAMAGED);
    s = contacts_serve(false, table, sizeof table, CLOCK, NULL, 0, NULL, 0, &tally);
    CHECK(s.outcome == CONTACTS_OUTCOME_ROOM);
    s = contacts_serve(false, table, sizeof table, CLOCK, NULL, 0, reply, sizeof reply, &tally);
    CHECK(s.outcome == CONTACTS_OUTCOME_SHORT && s.needed == 24);
    ran = contacts_serve_run(false, table, sizeof table, CLOCK, NULL, 0, reply, sizeof reply, &tally);
    CHECK(ran.outcome == CONTACTS_OUTCOME_SHORT && ran.used == 0);
    CHECK(contacts_read_request(NULL, 0).outcome == CONTACTS_OUTCOME_SHORT);
    CHECK(contacts_write_request(CONTACTS_OP_NOOP, 0, 0, 0, 0, NULL, 0, NULL, 0, NULL, 0, NULL, 0).outcome ==
          CONTACTS_OUTCOME_ROOM);
    CHECK(contacts_write_request(CONTACTS_OP_NOOP, 0, 0, 0, 0, NULL, 0, NULL, 0, NULL, 0, small, 24).len == 24);
    CHECK(contacts_replay(false, small, sizeof small, NULL, 0).end == CONTACTS_REPLAY_STOPPED);
    CHECK(contacts_replay(false, NULL, 0, NULL, 0).outcome == CONTACTS_OUTCOME_DAMAGED);
}

int main(void)
{
    CHECK(contacts_version() == CONTACTS_VERSION);
    CHECK(contacts_make(table, sizeof table, 4, CONTACTS_STATE_ACTIVE, CONTACTS_MODE_REVISION, VBUCKET) == 0);
    numbers();
    commands();
    with_meta();
    listings();
    cut_replies();
    nulls();
    puts("header: ok");
    return 0;
}
