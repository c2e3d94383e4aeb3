/*
 * A first table: a contact stored and read, how long it is good for, then three calls that are refused.
 *
 *   gcc -I include examples/first.c target/staticlib/libcontacts.a -o first && ./first
 */
#include <inttypes.h>
#include <stdio.h>

#include "contacts.h"

enum { ROWS = 4, VBUCKET = 3, NOW = 1000000, HOUR = 3600 };

static const uint8_t key[] = "sonar:17", value[] = "bearing 143";
enum { KEY = sizeof key - 1, VALUE = sizeof value - 1 };

static uint8_t table[CONTACTS_TABLE_SIZE(ROWS)];
static uint8_t frame[CONTACTS_FRAME_MAX];
static uint8_t reply[CONTACTS_REPLY_ROOM];
static contacts_tally tally;

static contacts_written write_set(void)
{
    static const uint8_t extras[CONTACTS_SET_EXTRAS] = { 0, 0, 0, 7, 0, 0, 0x0e, 0x10 }; /* flags 7, one hour */
    return contacts_write_request(CONTACTS_OP_SET, 0, VBUCKET, 0, 0, extras, sizeof extras, key, KEY, value, VALUE,
                                  frame, sizeof frame);
}

/* A Get has neither extras nor value: length 0, and a pointer all the same. */
static contacts_written write_get(uint16_t vbucket, size_t key_len)
{
    return contacts_write_request(CONTACTS_OP_GET, 0, vbucket, 0, 0, key, 0, key, key_len, key, 0, frame, sizeof frame);
}

static contacts_served serve(size_t len)
{
    return contacts_serve(false, table, sizeof table, NOW, frame, len, reply, sizeof reply, &tally);
}

/* The seconds left, also of a contact that is past. */
static void tell(const char *when, uint32_t clock)
{
    contacts_document found = contacts_read(false, table, sizeof table, clock, key, KEY);
    switch (found.lifetime) {
    case CONTACTS_LIFETIME_SECONDS:
        printf("%s: %" PRId64 " seconds left\n", when, found.left);
        break;
    case CONTACTS_LIFETIME_NEVER:
        printf("%s: it never expires\n", when);
        break;
    default:
        printf("%s: no such contact\n", when);
    }
}

int main(void)
{
    if (contacts_make(table, sizeof table, ROWS, CONTACTS_STATE_ACTIVE, CONTACTS_MODE_REVISION, VBUCKET) != 0)
        return 1;
    printf("made: %zu bytes for %d rows\n", sizeof table, ROWS);

    contacts_served set = serve(write_set().len);
    printf("set: status 0x%02x, %zu bytes used, %zu replied\n", set.status, set.used, set.reply);

    contacts_served get = serve(write_get(VBUCKET, KEY).len);
    size_t at = CONTACTS_FRAME_HEADER + reply[CONTACTS_FRAME_AT_EXTRAS_LENGTH];
    printf("get: status 0x%02x, value \"%.*s\"\n", get.status, (int)(get.reply - at), (const char *)reply + at);

    contacts_document found = contacts_read(false, table, sizeof table, NOW, key, KEY);
    printf("read: flags %" PRIu32 ", expiry %" PRIu32 ", revision %" PRIu64 ", CAS %" PRIu64 ", value \"%.*s\"\n",
           found.flags, found.expiry, found.revision, found.cas, (int)found.value.len,
           (const char *)table + found.value.at);
    tell("now", NOW);
    tell("an hour later", NOW + HOUR);
    tell("a minute after that", NOW + HOUR + 60);

    contacts_served cut = serve(write_get(VBUCKET, KEY).len - 1);
    printf("a byte short: outcome %d, %zu bytes needed\n", cut.outcome, cut.needed);
    printf("another vbucket: status 0x%02x\n", serve(write_get(VBUCKET + 1, KEY).len).status);
    printf("no key: status 0x%02x, nothing written\n", write_get(VBUCKET, 0).status);

    printf("tally: %" PRIu64 " served, %" PRIu64 " refused, %" PRIu64 " silent\n", tally.served, tally.refused,
           tally.silent);
    return 0;
}
