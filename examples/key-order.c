/*
 * A table of an earlier version, whose rows stand as they were put, is put in key order in place: what an owner does once before
 * the calls for rows in key order are used on it. The header stays, used rows come first in ascending byte order of their keys, and
 * free rows after them.
 *
 *   gcc -I include examples/key-order.c target/staticlib/libcontacts.a -o key-order && ./key-order
 */
#include <stdio.h>
#include <stdlib.h>
#include <string.h>

#include "contacts.h"

enum { ROWS = 4, NOW = 1000000, HEADER = 16, ROW = 1312, KEY_LENGTH = 2, KEY = 32 };

static unsigned number16(const uint8_t *at)
{
    return (unsigned)at[0] << 8 | at[1];
}

/* A free row has kind 0 and comes after every used one; a key that another begins with comes before it. */
static int compare_rows(const void *one, const void *other)
{
    const uint8_t *a = one, *b = other;
    int used_a = number16(a) != 0, used_b = number16(b) != 0;
    if (used_a != used_b)
        return used_b - used_a;
    unsigned len_a = number16(a + KEY_LENGTH), len_b = number16(b + KEY_LENGTH);
    int side = memcmp(a + KEY, b + KEY, len_a < len_b ? len_a : len_b);
    return side != 0 ? side : (len_a > len_b) - (len_a < len_b);
}

/* The table must be sound to the plain engine: then every row is whole, and each key stands once. */
static int put_in_key_order(uint8_t *table, size_t size)
{
    if (!contacts_sound(true, table, size))
        return 5;
    qsort(table + HEADER, (size - HEADER) / ROW, ROW, compare_rows);
    return 0;
}

static uint8_t table[CONTACTS_TABLE_SIZE(ROWS)];

static void store_by_plain_engine(const char *key)
{
    static const uint8_t extras[CONTACTS_SET_EXTRAS];
    static contacts_tally tally;
    static uint8_t frame[CONTACTS_FRAME_MAX], reply[CONTACTS_REPLY_ROOM];
    size_t len = strlen(key);
    contacts_written set = contacts_write_request(CONTACTS_OP_SET, 0, 0, 0, 0, extras, sizeof extras, (const uint8_t *)key, len,
                                                  (const uint8_t *)key, len, frame, sizeof frame);
    contacts_serve(true, table, sizeof table, NOW, frame, set.len, reply, sizeof reply, &tally);
}

int main(void)
{
    contacts_make(table, sizeof table, ROWS, CONTACTS_STATE_ACTIVE, CONTACTS_MODE_REVISION, 0);
    store_by_plain_engine("wreck");
    store_by_plain_engine("shoal");
    store_by_plain_engine("net");

    printf("before: %s\n", contacts_sound(false, table, sizeof table) ? "sound" : "damaged");
    if (put_in_key_order(table, sizeof table) != 0)
        return 1;
    printf("after: %s\n", contacts_sound(false, table, sizeof table) ? "sound" : "damaged");
    for (int row = 0; row < 3; row++) {
        const uint8_t *at = table + HEADER + (size_t)row * ROW;
        contacts_document found = contacts_read(false, table, sizeof table, NOW, at + KEY, number16(at + KEY_LENGTH));
        printf("%.*s: status %u, CAS %u\n", (int)number16(at + KEY_LENGTH), (const char *)at + KEY, (unsigned)found.status, (unsigned)found.cas);
    }
    return 0;
}
