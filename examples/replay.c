/*
 * Replays the trace on standard input and writes how that ended: differs, stopped or replayed, and a number.
 *
 *   gcc -I include examples/replay.c target/staticlib/libcontacts.a -o replay
 *   ./replay <examples/voyages/three-failures.trace
 */
#include <stdio.h>

#include "contacts.h"

static uint8_t table[CONTACTS_TABLE_SIZE(CONTACTS_REPLAY_ROWS)];
static uint8_t trace[CONTACTS_TRACE_MAX + 1]; /* a byte more, so that a longer trace is seen to be longer */

int main(void)
{
    size_t len = fread(trace, 1, sizeof trace, stdin);
    if (ferror(stdin))
        return 1;
    contacts_replayed replayed = contacts_replay(false, table, sizeof table, trace, len);
    switch (replayed.end) {
    case CONTACTS_REPLAY_DIFFERS:
        printf("differs %zu\n", replayed.place);
        break;
    case CONTACTS_REPLAY_STOPPED:
        printf("stopped %zu\n", replayed.place);
        break;
    default:
        printf("replayed %zu\n", replayed.frames);
    }
    return 0;
}
