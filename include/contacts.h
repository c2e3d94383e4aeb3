/*
 * contacts.h: a store of sonar contacts in lent memory that speaks Couchbase's binary protocol.
 *
 * Link with libcontacts.a, which is for x86-64 Linux. A table is plain memory of yours: the library makes it, serves
 * requests on it, reads and purges it, makes it active, and keeps nothing between calls. It allocates nothing, does no
 * input or output, and takes less than 4 KiB of stack (measured: docs/BENCHMARK.md). Where the dynamic linker binds
 * memcpy, memmove and memset at their first call, that call of the library's takes some 3 KiB more; with -z now none does.
 *
 * Every call is proved to return and to meet a contract that fixes its answer and every lent byte, whatever numbers and
 * bytes you pass. This header says the contracts in words. docs/LAYOUT.md has the layout of tables, frames, traces and
 * answers.
 *
 * What you owe, in every call:
 *
 *   - A pointer with its length stands for that many bytes of one object, readable, and writable where it isn't const.
 *     It may be null where the length is 0. No alignment is asked of bytes. A length is under 2^63.
 *   - The bytes have values before you lend them, the reply area and the memory of a fresh table too: static memory,
 *     calloc or memset will do.
 *   - Memory that is lent for change (table, reply, out, tally) overlaps no other memory lent in the same call. What is
 *     const may overlap what is const.
 *   - tally points to a contacts_tally, which is aligned to 8 bytes, with values in it.
 *   - Until the call returns, nobody else writes the lent memory or reads what is lent for change: no other thread, no
 *     signal handler, and for a mapped file no other process, nor does anybody shorten that file.
 *
 * So calls on one table come one at a time, save that contacts_read and contacts_sound, which only read, may run beside
 * each other. Calls on different tables may run at once. Nothing more is owed: no argument is out of bounds, and memory
 * that holds no table is found damaged.
 *
 * What lasts: a call that returns leaves a sound table sound. WARNING: a process that is killed in the middle of a
 * call on shared memory or a mapped file can leave the table damaged; in a trial 6 of 1,200 kills did. So make the
 * call on a copy of the table, and let the copy take its place once the call has returned. In a file, write the whole
 * table to a new file, fsync it, rename it over the old one and fsync the folder; reply after that, where a reply is
 * to mean that the contact lasts.
 *
 * docs/MANUAL.md is the manual: all that is said here with worked frames, and how to choose a row count and a purge
 * bound.
 */
#ifndef CONTACTS_H
#define CONTACTS_H

#include <stdbool.h>
#include <stddef.h>
#include <stdint.h>

#ifdef __cplusplus
extern "C" {
#endif

/* ---- Version --------------------------------------------------------------------------------------------------- */

/* The version of this header. A Version request is answered 4.0.0, the protocol's number, which stays. */
#define CONTACTS_VERSION_MAJOR 4
#define CONTACTS_VERSION_MINOR 10
#define CONTACTS_VERSION_PATCH 0
#define CONTACTS_VERSION_TEXT "4.10.0"
#define CONTACTS_VERSION (CONTACTS_VERSION_MAJOR * 10000 + CONTACTS_VERSION_MINOR * 100 + CONTACTS_VERSION_PATCH)

/* The CONTACTS_VERSION of the library that is linked. Where it isn't the header's, structs and calls may differ. */
uint32_t contacts_version(void);

/* ---- Limits and sizes, in bytes but for rows ------------------------------------------------------------------- */

#define CONTACTS_ROWS_MAX 256
#define CONTACTS_KEY_MAX 250
#define CONTACTS_VALUE_MAX 1024
#define CONTACTS_BODY_MAX 1400
#define CONTACTS_FRAME_HEADER 24
#define CONTACTS_FRAME_MAX 1424     /* the longest request: header and body */
#define CONTACTS_REPLY_ROOM 1302    /* what serving asks for: header, flags, key and value of the longest reply */
#define CONTACTS_LISTING_MAX 1278   /* the longest value of a Get Keys reply: that room without the header */
#define CONTACTS_TABLE_HEADER 16
#define CONTACTS_ROW_SIZE 1312

/* The size of a table of 1 to 256 rows, as a constant where rows is one. */
#define CONTACTS_TABLE_SIZE(rows) (CONTACTS_TABLE_HEADER + (size_t)(rows) * CONTACTS_ROW_SIZE)

/* ---- Outcomes: what became of a call --------------------------------------------------------------------------- */

#define CONTACTS_OUTCOME_SERVED 0   /* done */
#define CONTACTS_OUTCOME_SHORT 1    /* the frame isn't all there yet */
#define CONTACTS_OUTCOME_MAGIC 2    /* no request frame: its first byte isn't 0x80; close the connection */
#define CONTACTS_OUTCOME_LENGTH 3   /* a body of over 1,400 bytes; close the connection */
#define CONTACTS_OUTCOME_ROOM 4     /* too little room for the reply or the frame */
#define CONTACTS_OUTCOME_DAMAGED 5  /* the memory is no sound table */

/* ---- Statuses: what a request is answered, the first of them that applies -------------------------------------- */

#define CONTACTS_STATUS_SUCCESS 0x00
#define CONTACTS_STATUS_NOT_FOUND 0x01        /* no live document with this key */
#define CONTACTS_STATUS_EXISTS 0x02           /* another CAS, a live document under Add, a with-meta write that loses */
#define CONTACTS_STATUS_TOO_LARGE 0x03        /* a value of over 1,024 bytes, alone or joined */
#define CONTACTS_STATUS_INVALID 0x04          /* a request against its command's form or field rules */
#define CONTACTS_STATUS_NOT_STORED 0x05       /* no live document to append or prepend to */
#define CONTACTS_STATUS_NOT_NUMERIC 0x06      /* a counter's value is no decimal number under 2^64 */
#define CONTACTS_STATUS_NOT_MY_VBUCKET 0x07   /* another vbucket, or a table that isn't active */
#define CONTACTS_STATUS_UNKNOWN_COMMAND 0x81
#define CONTACTS_STATUS_OUT_OF_MEMORY 0x82    /* the key has no row and no row is free */
#define CONTACTS_STATUS_NOT_SUPPORTED 0x83    /* a command of the protocol that this store leaves out, or option 0x01 */
#define CONTACTS_STATUS_INTERNAL 0x84         /* a CAS or revision that must grow is at 2^64 - 1 */

/* ---- A table's memory: big-endian numbers at these offsets ----------------------------------------------------- */

#define CONTACTS_STATE_ACTIVE 1
#define CONTACTS_STATE_REPLICA 2
#define CONTACTS_STATE_PENDING 3
#define CONTACTS_STATE_DEAD 4

#define CONTACTS_MODE_REVISION 1
#define CONTACTS_MODE_LAST_WRITE_WINS 2

#define CONTACTS_TABLE_AT_STATE 0     /* 1 byte */
#define CONTACTS_TABLE_AT_MODE 1      /* 1 byte */
#define CONTACTS_TABLE_AT_VBUCKET 2   /* 2 bytes */
#define CONTACTS_TABLE_AT_KEPT 4      /* 4 bytes: the kept clock, any */
#define CONTACTS_TABLE_AT_MARK 8      /* 8 bytes: no row's CAS is above the mark */

/* Where row i stands, i counted from 0. */
#define CONTACTS_TABLE_AT_ROW(i) (CONTACTS_TABLE_HEADER + (size_t)(i) * CONTACTS_ROW_SIZE)

#define CONTACTS_KIND_FREE 0
#define CONTACTS_KIND_DOCUMENT 1
#define CONTACTS_KIND_TOMBSTONE 2

/* Counted from the row's first byte. The value follows the key, and zeros follow the value to the row's end. */
#define CONTACTS_ROW_AT_KIND 0            /* 2 bytes */
#define CONTACTS_ROW_AT_KEY_LENGTH 2      /* 2 bytes */
#define CONTACTS_ROW_AT_VALUE_LENGTH 4    /* 4 bytes */
#define CONTACTS_ROW_AT_FLAGS 8           /* 4 bytes */
#define CONTACTS_ROW_AT_EXPIRY 12         /* 4 bytes: seconds since 1970, 0 never */
#define CONTACTS_ROW_AT_REVISION 16       /* 8 bytes */
#define CONTACTS_ROW_AT_CAS 24            /* 8 bytes */
#define CONTACTS_ROW_AT_KEY 32            /* key, then value */

/* ---- Frames: big-endian numbers at these offsets --------------------------------------------------------------- */

#define CONTACTS_MAGIC_REQUEST 0x80
#define CONTACTS_MAGIC_REPLY 0x81

#define CONTACTS_FRAME_AT_MAGIC 0
#define CONTACTS_FRAME_AT_OPCODE 1
#define CONTACTS_FRAME_AT_KEY_LENGTH 2      /* 2 bytes */
#define CONTACTS_FRAME_AT_EXTRAS_LENGTH 4   /* 1 byte */
#define CONTACTS_FRAME_AT_DATATYPE 5        /* 1 byte, 0 */
#define CONTACTS_FRAME_AT_VBUCKET 6         /* 2 bytes, in a request */
#define CONTACTS_FRAME_AT_STATUS 6          /* 2 bytes, in a reply */
#define CONTACTS_FRAME_AT_BODY_LENGTH 8     /* 4 bytes: extras, key and value */
#define CONTACTS_FRAME_AT_OPAQUE 12         /* 4 bytes, echoed */
#define CONTACTS_FRAME_AT_CAS 16            /* 8 bytes */
#define CONTACTS_FRAME_AT_EXTRAS 24         /* extras, then key, then value */

/* Opcodes, with what a request carries after its header. A name with Q is quiet: a get that finds nothing (0x01) and a
 * write that succeeds have no reply. */
#define CONTACTS_OP_GET 0x00                  /* key */
#define CONTACTS_OP_SET 0x01                  /* 8 extras, key, a value of 0 bytes or more */
#define CONTACTS_OP_ADD 0x02                  /* as Set */
#define CONTACTS_OP_REPLACE 0x03              /* as Set */
#define CONTACTS_OP_DELETE 0x04               /* key */
#define CONTACTS_OP_INCREMENT 0x05            /* 20 extras, key */
#define CONTACTS_OP_DECREMENT 0x06            /* as Increment */
#define CONTACTS_OP_GETQ 0x09
#define CONTACTS_OP_NOOP 0x0a                 /* nothing */
#define CONTACTS_OP_VERSION 0x0b              /* nothing */
#define CONTACTS_OP_GETK 0x0c                 /* key, which the reply has too */
#define CONTACTS_OP_GETKQ 0x0d
#define CONTACTS_OP_APPEND 0x0e               /* key, a value of 0 bytes or more */
#define CONTACTS_OP_PREPEND 0x0f              /* as Append */
#define CONTACTS_OP_SETQ 0x11
#define CONTACTS_OP_ADDQ 0x12
#define CONTACTS_OP_REPLACEQ 0x13
#define CONTACTS_OP_DELETEQ 0x14
#define CONTACTS_OP_INCREMENTQ 0x15
#define CONTACTS_OP_DECREMENTQ 0x16
#define CONTACTS_OP_APPENDQ 0x19
#define CONTACTS_OP_PREPENDQ 0x1a
#define CONTACTS_OP_TOUCH 0x1c                /* 4 extras, key; never quiet */
#define CONTACTS_OP_GET_AND_TOUCH 0x1d        /* as Touch */
#define CONTACTS_OP_SET_WITH_META 0xa2        /* 24 to 26, 28 or 30 extras, key, a value of 1 byte or more, meta */
#define CONTACTS_OP_SETQ_WITH_META 0xa3
#define CONTACTS_OP_ADD_WITH_META 0xa4        /* as Set with meta */
#define CONTACTS_OP_ADDQ_WITH_META 0xa5
#define CONTACTS_OP_DELETE_WITH_META 0xa8     /* 24 to 26, 28 or 30 extras, key, meta */
#define CONTACTS_OP_DELETEQ_WITH_META 0xa9
#define CONTACTS_OP_GET_KEYS 0xb8             /* no extras or 4, no key or one to start at; never quiet */

/* Extras of Set, Add and Replace. An expiry of 0 is never, 1 to 2,592,000 is added to the later clock, above is
 * absolute. */
#define CONTACTS_SET_EXTRAS 8
#define CONTACTS_SET_AT_FLAGS 0               /* 4 bytes */
#define CONTACTS_SET_AT_EXPIRY 4              /* 4 bytes */
#define CONTACTS_EXPIRY_RELATIVE_MAX 2592000

/* Extras of the counters. With CONTACTS_COUNTER_NO_INITIAL for the expiry a counter that isn't live is 0x01. */
#define CONTACTS_COUNTER_EXTRAS 20
#define CONTACTS_COUNTER_AT_DELTA 0           /* 8 bytes */
#define CONTACTS_COUNTER_AT_INITIAL 8         /* 8 bytes */
#define CONTACTS_COUNTER_AT_EXPIRY 16         /* 4 bytes */
#define CONTACTS_COUNTER_NO_INITIAL 0xffffffff

/* Extras of Touch and Get-and-touch: an expiry, as Set's. */
#define CONTACTS_TOUCH_EXTRAS 4
#define CONTACTS_TOUCH_AT_EXPIRY 0            /* 4 bytes */

/* Extras of Get Keys: the most keys to list, 1 or more. Without extras it is CONTACTS_KEYS_COUNT. */
#define CONTACTS_KEYS_EXTRAS 4
#define CONTACTS_KEYS_AT_COUNT 0              /* 4 bytes */
#define CONTACTS_KEYS_COUNT 1000

/* Extras of the with-meta commands. The expiry is absolute, 0 never.
 *
 * A CAS of 0 or over CONTACTS_META_MAX is 0x04, also under CONTACTS_OPTION_REGENERATE_CAS, which leaves it unused, and
 * so is a revision over CONTACTS_META_MAX; one of 0 is taken. The ranges are a request's: a row's CAS and revision go
 * up to 2^64 - 1, by plain writes and by that option, and one over CONTACTS_META_MAX can't be sent on.
 *
 * Options that aren't there, in extras of 24, 25 and 26 bytes, count as 0, and so does a length of the extended meta
 * that isn't there, in extras of 24, 25 and 28: all that follows the key is value then. */
#define CONTACTS_META_EXTRAS 24               /* flags, expiry, revision, CAS */
#define CONTACTS_META_EXTRAS_LENGTH 26        /* and the extended meta's length */
#define CONTACTS_META_EXTRAS_OPTIONS 28       /* and options */
#define CONTACTS_META_EXTRAS_BOTH 30          /* and options, then the extended meta's length */
#define CONTACTS_META_AT_FLAGS 0              /* 4 bytes */
#define CONTACTS_META_AT_EXPIRY 4             /* 4 bytes */
#define CONTACTS_META_AT_REVISION 8           /* 8 bytes */
#define CONTACTS_META_AT_CAS 16               /* 8 bytes */
#define CONTACTS_META_AT_OPTIONS 24           /* 4 bytes, in extras of 28 and 30 */
#define CONTACTS_META_AT_LENGTH_26 24         /* 2 bytes, in extras of 26 */
#define CONTACTS_META_AT_LENGTH_30 28         /* 2 bytes, in extras of 30 */
#define CONTACTS_META_MAX 0xfffffffeffffffff

/* The same in the layout of 2012, which old shore servers send: extras of 25 bytes, the CAS before the revision. The length
 * selects it. It has no options and no extended meta, so in last-write-wins, which asks for an option, it is 0x04. */
#define CONTACTS_META_EXTRAS_2012 25          /* flags, expiry, CAS, revision, nru */
#define CONTACTS_META_2012_AT_CAS 8           /* 8 bytes */
#define CONTACTS_META_2012_AT_REVISION 16     /* 8 bytes */
#define CONTACTS_META_2012_AT_NRU 24          /* 1 byte, any: it is ignored */

#define CONTACTS_OPTION_FORCE 0x01            /* retired: 0x83. Old traces alone are replayed with it */
#define CONTACTS_OPTION_FORCE_ACCEPT 0x02     /* required in last-write-wins, refused in revision mode */
#define CONTACTS_OPTION_REGENERATE_CAS 0x04   /* the stored CAS is mark + 1; only together with SKIP_CONFLICT */
#define CONTACTS_OPTION_SKIP_CONFLICT 0x08    /* no comparison */

/* The extended meta is the last bytes of the body, as many as its length says, and is not stored: this version byte,
 * then fields of one-byte id (1 or 2), two-byte length and that many bytes, to its end. A length of 0 is none. The
 * version byte alone, empty fields and repeated ids are sound. It is broken, and the request 0x04, where its length is
 * over what follows the key; where it begins with another byte; where an id is neither 1 nor 2; and where fewer than 3
 * bytes are left for a field, or fewer than its length says. */
#define CONTACTS_EXTENDED_META_VERSION 1

/* ---- Traces: big-endian numbers at these offsets --------------------------------------------------------------- */

#define CONTACTS_TRACE_MAX 65536            /* bytes; a longer trace is stopped at 0 */

#define CONTACTS_TRACE_AT_MODE 0            /* 1 byte: CONTACTS_MODE_REVISION or CONTACTS_MODE_LAST_WRITE_WINS */
#define CONTACTS_TRACE_AT_VBUCKET 1         /* 2 bytes */
#define CONTACTS_TRACE_AT_FIELDS 3          /* fields, one after another to the trace's end */

/* Counted from the field's first byte. */
#define CONTACTS_FIELD_AT_TAG 0             /* 1 byte */
#define CONTACTS_FIELD_AT_LENGTH 1          /* 2 bytes: of the value */
#define CONTACTS_FIELD_AT_VALUE 3

/* Tags, with what the value is. */
#define CONTACTS_TAG_CLOCK 1                /* 4 bytes: the clock of what follows; it is 0 until the first */
#define CONTACTS_TAG_FRAME 2                /* one request frame, and nothing after it */
#define CONTACTS_TAG_REPLY 3                /* the reply expected for the frame before; empty for a silent frame */
#define CONTACTS_TAG_BOUND 4                /* 8 bytes: the bound of a purge */
#define CONTACTS_TAG_RULE 5                 /* 1 byte, in the first field alone: a rule of force */

/* The rule of force that a trace is replayed by. One without it is replayed by the old. */
#define CONTACTS_RULE_OLD 1                 /* CONTACTS_OPTION_FORCE is taken, as it was before it was retired */
#define CONTACTS_RULE_NEW 2                 /* a with-meta request with CONTACTS_OPTION_FORCE gets status 0x83 */

/* ---- The clock ------------------------------------------------------------------------------------------------- */

/*
 * A clock is seconds since 1970. A table keeps the latest clock that it has been given: its kept clock, 0 in a fresh
 * table. Serving, reading and purging go by the later of the kept clock and the call's. Below, that is the later clock:
 * it decides what is expired, and a relative expiry is added to it. So a clock that goes back brings no contact back.
 *
 * A document has its expiry minus the later clock in seconds left: 0 exactly at the expiry, fewer once it is past. It is
 * expired where that is 0 or less; one whose expiry is 0 never is. Every call decides from this number, and
 * contacts_read tells it.
 *
 * The kept clock is raised to the later clock by contacts_serve with outcome 0, whatever the status, so by each frame
 * that contacts_serve_run serves, and by contacts_purge with outcome 0, whether or not it frees a row. Outcomes 1 to 5,
 * contacts_read, contacts_activate and contacts_sound leave it. Nothing lowers it but contacts_make, which makes it 0.
 *
 * WARNING: a clock that is too late stays. After one of 2^32 - 1 every relative expiry is 0x04, and every document with
 * an expiry is expired, until the table is made anew. Check the clock before the first call.
 */

/* ---- The engine ------------------------------------------------------------------------------------------------ */

/*
 * Two engines keep a table's rows, and every call on a table but contacts_size and contacts_make has as its first
 * argument which one: bool plain. Pass false.
 *
 *   false   rows in key order: the used rows come first, in rising order of their keys' bytes (0x7f before 0x80, a
 *           prefix before what it begins), and the free rows after them. A new key is put at its place, and the rows
 *           after it move by one; a purge moves the rows that stay together. A row out of this order, a key that two
 *           rows have, and a used row after a free one are damage, seen in one walk; a key is found by halving
 *   true    the plain engine, to compare with: a row stays where it is, a new key takes the lowest free row, and of the
 *           order only that no two rows have one key is asked. It is the slower one on large tables
 *
 * A fresh table is the same for both. From there on, calls made alike have the same answers, replies, tallies,
 * documents, tombstones, mark and kept clock by either; only the places of rows differ, so value.at of contacts_read.
 *
 * WARNING: stay with one engine for a table. One whose rows are in key order is sound by either; but once the plain
 * engine has stored a new key in it or purged it, its rows may be out of order, and with false it is damaged.
 */

/* ---- The owner's calls ----------------------------------------------------------------------------------------- */

/* Bytes of the table or of a frame: their place, counted from its first byte, and their number. */
typedef struct contacts_part {
    size_t at;
    size_t len;
} contacts_part;

/*
 * The bytes that a table of this many rows takes: 16 + 1,312 * rows for 1 to 256 rows, else 0.
 */
size_t contacts_size(size_t rows);

/*
 * Makes a fresh table for one vbucket: every row free, the mark 0, the kept clock 0. What stood in the memory doesn't
 * matter.
 *
 *   rows      1 to 256
 *   state     CONTACTS_STATE_ACTIVE .. CONTACTS_STATE_DEAD
 *   mode      CONTACTS_MODE_REVISION or CONTACTS_MODE_LAST_WRITE_WINS, how with-meta writes are compared
 *   vbucket   any
 *
 * Returns 0; or CONTACTS_OUTCOME_DAMAGED, with the memory unchanged, exactly if rows, state or mode is out of range or
 * table_len isn't contacts_size(rows).
 */
uint8_t contacts_make(uint8_t *table, size_t table_len, size_t rows, uint8_t state, uint8_t mode, uint16_t vbucket);

/*
 * Whether the memory is a sound table of this engine: of the size of 1 to 256 rows, and as docs/LAYOUT.md says in every
 * byte. All else is damaged. Reading, purging, activating and serving test this themselves.
 *
 *   plain   false: rows in key order; true: the plain engine. So in all calls
 */
bool contacts_sound(bool plain, const uint8_t *table, size_t table_len);

/* What a read tells of a document's lifetime. */
#define CONTACTS_LIFETIME_NONE 0      /* nothing: there is no document; left is 0 */
#define CONTACTS_LIFETIME_NEVER 1     /* the document never expires; left is 0 */
#define CONTACTS_LIFETIME_SECONDS 2   /* left has the seconds */

/* A live document: one that isn't expired. Where the key's document is expired, lifetime and left alone are told of it;
 * its row stays until it is purged or written. */
typedef struct contacts_document {
    uint8_t outcome;
    uint8_t status;
    uint8_t lifetime;      /* CONTACTS_LIFETIME_NONE .. CONTACTS_LIFETIME_SECONDS: what left means */
    uint32_t flags;
    uint32_t expiry;       /* seconds since 1970, 0 never */
    uint64_t revision;
    uint64_t cas;
    int64_t left;          /* seconds from the later clock to the expiry, -4,294,967,294 to 4,294,967,295 */
    contacts_part value;   /* in the table's memory; place and length where the value is empty too */
} contacts_document;

/*
 * Reads a key's live document, and how long it lives; of an expired one, how long it is past. Changes nothing, and minds
 * neither vbucket nor state. Since the kept clock stays too, a later read with an earlier clock may find what this one
 * didn't, and tell more seconds.
 *
 *   clock   seconds since 1970; the later clock decides
 *   key     any bytes; one of 0 or over 250 bytes is never found
 *
 * Answers
 *   outcome 5                   the table is damaged; all else is 0
 *   outcome 0, status 0x01      no live document with this key; all else is 0, but for the two of an expired document:
 *     lifetime SECONDS          it is expired; left is 0 or less: 0 at its expiry, -60 a minute after it
 *     lifetime NONE             the key has no row or a tombstone, or is of 0 or over 250 bytes
 *   outcome 0, status 0         the document. The value's bytes are table + value.at, until a call changes the table: a
 *                               new key and a purge move the rows of other keys too
 *     lifetime SECONDS          left is above 0: the document expires in so many seconds
 *     lifetime NEVER            it never expires: its expiry is 0
 */
contacts_document contacts_read(bool plain, const uint8_t *table, size_t table_len, uint32_t clock,
                                const uint8_t *key, size_t key_len);

typedef struct contacts_purged {
    uint8_t outcome;
    size_t freed;   /* rows */
} contacts_purged;

/*
 * Frees exactly the rows of tombstones and of documents expired at the later clock whose CAS is at or below the bound,
 * raises the kept clock to the later clock, also where no row is freed, and leaves all else of the table, the mark too.
 * With UINT64_MAX as bound it frees them all. The rows that stay keep their order and move together, free rows follow;
 * with plain true they stay where they are.
 *
 * WARNING: a freed row is forgotten. If an older copy of an erased or expired document may still arrive, as a
 * with-meta write, it is then stored as new: the contact comes back. A plain write of its key begins with revision 1
 * again. Choose as bound the mark that the table had when the last exchange began that all boats have finished, and a
 * lower one where a with-meta write from elsewhere may have stored a tombstone or an expired document with a lower CAS
 * since. See "Choosing a row count and a purge bound" in docs/MANUAL.md.
 *
 * Answers outcome 0 and the number of rows freed, or outcome 5 and 0 with nothing changed where the table is damaged.
 */
contacts_purged contacts_purge(bool plain, uint8_t *table, size_t table_len, uint32_t clock, uint64_t bound);

typedef struct contacts_activated {
    uint8_t outcome;
    uint8_t status;
} contacts_activated;

/*
 * Makes a replica or pending table active, so that it takes writes. Its first byte, the state, is the only one that
 * changes: rows, mode, vbucket, mark and kept clock stay. It takes no clock. An active table is left as it is.
 *
 * Answers
 *   outcome 5                   the table is damaged; nothing is changed
 *   outcome 0, status 0x07      the table is dead, and stays so; nothing is changed
 *   outcome 0, status 0         the table is active
 */
contacts_activated contacts_activate(bool plain, uint8_t *table, size_t table_len);

/* ---- Serving --------------------------------------------------------------------------------------------------- */

/*
 * What a request is answered. Its status is the first of these that applies:
 *
 *   0x83, 0x81   the opcode isn't among those above: 0x83 for 07, 08, 10, 17 and 18
 *   0x04         the datatype isn't 0; extras and key are longer than the body; extras, key or value aren't what the
 *                command carries; the key is over 250 bytes; the later clock and a relative expiry pass 2^32 - 1, even
 *                where the expiry goes unused; the count of Get Keys is 0; with meta, also: CAS or revision out of
 *                range; option bits other than 0x0f; option 0x04 without 0x08; option 0x02 missing in last-write-wins,
 *                also where there are no options, or set in revision mode; no byte of value before the extended meta of
 *                a Set or Add, or one in a Delete; flags or expiry of a Delete not 0; broken extended meta
 *   0x83         with meta: option 0x01, which is retired
 *   0x03         the value is over 1,024 bytes, extended meta not counted
 *   0x07         another vbucket, or a state that isn't active. Noop and Version never have it
 *   0x05         the key isn't live, for Append and Prepend, whatever their header CAS
 *   0x01         the key isn't live, for Get, Replace, Delete, Touch, Get-and-touch, a counter without an initial number,
 *                and for every other write whose header CAS isn't 0
 *   0x02         the key is live, for Add; its CAS is another than a write's header CAS that isn't 0, but for Touch and
 *                Get-and-touch, which ignore it; a with-meta write that is compared isn't greater
 *   0x03         the document's value and an Append's or Prepend's are over 1,024 bytes together
 *   0x06         the counter's value isn't 1 to 20 digits of a number under 2^64
 *   0x84         the mark or the key's revision is 2^64 - 1, for a plain write; the mark is, under option 0x04
 *   0x82         the key has no row and no row is free
 *   0x00         otherwise
 *
 * A status that isn't 0 changes no byte of the table but the kept clock's, and its reply, if any, is a header with CAS 0.
 * Get, Noop, Version and Get Keys change no other byte either. With status 0
 *
 *   Get        replies the flags as 4 extras, for GetK the key, the value and the CAS
 *   Set        stores value, flags and expiry, as Add and Replace do
 *   Delete     leaves a tombstone: the key with revision and CAS, no value, flags 0, expiry 0
 *   Increment  adds the delta, wrapping past 2^64 - 1 to 0; Decrement stops at 0. Either stores decimal digits and
 *              leaves flags and expiry. Where the key isn't live it stores the initial number, flags 0 and its own
 *              expiry. The reply's value is the number in 8 bytes
 *   Append     puts its value after the document's, Prepend before it. Either leaves flags and expiry
 *   Touch      stores its expiry and leaves value and flags. It replies a header, and Get-and-touch as Get does, both
 *              with the new CAS. With an expiry that is past the document is expired from then on
 *   Noop       replies a header, and Version the value 4.0.0, both with CAS 0
 *   with meta  stores the document or tombstone with the numbers in its extras
 *   Get Keys   replies as its value, with CAS 0, the keys of live documents at or after its key, or all without one,
 *              in rising order of bytes, a prefix first: for each its length in 4 bytes and its bytes. It ends with the
 *              last key, at the count, or before the first key that would carry it past 1,278 bytes. Where there is no
 *              such key the value is empty
 *
 * To list a table that doesn't fit one reply, ask again from the last key listed, with a count of 2 or more, and leave
 * out the answer's first key where it is that one: it is there again if it is still live. All is listed where nothing
 * else comes. A change between the calls shows where its key comes after the last one listed.
 *
 * A plain write stores CAS mark + 1, and revision 1 or one more than that of the key's row, an expired one or a
 * tombstone too. A with-meta write stores its own numbers, but CAS mark + 1 under option 0x04. Both raise the mark to
 * their CAS where it is lower, and reply that CAS. Without option 0x08 a with-meta write is compared with the key's
 * row, an expired one or a tombstone too, and must be greater: in revision mode by revision, then CAS; in
 * last-write-wins by CAS, then revision; then in both by expiry, then by smaller flags.
 */

/* Counts of frames served. Start it at zeros; a count at 2^64 - 1 stays there. */
typedef struct contacts_tally {
    uint64_t served;    /* with status 0 */
    uint64_t refused;   /* with another status */
    uint64_t silent;    /* without reply bytes, counted above too */
} contacts_tally;

typedef struct contacts_served {
    uint8_t outcome;
    uint8_t status;
    size_t used;     /* bytes of received that the frame took */
    size_t reply;    /* bytes of the reply */
    size_t needed;   /* bytes that the frame takes in all, counted from its first */
} contacts_served;

/*
 * Serves the request at the start of the received bytes: changes the table by it, writes its reply at the start of the
 * reply area and counts it. Bytes after the frame are left for the next call.
 *
 *   clock       seconds since 1970; the later clock decides, and the kept clock is raised to it with every outcome 0
 *   received    any bytes, from a frame's first on
 *   reply_len   CONTACTS_REPLY_ROOM or more, whatever the request
 *
 * Answers, the first that applies:
 *   outcome 5               the table is damaged
 *   outcome 4               reply_len is under 1,302
 *   outcome 1, needed 24    fewer than 24 bytes are received
 *   outcome 2               the first byte isn't 0x80; close the connection
 *   outcome 3               the body is over 1,400 bytes; close the connection
 *   outcome 1, needed N     the frame isn't all there; N is 24 and its body length
 *   outcome 0               one frame is served: its status, the bytes used, and the reply's length, which is 0 for a
 *                           silent frame; needed is 0
 * With outcomes 1 to 5 table, reply area and tally are unchanged, and all else of the answer is 0. With outcome 0 the
 * bytes of the reply area past the reply are unchanged, and a status other than 0 changes no byte of the table but the
 * kept clock's.
 */
contacts_served contacts_serve(bool plain, uint8_t *table, size_t table_len, uint32_t clock, const uint8_t *received,
                               size_t received_len, uint8_t *reply, size_t reply_len, contacts_tally *tally);

typedef struct contacts_ran {
    uint8_t outcome;
    size_t used;     /* bytes of received that all frames took */
    size_t reply;    /* bytes of all replies */
    size_t needed;   /* bytes that the frame at received + used takes in all */
} contacts_ran;

/*
 * Serves the received frames one after another, each as contacts_serve does and with the same clock, until one is
 * refused. The replies stand one after another in the reply area; its bytes past them are unchanged. The kept clock is
 * raised where a frame is served, and left where none is.
 *
 * The table is tested for damage once, before the first frame, where contacts_serve tests it in every call: on 256 rows a
 * frame in a run of 256 takes a fortieth of a call of its own. So serve all that has been received as one run.
 *
 * Answers what the served frames used and were replied, with the outcome, 1 to 5, and needed of the refusal:
 *   outcome 5               the table is damaged; nothing is changed, used and reply are 0
 *   outcome 4               under 1,302 bytes of the reply area are left, also where no frame is left: send the replies
 *                           and, where used isn't received_len, call again with the bytes from received + used on
 *   outcome 1, needed 24    all is served, or fewer than 24 bytes are left
 *   outcome 2 or 3          the frame at received + used; close the connection after the replies
 *   outcome 1, needed N     the frame at received + used isn't all there; N is 24 and its body length
 */
contacts_ran contacts_serve_run(bool plain, uint8_t *table, size_t table_len, uint32_t clock, const uint8_t *received,
                                size_t received_len, uint8_t *reply, size_t reply_len, contacts_tally *tally);

/* ---- Requests -------------------------------------------------------------------------------------------------- */

typedef struct contacts_request {
    uint8_t outcome;
    uint8_t status;
    uint8_t opcode;
    uint8_t datatype;
    uint16_t vbucket;
    uint32_t opaque;
    uint64_t cas;
    contacts_part extras;   /* in the frame, as the key and the value; each has its place where it is empty too */
    contacts_part key;
    contacts_part value;    /* with the extended meta at its end */
    size_t meta;            /* bytes of extended meta */
} contacts_request;

/*
 * Reads the request at the start of the received bytes. Bytes after the frame are no error. Changes nothing.
 *
 * Answers, the first that applies:
 *   outcome 1                fewer than 24 bytes; a call doesn't say how many are needed, as serving does
 *   outcome 2                the first byte isn't 0x80
 *   outcome 3                the body is over 1,400 bytes
 *   outcome 1                the frame isn't all there
 *   status 0x83              an opcode that this store leaves out: 07, 08, 10, 17, 18
 *   status 0x81              any other opcode that isn't above
 *   status 0x04              a request against its command's form or field rules, but for the two that need mode or
 *                            clock: option 0x02, and the sum of a clock and a relative expiry
 *   status 0x83              with meta: option 0x01
 *   status 0x03              a value of over 1,024 bytes, extended meta not counted
 *   outcome 0, status 0      the request
 * Where outcome or status isn't 0, all else is 0. A request that reads well can still be refused when it is served.
 */
contacts_request contacts_read_request(const uint8_t *received, size_t received_len);

typedef struct contacts_written {
    uint8_t outcome;
    uint8_t status;
    size_t len;   /* bytes of the frame */
} contacts_written;

/*
 * Writes a request's frame at the start of out. CONTACTS_FRAME_MAX bytes are room enough for every frame.
 *
 *   datatype             0
 *   extras, key, value   any bytes; value has the extended meta at its end
 *
 * Answers, the first that applies:
 *   status 0x04              contacts_read_request would refuse the frame, for whatever cause; or no header holds its
 *                            lengths: extras over 255 bytes, a key over 65,535, a body over 2^32 - 1
 *   outcome 4                the frame is longer than out_len
 *   outcome 0, status 0      the frame is written, len bytes long; bytes past it are unchanged
 * Where outcome or status isn't 0, len is 0 and out is unchanged.
 */
contacts_written contacts_write_request(uint8_t opcode, uint8_t datatype, uint16_t vbucket, uint32_t opaque,
                                        uint64_t cas, const uint8_t *extras, size_t extras_len, const uint8_t *key,
                                        size_t key_len, const uint8_t *value, size_t value_len, uint8_t *out,
                                        size_t out_len);

/* ---- Replaying a voyage ---------------------------------------------------------------------------------------- */

/* A trace is what a boat was sent and what it answered, to be served once more on shore, on a fresh table. */
#define CONTACTS_REPLAY_ROWS 32       /* the rows of that table */

/* How a replay ends. */
#define CONTACTS_REPLAY_DIFFERS 1     /* at a reply that isn't the last frame's */
#define CONTACTS_REPLAY_STOPPED 2     /* at a field that can't be replayed, or at the opening */
#define CONTACTS_REPLAY_REPLAYED 3    /* at the end of the trace */

typedef struct contacts_replayed {
    uint8_t outcome;
    uint8_t end;     /* CONTACTS_REPLAY_DIFFERS .. CONTACTS_REPLAY_REPLAYED */
    size_t place;    /* where the field's tag stands that ended the replay, counted from the trace's first byte */
    size_t frames;   /* with CONTACTS_REPLAY_REPLAYED, the frames served */
} contacts_replayed;

/*
 * Replays a trace: makes a fresh active table of 32 rows in the opening's mode and for its vbucket, and takes the fields
 * in their order. A frame is served as contacts_serve does, a bound is purged by as contacts_purge does, each with the
 * clock of the last clock field before it, 0 without one; the later clock decides. A reply is compared with the one that
 * the last frame was given, also where other replies, clocks or purges stand between. A frame need not be followed by its
 * reply. Keeps no tally.
 *
 * Traces that were recorded before force was retired may hold forced writes. So every frame is served by the rule that the
 * trace says: the new one where its first field is CONTACTS_TAG_RULE with CONTACTS_RULE_NEW; else the old one, which
 * differs for CONTACTS_OPTION_FORCE alone.
 *
 *   table       memory of CONTACTS_TABLE_SIZE(CONTACTS_REPLAY_ROWS) bytes; what stood in it doesn't matter
 *   trace       any bytes
 *
 * Answers, the first that applies:
 *   outcome 5                     table_len isn't 42,000; all else is 0
 *   end STOPPED, place 0          the trace is over 65,536 bytes or has no opening: under 3 bytes, or a mode that isn't 1
 *                                 or 2
 *   then, at the first such field, with the place of its tag:
 *   end STOPPED                   it is cut: fewer than 3 bytes are left, or fewer than its length says; it has a tag that
 *                                 isn't above; a clock isn't 4 bytes, a bound not 8; a rule isn't the first field, isn't 1
 *                                 byte or is neither 1 nor 2; a frame field isn't exactly one frame, to which
 *                                 contacts_serve has outcome 0, whatever its status; a reply has no frame before
 *   end DIFFERS                   it is a reply that isn't the last frame's, in length or in a byte. One of length 0 is
 *                                 right for a silent frame
 *   and without one:
 *   end REPLAYED                  all is replayed; frames has the number of frame fields
 * What an answer doesn't have is 0.
 *
 * With outcome 5, or stopped at 0, the memory is unchanged. Otherwise it is the table as the voyage left it: as the frames
 * and the purges before the end, served and purged one by one, leave it. A field that stops the replay changes nothing,
 * also where it holds a whole frame and more bytes.
 */
contacts_replayed contacts_replay(bool plain, uint8_t *table, size_t table_len, const uint8_t *trace, size_t trace_len);

/* ---- Packing extras and taking replies apart -------------------------------------------------------------------- */

/* These are in C and not proved. They touch the bytes that they say, and no others. */

static inline void contacts_put16(uint8_t *at, uint16_t n)
{
    at[0] = (uint8_t)(n >> 8);
    at[1] = (uint8_t)n;
}

static inline void contacts_put32(uint8_t *at, uint32_t n)
{
    contacts_put16(at, (uint16_t)(n >> 16));
    contacts_put16(at + 2, (uint16_t)n);
}

static inline void contacts_put64(uint8_t *at, uint64_t n)
{
    contacts_put32(at, (uint32_t)(n >> 32));
    contacts_put32(at + 4, (uint32_t)n);
}

static inline uint16_t contacts_get16(const uint8_t *at)
{
    return (uint16_t)(at[0] << 8 | at[1]);
}

static inline uint32_t contacts_get32(const uint8_t *at)
{
    return (uint32_t)contacts_get16(at) << 16 | contacts_get16(at + 2);
}

static inline uint64_t contacts_get64(const uint8_t *at)
{
    return (uint64_t)contacts_get32(at) << 32 | contacts_get32(at + 4);
}

/* Each packs the extras of its commands, and returns how many bytes they are. */

/* Set, Add and Replace; extras has room for CONTACTS_SET_EXTRAS bytes. */
static inline size_t contacts_pack_set(uint8_t *extras, uint32_t flags, uint32_t expiry)
{
    contacts_put32(extras + CONTACTS_SET_AT_FLAGS, flags);
    contacts_put32(extras + CONTACTS_SET_AT_EXPIRY, expiry);
    return CONTACTS_SET_EXTRAS;
}

/* Increment and Decrement; room for CONTACTS_COUNTER_EXTRAS bytes. */
static inline size_t contacts_pack_counter(uint8_t *extras, uint64_t delta, uint64_t initial, uint32_t expiry)
{
    contacts_put64(extras + CONTACTS_COUNTER_AT_DELTA, delta);
    contacts_put64(extras + CONTACTS_COUNTER_AT_INITIAL, initial);
    contacts_put32(extras + CONTACTS_COUNTER_AT_EXPIRY, expiry);
    return CONTACTS_COUNTER_EXTRAS;
}

/* Touch and Get-and-touch; room for CONTACTS_TOUCH_EXTRAS bytes. */
static inline size_t contacts_pack_touch(uint8_t *extras, uint32_t expiry)
{
    contacts_put32(extras + CONTACTS_TOUCH_AT_EXPIRY, expiry);
    return CONTACTS_TOUCH_EXTRAS;
}

/* Get Keys; room for CONTACTS_KEYS_EXTRAS bytes. */
static inline size_t contacts_pack_keys(uint8_t *extras, uint32_t count)
{
    contacts_put32(extras + CONTACTS_KEYS_AT_COUNT, count);
    return CONTACTS_KEYS_EXTRAS;
}

/* The with-meta commands, in the shortest of the layouts of 24, 26, 28 and 30 bytes: options of 0, and an extended meta of
 * no bytes, mean what leaving them out means. Room for CONTACTS_META_EXTRAS_BOTH bytes. */
static inline size_t contacts_pack_meta(uint8_t *extras, uint32_t flags, uint32_t expiry, uint64_t revision,
                                        uint64_t cas, uint32_t options, uint16_t meta_len)
{
    size_t end = CONTACTS_META_EXTRAS;
    contacts_put32(extras + CONTACTS_META_AT_FLAGS, flags);
    contacts_put32(extras + CONTACTS_META_AT_EXPIRY, expiry);
    contacts_put64(extras + CONTACTS_META_AT_REVISION, revision);
    contacts_put64(extras + CONTACTS_META_AT_CAS, cas);
    if (options != 0) {
        contacts_put32(extras + end, options);
        end += 4;
    }
    if (meta_len != 0) {
        contacts_put16(extras + end, meta_len);
        end += 2;
    }
    return end;
}

/* A reply taken apart. */
typedef struct contacts_reply {
    uint8_t opcode;
    uint16_t status;
    uint32_t opaque;
    uint64_t cas;
    contacts_part extras;   /* in the bytes that were given, as the key and the value */
    contacts_part key;
    contacts_part value;
    size_t len;             /* bytes of the whole reply: the next one begins there */
} contacts_reply;

/* Takes apart the reply at the start of these bytes. False, with *reply unchanged, where there isn't a whole one: under 24
 * bytes or under what its header says, a first byte that isn't 0x81, or extras and key longer than the body. */
static inline bool contacts_split_reply(const uint8_t *bytes, size_t len, contacts_reply *reply)
{
    size_t body, extras, key;
    if (len < CONTACTS_FRAME_HEADER || bytes[CONTACTS_FRAME_AT_MAGIC] != CONTACTS_MAGIC_REPLY)
        return false;
    body = contacts_get32(bytes + CONTACTS_FRAME_AT_BODY_LENGTH);
    extras = bytes[CONTACTS_FRAME_AT_EXTRAS_LENGTH];
    key = contacts_get16(bytes + CONTACTS_FRAME_AT_KEY_LENGTH);
    if (len - CONTACTS_FRAME_HEADER < body || body < extras + key)
        return false;
    reply->opcode = bytes[CONTACTS_FRAME_AT_OPCODE];
    reply->status = contacts_get16(bytes + CONTACTS_FRAME_AT_STATUS);
    reply->opaque = contacts_get32(bytes + CONTACTS_FRAME_AT_OPAQUE);
    reply->cas = contacts_get64(bytes + CONTACTS_FRAME_AT_CAS);
    reply->extras.at = CONTACTS_FRAME_AT_EXTRAS;
    reply->extras.len = extras;
    reply->key.at = CONTACTS_FRAME_AT_EXTRAS + extras;
    reply->key.len = key;
    reply->value.at = CONTACTS_FRAME_AT_EXTRAS + extras + key;
    reply->value.len = body - extras - key;
    reply->len = CONTACTS_FRAME_HEADER + body;
    return true;
}

/* The next key of a Get Keys reply's value: *at is 0 for the first, and is moved on. False, with *at and *key unchanged, at
 * the end, and where what follows isn't a whole key. */
static inline bool contacts_next_key(const uint8_t *value, size_t len, size_t *at, contacts_part *key)
{
    size_t n;
    if (len < *at || len - *at < 4)
        return false;
    n = contacts_get32(value + *at);
    if (len - *at - 4 < n)
        return false;
    key->at = *at + 4;
    key->len = n;
    *at += 4 + n;
    return true;
}

/* ---- Null where the length is 0 --------------------------------------------------------------------------------- */

/*
 * What the calls are proved for is memory that is lent as Rust lends it, and there no pointer is null, even to no bytes. So
 * from C and C++ each call goes by way of an inline function that lends a byte of its own in place of a pointer with
 * length 0, whatever that is. A null pointer with another length is the caller's fault as before. From other languages
 * the calls are reached as they are, and a pointer to no bytes is not null.
 */
static inline const uint8_t *contacts_lent(const uint8_t *bytes, size_t len)
{
    static const uint8_t nothing = 0;
    return len == 0 ? &nothing : bytes;
}

static inline uint8_t *contacts_lent_for_change(uint8_t *bytes, size_t len)
{
    static uint8_t nothing;
    return len == 0 ? &nothing : bytes;
}

static inline uint8_t contacts_make_lent(uint8_t *table, size_t table_len, size_t rows, uint8_t state, uint8_t mode,
                                         uint16_t vbucket)
{
    return contacts_make(contacts_lent_for_change(table, table_len), table_len, rows, state, mode, vbucket);
}

static inline bool contacts_sound_lent(bool plain, const uint8_t *table, size_t table_len)
{
    return contacts_sound(plain, contacts_lent(table, table_len), table_len);
}

static inline contacts_document contacts_read_lent(bool plain, const uint8_t *table, size_t table_len, uint32_t clock,
                                                   const uint8_t *key, size_t key_len)
{
    return contacts_read(plain, contacts_lent(table, table_len), table_len, clock, contacts_lent(key, key_len),
                         key_len);
}

static inline contacts_purged contacts_purge_lent(bool plain, uint8_t *table, size_t table_len, uint32_t clock,
                                                  uint64_t bound)
{
    return contacts_purge(plain, contacts_lent_for_change(table, table_len), table_len, clock, bound);
}

static inline contacts_activated contacts_activate_lent(bool plain, uint8_t *table, size_t table_len)
{
    return contacts_activate(plain, contacts_lent_for_change(table, table_len), table_len);
}

static inline contacts_served contacts_serve_lent(bool plain, uint8_t *table, size_t table_len, uint32_t clock,
                                                  const uint8_t *received, size_t received_len, uint8_t *reply,
                                                  size_t reply_len, contacts_tally *tally)
{
    return contacts_serve(plain, contacts_lent_for_change(table, table_len), table_len, clock,
                          contacts_lent(received, received_len), received_len,
                          contacts_lent_for_change(reply, reply_len), reply_len, tally);
}

static inline contacts_ran contacts_serve_run_lent(bool plain, uint8_t *table, size_t table_len, uint32_t clock,
                                                   const uint8_t *received, size_t received_len, uint8_t *reply,
                                                   size_t reply_len, contacts_tally *tally)
{
    return contacts_serve_run(plain, contacts_lent_for_change(table, table_len), table_len, clock,
                              contacts_lent(received, received_len), received_len,
                              contacts_lent_for_change(reply, reply_len), reply_len, tally);
}

static inline contacts_request contacts_read_request_lent(const uint8_t *received, size_t received_len)
{
    return contacts_read_request(contacts_lent(received, received_len), received_len);
}

static inline contacts_written contacts_write_request_lent(uint8_t opcode, uint8_t datatype, uint16_t vbucket,
                                                           uint32_t opaque, uint64_t cas, const uint8_t *extras,
                                                           size_t extras_len, const uint8_t *key, size_t key_len,
                                                           const uint8_t *value, size_t value_len, uint8_t *out,
                                                           size_t out_len)
{
    return contacts_write_request(opcode, datatype, vbucket, opaque, cas, contacts_lent(extras, extras_len),
                                  extras_len, contacts_lent(key, key_len), key_len, contacts_lent(value, value_len),
                                  value_len, contacts_lent_for_change(out, out_len), out_len);
}

static inline contacts_replayed contacts_replay_lent(bool plain, uint8_t *table, size_t table_len,
                                                     const uint8_t *trace, size_t trace_len)
{
    return contacts_replay(plain, contacts_lent_for_change(table, table_len), table_len,
                           contacts_lent(trace, trace_len), trace_len);
}

#define contacts_make contacts_make_lent
#define contacts_sound contacts_sound_lent
#define contacts_read contacts_read_lent
#define contacts_purge contacts_purge_lent
#define contacts_activate contacts_activate_lent
#define contacts_serve contacts_serve_lent
#define contacts_serve_run contacts_serve_run_lent
#define contacts_read_request contacts_read_request_lent
#define contacts_write_request contacts_write_request_lent
#define contacts_replay contacts_replay_lent

#ifdef __cplusplus
}
#endif

#endif
