/* The QPACK table (RFC 9204), proved: the functions of target/staticlib/libembed.a, which tests/archive.sh makes.
 *
 * For x86-64 Linux. The library keeps nothing, allocates nothing and calls nothing: a table is a record that goes
 * in by value and comes back changed, and its strings stand in an arena that the caller owns and lends.
 *
 * What the caller keeps, for every call:
 *  - a slice is a pointer and a length; the pointer is not null, also where the length is 0;
 *  - what is written (arena, out, fields) overlaps with nothing else that the same call is lent;
 *  - a bool in a record is 0 or 1. A record of qpack_fresh, or one that a call handed back, has that.
 * Any other number, byte and length may be anything: each call ends and gives one of the answers below.
 * An arena belongs to one record: between two calls its bytes stay as the last call left them.
 */
#ifndef QPACK_TABLE_H
#define QPACK_TABLE_H

#include <stdbool.h>
#include <stddef.h>
#include <stdint.h>

#ifdef __cplusplus
extern "C" {
#endif

/* ---- the answers: the field `answer` of what a call hands back */
enum qpack_answer {
    QPACK_DONE = 0,                          /* done, or not inserted */
    QPACK_UNEXPECTED_END = 1,                /* a section ends early */
    QPACK_OVERFLOW = 2,                      /* an integer's ninth byte continues; an increment above 64 on the stream */
    QPACK_HUFFMAN_STRING = 3,                /* a string with H set */
    QPACK_INVALID_STATIC_INDEX = 4,          /* static index 99 or more */
    QPACK_BAD_RELATIVE_INDEX = 5,            /* a relative reference to no live entry */
    QPACK_BAD_POSTBASE_INDEX = 6,            /* a post-base reference to no live entry */
    QPACK_BAD_INDEX = 7,                     /* a reference above the newest entry */
    QPACK_MAX_TABLE_SIZE_REACHED = 8,        /* an entry larger than a capacity above 0 */
    QPACK_MAXIMUM_TABLE_SIZE_TOO_LARGE = 9,  /* a capacity above 1,073,741,823 */
    QPACK_ABOVE_LENT_ROOM = 10,              /* a capacity of 16,385 to 1,073,741,823 */
    QPACK_MAX_BLOCKED_STREAMS_TOO_LARGE = 11, /* a blocked maximum of 65,535 or more */
    QPACK_UNKNOWN_STREAM_ID = 12,            /* no section of the stream is queued */
    QPACK_MISSING_REFS = 13,                 /* required count above the inserted; a dynamic reference with no table */
    QPACK_BAD_BASE_INDEX = 14,               /* a section prefix whose base is out of range */
    QPACK_BAD_INSERT_COUNT = 15,             /* a section prefix for which RFC 9204 4.5.1.1 gives no count */
    QPACK_BUF_SIZE = 16,                     /* 256 or more inserted in one stream call */
    QPACK_SHRINK_BLOCKED = 17,               /* a smaller capacity would drop an entry that is in use */
    QPACK_SECTION_OPEN = 18,                 /* a call that needs that no section is open */
    QPACK_NO_SECTION = 19,                   /* a section's call while none is open */
    QPACK_TRACKING_FULL = 20,                /* more than 32 entries, 255 uses, 32 sections, 64 blocked values, 65,535 blocked */
    QPACK_BAD_LARGEST = 21,                  /* a commit's largest reference above the inserted */
    QPACK_BAD_CALL = 22,                     /* a short arena or increment buffer; a record that breaks its own rules */
    QPACK_COUNT_TOO_LARGE = 23,              /* a count past 2^62-1 */
    QPACK_OUTPUT_FULL = 24,                  /* the next field or its bytes do not fit */
    QPACK_HEADER_TOO_LONG = 25,              /* a stateless section's size sum above the given maximum */
    QPACK_INVALID_PREFIX = 26                /* a reader of one instruction was given another; no call here gives it */
};

/* ---- what is lent */
#define QPACK_ARENA_BYTES 16384    /* an arena has at least so many */
#define QPACK_INCREMENT_BYTES 3    /* the buffer of qpack_on_encoder_recv has at least so many */
#define QPACK_LARGEST_CAPACITY 16384

/* ---- the record of a table: 9,216 bytes. Read what you like; change nothing. */
#define QPACK_SLOTS 512
#define QPACK_SECTION_ENTRIES 32
#define QPACK_QUEUE_PLACES 32
#define QPACK_BLOCKED_VALUES 64

struct qpack_ring {
    size_t inserted; /* how many entries were ever inserted, and how many of these are gone */
    size_t dropped;
    size_t size;     /* the sum over the live entries of name + value + 32, and the most that it may be */
    size_t capacity;
    size_t tail;     /* where the oldest entry's bytes start in the arena, and where the next one's go */
    size_t head;
    uint16_t starts[QPACK_SLOTS]; /* for each entry where its bytes start, and its two lengths */
    uint16_t names[QPACK_SLOTS];
    uint16_t values[QPACK_SLOTS];
};

struct qpack_held {
    uint16_t offset;
    uint16_t count;
};

struct qpack_section {
    uint64_t stream;
    size_t from;
    size_t used;
    struct qpack_held uses[QPACK_SECTION_ENTRIES];
};

struct qpack_queue {
    size_t queued;
    struct qpack_section places[QPACK_QUEUE_PLACES];
};

struct qpack_value {
    size_t largest;
    size_t sections;
};

struct qpack_waiting {
    size_t total;
    size_t distinct;
    struct qpack_value values[QPACK_BLOCKED_VALUES];
};

struct qpack_table {
    struct qpack_ring ring;
    size_t known; /* the known received count, and the blocked maximum */
    size_t most;
    struct qpack_waiting waiting;
    struct qpack_queue queue;
    bool active;  /* whether a section is open, and its base */
    size_t base;
    struct qpack_section section;
};

/* ---- what the calls hand back: the next record, and the answer. After a refusal the record is the one that
 *      was handed in and no lent byte is changed, but where a call below says otherwise. */
struct qpack_outcome {
    struct qpack_table table;
    uint8_t answer;
};

/* What qpack_find found, and what qpack_insert made or found. A value that a kind does not name is 0. */
enum qpack_kind {
    QPACK_NOT_FOUND = 0,     /* nothing names it (or the call was refused) */
    QPACK_STATIC = 1,        /* index: in the static table */
    QPACK_RELATIVE = 2,      /* index: relative to the section's base; absolute */
    QPACK_POST_BASE = 3,     /* index: post-base; absolute */
    QPACK_INSERTED = 4,      /* postbase and absolute of the new entry; write both strings */
    QPACK_DUPLICATED = 5,    /* the same; index: relative index of the equal older entry */
    QPACK_INSERTED_WITH_NAME_REF = 6,       /* the same; index: relative index of an older entry of that name */
    QPACK_INSERTED_WITH_STATIC_NAME_REF = 7 /* the same; index: the name's index in the static table */
};

struct qpack_named {
    size_t index;
    size_t postbase;
    size_t absolute;
    uint8_t kind;
};

struct qpack_named_outcome {
    struct qpack_table table;
    struct qpack_named named;
    uint8_t answer;
};

struct qpack_encoder_outcome {
    struct qpack_table table;
    size_t consumed; /* bytes of whole instructions that were applied; keep the rest for the next call */
    size_t inserted; /* the total inserted, as the record has it */
    size_t written;  /* bytes of the increment in out, for the decoder stream */
    uint8_t answer;
};

struct qpack_decoder_outcome {
    struct qpack_table table;
    size_t consumed;
    uint8_t answer;
};

struct qpack_section_outcome {
    size_t count; /* records stored, and bytes stored in out */
    size_t used;
    size_t size;  /* the sum over the fields of name + value + 32 */
    bool dynamic; /* whether the required insert count was above 0 */
    uint8_t answer;
};

/* One decoded field: {start, name length, value length}. In out its name stands at start, its value behind it. */
typedef size_t qpack_field[3];

/* ---- the table */

/* A table with nothing in it; capacity and blocked maximum are 0. */
struct qpack_table qpack_fresh(void);

/* 22, 18, 9, 10, 17. Drops the oldest entries that no longer fit. */
struct qpack_outcome qpack_set_capacity(struct qpack_table table, size_t capacity);

/* 22, 18, 11. */
struct qpack_outcome qpack_set_max_blocked(struct qpack_table table, size_t most);

/* Inserts a field outside of any section. 22, 18, 8, 23. At capacity 0, and where entries in use keep it out, it
 * answers 0 and does nothing. */
struct qpack_outcome qpack_put(struct qpack_table table, uint8_t *arena, size_t arena_len, const uint8_t *name,
                               size_t name_len, const uint8_t *value, size_t value_len);

/* ---- a section that is encoded: begin, then find and insert, then commit or abandon */

/* 22, 18. */
struct qpack_outcome qpack_begin(struct qpack_table table, uint64_t stream);

/* The latest entry equal to the field: kinds 0, 2 and 3. 22, 19, 20. */
struct qpack_named_outcome qpack_find(struct qpack_table table, const uint8_t *arena, size_t arena_len,
                                      const uint8_t *name, size_t name_len, const uint8_t *value, size_t value_len);

/* Inserts the field (kinds 4 to 7), or says what names it (kinds 0 to 3). 22, 19, 20, 23. */
struct qpack_named_outcome qpack_insert(struct qpack_table table, uint8_t *arena, size_t arena_len,
                                        const uint8_t *name, size_t name_len, const uint8_t *value, size_t value_len);

/* Queues the section; largest is the largest absolute index that it refers to, 0 for none. 22, 19, 21, 20. */
struct qpack_outcome qpack_commit(struct qpack_table table, size_t largest);

/* Gives all references of the section back. 22, 19. */
struct qpack_outcome qpack_abandon(struct qpack_table table);

/* ---- the peer's reports, one at a time: 22, 18, and 12 for the first two, 23 for the last */
struct qpack_outcome qpack_acknowledge(struct qpack_table table, uint64_t stream);
struct qpack_outcome qpack_cancel(struct qpack_table table, uint64_t stream);
struct qpack_outcome qpack_increment(struct qpack_table table, size_t inserts);

/* ---- streams */

/* Applies the whole instructions of the peer's encoder stream. An instruction that is cut is left unread and is no
 * refusal. A refusal keeps the instructions before the bad one (the record, the arena and consumed say so) and
 * writes nothing; 16 keeps all and writes nothing. */
struct qpack_encoder_outcome qpack_on_encoder_recv(struct qpack_table table, uint8_t *arena, size_t arena_len,
                                                   const uint8_t *bytes, size_t bytes_len, uint8_t *out,
                                                   size_t out_len);

/* Applies the whole reports of the peer's decoder stream. A refusal keeps the reports before the bad one. */
struct qpack_decoder_outcome qpack_on_decoder_recv(struct qpack_table table, const uint8_t *bytes, size_t bytes_len);

/* ---- reading sections. A refusal keeps the records and bytes of earlier lines, as count, used and size say; the
 *      rest of both buffers is untouched. 13: more inserts must come first, so try again after them. */
struct qpack_section_outcome qpack_read_section(struct qpack_table table, const uint8_t *arena, size_t arena_len,
                                                const uint8_t *bytes, size_t bytes_len, qpack_field *fields,
                                                size_t fields_len, uint8_t *out, size_t out_len);

/* With no dynamic table; most is the largest size sum. */
struct qpack_section_outcome qpack_read_stateless(const uint8_t *bytes, size_t bytes_len, size_t most,
                                                  qpack_field *fields, size_t fields_len, uint8_t *out,
                                                  size_t out_len);

#ifdef __cplusplus
}
#endif

#endif
