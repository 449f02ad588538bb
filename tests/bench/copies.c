/* How many bytes each exported call copies, in copies of 1,000 and more, counted at the C library's memcpy and memmove
 * (linked with --wrap). What this program copies itself, to hand a record in and to keep what comes back, is not counted. */
#include <stdint.h>
#include <stdio.h>
#include <string.h>

#include "qpack_table.h"

#define LARGE 1000
#define ENTRIES 10

static size_t bytes, copies;
static uint8_t arena[QPACK_ARENA_BYTES];
static uint8_t out[64];
static qpack_field fields[1];

void *__real_memcpy(void *to, const void *from, size_t n);
void *__real_memmove(void *to, const void *from, size_t n);

static void count(size_t n) {
    if (n >= LARGE) {
        bytes += n;
        copies++;
    }
}

void *__wrap_memcpy(void *to, const void *from, size_t n) {
    count(n);
    return __real_memcpy(to, from, n);
}

void *__wrap_memmove(void *to, const void *from, size_t n) {
    count(n);
    return __real_memmove(to, from, n);
}

static void told(const char *call, size_t answer) {
    printf("%-32s %2zu %8zu %4zu\n", call, answer, bytes, copies);
    bytes = copies = 0;
}

#define CALL(kind, call, made) \
    do {                       \
        kind o;                \
        bytes = copies = 0;    \
        o = made;              \
        told(call, o.answer);  \
        t = o.table;           \
    } while (0)
#define TABLE(call, made) CALL(struct qpack_outcome, call, made)
#define NAMED(call, made) CALL(struct qpack_named_outcome, call, made)

#define ENCODER(call, ...) \
    CALL(struct qpack_encoder_outcome, call, qpack_on_encoder_recv(t, arena, sizeof arena, __VA_ARGS__, out, sizeof out))
#define DECODER(call, ...) CALL(struct qpack_decoder_outcome, call, qpack_on_decoder_recv(t, __VA_ARGS__))
#define SECTION(call, made)              \
    do {                                 \
        struct qpack_section_outcome o;  \
        bytes = copies = 0;              \
        o = made;                        \
        told(call, o.answer);            \
    } while (0)
#define TEXT(s) (const uint8_t *)(s), sizeof(s) - 1

int main(void) {
    struct qpack_table t = qpack_fresh();
    char name[8];

    puts("call                         answer    bytes copies");
    TABLE("set capacity", qpack_set_capacity(t, 4000));
    TABLE("set blocked maximum", qpack_set_max_blocked(t, 2));
    for (int i = 0; i < ENTRIES; i++) {
        snprintf(name, sizeof name, "n%03d", i);
        t = qpack_put(t, arena, sizeof arena, (const uint8_t *)name, 4, TEXT("value")).table;
    }
    TABLE("put", qpack_put(t, arena, sizeof arena, TEXT("last"), TEXT("value")));
    TABLE("begin", qpack_begin(t, 4));
    NAMED("find, found", qpack_find(t, arena, sizeof arena, TEXT("n003"), TEXT("value")));
    NAMED("find, not found", qpack_find(t, arena, sizeof arena, TEXT("n003"), TEXT("other")));
    NAMED("insert, made", qpack_insert(t, arena, sizeof arena, TEXT("n003"), TEXT("other")));
    NAMED("insert, not made", qpack_insert(t, arena, sizeof arena, TEXT("n004"), arena, 4000));
    TABLE("commit", qpack_commit(t, ENTRIES + 2));
    TABLE("increment", qpack_increment(t, 1));
    TABLE("acknowledge", qpack_acknowledge(t, 4));
    TABLE("acknowledge, refused", qpack_acknowledge(t, 4));
    t = qpack_commit(qpack_begin(t, 12).table, 0).table;
    TABLE("cancel", qpack_cancel(t, 12));
    t = qpack_begin(t, 8).table;
    TABLE("begin, refused", qpack_begin(t, 8));
    TABLE("abandon", qpack_abandon(t));
    ENCODER("encoder stream, nothing", TEXT(""));
    ENCODER("encoder stream, one capacity", TEXT("\x3f\x81\x1f"));
    ENCODER("encoder stream, one insert", TEXT("\x41n\x01v"));
    ENCODER("encoder stream, two inserts", TEXT("\x41n\x01v\x41n\x01v"));
    DECODER("decoder stream, nothing", TEXT(""));
    DECODER("decoder stream, one increment", TEXT("\x01"));
    t = qpack_commit(qpack_begin(t, 8).table, 0).table;
    DECODER("decoder stream, one report", TEXT("\x88"));
    SECTION("section, one line", qpack_read_section(t, arena, sizeof arena, TEXT("\x00\x00\xc1"), fields, 1, out, sizeof out));
    SECTION("section with no table, one line", qpack_read_stateless(TEXT("\x00\x00\xc1"), 100, fields, 1, out, sizeof out));
    t.known = SIZE_MAX;
    TABLE("begin, unsound", qpack_begin(t, 8));
    return 0;
}
