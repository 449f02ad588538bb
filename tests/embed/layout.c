/* Writes what include/qpack_table.h makes of each struct, for rust/src/layout.rs to compare. */
#include <stdio.h>

#include "qpack_table.h"

#define STRUCT(s) printf(#s " size %zu align %zu\n", sizeof(struct s), _Alignof(struct s))
#define FIELD(s, f) printf(#s "." #f " at %zu size %zu\n", offsetof(struct s, f), sizeof(((struct s *)0)->f))
#define NUMBER(n) printf(#n " %d\n", n)

static void record(void) {
    STRUCT(qpack_ring);
    FIELD(qpack_ring, inserted), FIELD(qpack_ring, dropped), FIELD(qpack_ring, size), FIELD(qpack_ring, capacity);
    FIELD(qpack_ring, tail), FIELD(qpack_ring, head);
    FIELD(qpack_ring, starts), FIELD(qpack_ring, names), FIELD(qpack_ring, values);
    STRUCT(qpack_held);
    FIELD(qpack_held, offset), FIELD(qpack_held, count);
    STRUCT(qpack_section);
    FIELD(qpack_section, stream), FIELD(qpack_section, from), FIELD(qpack_section, used), FIELD(qpack_section, uses);
    STRUCT(qpack_queue);
    FIELD(qpack_queue, queued), FIELD(qpack_queue, places);
    STRUCT(qpack_value);
    FIELD(qpack_value, largest), FIELD(qpack_value, sections);
    STRUCT(qpack_waiting);
    FIELD(qpack_waiting, total), FIELD(qpack_waiting, distinct), FIELD(qpack_waiting, values);
    STRUCT(qpack_table);
    FIELD(qpack_table, ring), FIELD(qpack_table, known), FIELD(qpack_table, most), FIELD(qpack_table, waiting);
    FIELD(qpack_table, queue), FIELD(qpack_table, active), FIELD(qpack_table, base), FIELD(qpack_table, section);
}

static void outcomes(void) {
    STRUCT(qpack_outcome);
    FIELD(qpack_outcome, table), FIELD(qpack_outcome, answer);
    STRUCT(qpack_named);
    FIELD(qpack_named, index), FIELD(qpack_named, postbase), FIELD(qpack_named, absolute), FIELD(qpack_named, kind);
    STRUCT(qpack_named_outcome);
    FIELD(qpack_named_outcome, table), FIELD(qpack_named_outcome, named), FIELD(qpack_named_outcome, answer);
    STRUCT(qpack_encoder_outcome);
    FIELD(qpack_encoder_outcome, table), FIELD(qpack_encoder_outcome, consumed), FIELD(qpack_encoder_outcome, inserted);
    FIELD(qpack_encoder_outcome, written), FIELD(qpack_encoder_outcome, answer);
    STRUCT(qpack_decoder_outcome);
    FIELD(qpack_decoder_outcome, table), FIELD(qpack_decoder_outcome, consumed), FIELD(qpack_decoder_outcome, answer);
    STRUCT(qpack_section_outcome);
    FIELD(qpack_section_outcome, count), FIELD(qpack_section_outcome, used), FIELD(qpack_section_outcome, size);
    FIELD(qpack_section_outcome, dynamic), FIELD(qpack_section_outcome, answer);
    printf("qpack_field size %zu align %zu\n", sizeof(qpack_field), _Alignof(qpack_field));
    printf("lent %d %d\n", QPACK_ARENA_BYTES, QPACK_INCREMENT_BYTES);
}

static void answers(void) {
    NUMBER(QPACK_UNEXPECTED_END), NUMBER(QPACK_OVERFLOW), NUMBER(QPACK_HUFFMAN_STRING);
    NUMBER(QPACK_INVALID_STATIC_INDEX), NUMBER(QPACK_BAD_RELATIVE_INDEX), NUMBER(QPACK_BAD_POSTBASE_INDEX);
    NUMBER(QPACK_BAD_INDEX), NUMBER(QPACK_MAX_TABLE_SIZE_REACHED), NUMBER(QPACK_MAXIMUM_TABLE_SIZE_TOO_LARGE);
    NUMBER(QPACK_ABOVE_LENT_ROOM), NUMBER(QPACK_MAX_BLOCKED_STREAMS_TOO_LARGE), NUMBER(QPACK_UNKNOWN_STREAM_ID);
    NUMBER(QPACK_MISSING_REFS), NUMBER(QPACK_BAD_BASE_INDEX), NUMBER(QPACK_BAD_INSERT_COUNT);
    NUMBER(QPACK_BUF_SIZE), NUMBER(QPACK_SHRINK_BLOCKED), NUMBER(QPACK_SECTION_OPEN), NUMBER(QPACK_NO_SECTION);
    NUMBER(QPACK_TRACKING_FULL), NUMBER(QPACK_BAD_LARGEST), NUMBER(QPACK_BAD_CALL), NUMBER(QPACK_COUNT_TOO_LARGE);
    NUMBER(QPACK_OUTPUT_FULL), NUMBER(QPACK_HEADER_TOO_LONG), NUMBER(QPACK_INVALID_PREFIX);
}

int main(void) {
    record();
    outcomes();
    answers();
    return 0;
}
