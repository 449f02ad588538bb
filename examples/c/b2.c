/* RFC 9204 B.2: the peer's encoder stream on a fresh table, and then the section that refers to it. */
#include <stdio.h>

#include "qpack_table.h"

/* Set Dynamic Table Capacity 220, and two inserts with a static name. */
static const uint8_t stream[] = "\x3f\xbd\x01"
                                "\xc0\x0fwww.example.com"
                                "\xc1\x0c/sample/path";
static const uint8_t section[] = {0x03, 0x81, 0x10, 0x11};

static uint8_t arena[QPACK_ARENA_BYTES];

static int refused(const char *what, unsigned answer) {
    fprintf(stderr, "%s: answer %u\n", what, answer);
    return 1;
}

int main(void) {
    uint8_t increment[QPACK_INCREMENT_BYTES];
    /* the text's closing 0 is no byte of the stream */
    struct qpack_encoder_outcome r = qpack_on_encoder_recv(qpack_fresh(), arena, sizeof arena, stream, sizeof stream - 1,
                                                           increment, sizeof increment);
    if (r.answer != QPACK_DONE) return refused("encoder stream", r.answer);
    printf("consumed %zu, inserted %zu, increment", r.consumed, r.inserted);
    for (size_t i = 0; i < r.written; i++) printf(" %02x", increment[i]);
    printf("\n");

    qpack_field fields[8];
    uint8_t out[256];
    struct qpack_section_outcome s =
        qpack_read_section(r.table, arena, sizeof arena, section, sizeof section, fields, 8, out, sizeof out);
    if (s.answer != QPACK_DONE) return refused("section", s.answer);
    for (size_t i = 0; i < s.count; i++) {
        const char *name = (const char *)out + fields[i][0];
        printf("%.*s: %.*s\n", (int)fields[i][1], name, (int)fields[i][2], name + fields[i][1]);
    }
    return 0;
}
