/* nghttp3's QPACK encoder and decoder behind lines: one command to a line, one answer for each. Bytes are hex digits, "-" is none.
 *
 *   encoder CAPACITY BLOCKED            a new encoder
 *   encode STREAM NAME VALUE ..         -> INSTRUCTIONS SECTION
 *   reports BYTES                       what the decoder wrote, read by the encoder -> how many bytes
 *   decoder CAPACITY BLOCKED            a new decoder
 *   instructions BYTES                  what the encoder wrote, read by the decoder -> how many bytes
 *   section STREAM BYTES                -> NAME VALUE .., or "blocked"
 *   written                             what the decoder has to write since the last time
 *
 * A refusal is "error N". Strings are written plain: the program is linked with a count for Huffman that is never the shorter one.
 */
#include <nghttp3/nghttp3.h>
#include <stdio.h>
#include <stdlib.h>
#include <string.h>

enum { LONGEST = 1 << 20, FIELDS = 512 };

static char line[2 * LONGEST];
static nghttp3_qpack_encoder *encoder;
static nghttp3_qpack_decoder *decoder;

size_t __wrap_nghttp3_qpack_huffman_encode_count(const uint8_t *s, size_t n) {
    (void)s;
    return n + (1 << 20);
}

static void put(const uint8_t *s, size_t n) {
    if (n == 0) putchar('-');
    for (size_t i = 0; i < n; i++) printf("%02x", s[i]);
}

static size_t bytes(const char *word, uint8_t **out) {
    size_t n = word == NULL || strcmp(word, "-") == 0 ? 0 : strlen(word) / 2;
    *out = malloc(n + 1);
    for (size_t i = 0; i < n; i++) {
        unsigned byte;
        sscanf(word + 2 * i, "%2x", &byte);
        (*out)[i] = (uint8_t)byte;
    }
    return n;
}

static size_t number(void) {
    const char *word = strtok(NULL, " ");
    return word == NULL ? 0 : strtoull(word, NULL, 10);
}

static void new_encoder(void) {
    size_t capacity = number(), blocked = number();
    if (encoder) nghttp3_qpack_encoder_del(encoder);
    int r = nghttp3_qpack_encoder_new(&encoder, capacity, nghttp3_mem_default());
    nghttp3_qpack_encoder_set_max_dtable_capacity(encoder, capacity);
    nghttp3_qpack_encoder_set_max_blocked_streams(encoder, blocked);
    printf(r ? "error %d" : "ok", r);
}

static void new_decoder(void) {
    size_t capacity = number(), blocked = number();
    if (decoder) nghttp3_qpack_decoder_del(decoder);
    int r = nghttp3_qpack_decoder_new(&decoder, capacity, blocked, nghttp3_mem_default());
    nghttp3_qpack_decoder_set_max_concurrent_streams(decoder, 1 << 16);
    printf(r ? "error %d" : "ok", r);
}

static void encode(void) {
    static nghttp3_nv fields[FIELDS];
    nghttp3_buf prefix, section, instructions;
    int64_t stream = (int64_t)number();
    size_t n = 0;
    for (char *w; n < FIELDS && (w = strtok(NULL, " ")) != NULL; n++) {
        fields[n].namelen = bytes(w, &fields[n].name);
        fields[n].valuelen = bytes(strtok(NULL, " "), &fields[n].value);
        fields[n].flags = NGHTTP3_NV_FLAG_NONE;
    }
    nghttp3_buf_init(&prefix);
    nghttp3_buf_init(&section);
    nghttp3_buf_init(&instructions);
    int r = nghttp3_qpack_encoder_encode(encoder, &prefix, &section, &instructions, stream, fields, n);
    if (r) {
        printf("error %d", r);
    } else {
        put(instructions.pos, nghttp3_buf_len(&instructions));
        putchar(' ');
        put(prefix.pos, nghttp3_buf_len(&prefix));
        if (nghttp3_buf_len(&section)) put(section.pos, nghttp3_buf_len(&section));
    }
    nghttp3_buf_free(&prefix, nghttp3_mem_default());
    nghttp3_buf_free(&section, nghttp3_mem_default());
    nghttp3_buf_free(&instructions, nghttp3_mem_default());
    for (size_t i = 0; i < n; i++) free(fields[i].name), free(fields[i].value);
}

static void tell(nghttp3_ssize r) { printf(r < 0 ? "error %ld" : "%ld", (long)r); }

static void section(void) {
    nghttp3_qpack_stream_context *context;
    int64_t stream = (int64_t)number();
    uint8_t *s, flags = 0;
    size_t n = bytes(strtok(NULL, " "), &s), at = 0;
    nghttp3_qpack_stream_context_new(&context, stream, nghttp3_mem_default());
    printf("fields");
    do {
        nghttp3_qpack_nv f;
        nghttp3_ssize r = nghttp3_qpack_decoder_read_request(decoder, context, &f, &flags, s + at, n - at, 1);
        if (r < 0) {
            printf(" error %ld", (long)r);
            break;
        }
        at += (size_t)r;
        if (flags & NGHTTP3_QPACK_DECODE_FLAG_BLOCKED) {
            printf(" blocked");
            break;
        }
        if (flags & NGHTTP3_QPACK_DECODE_FLAG_EMIT) {
            nghttp3_vec name = nghttp3_rcbuf_get_buf(f.name), value = nghttp3_rcbuf_get_buf(f.value);
            putchar(' ');
            put(name.base, name.len);
            putchar(' ');
            put(value.base, value.len);
            nghttp3_rcbuf_decref(f.name);
            nghttp3_rcbuf_decref(f.value);
        }
    } while (!(flags & NGHTTP3_QPACK_DECODE_FLAG_FINAL));
    nghttp3_qpack_stream_context_del(context);
    free(s);
}

static void written(void) {
    nghttp3_buf b;
    size_t n = nghttp3_qpack_decoder_get_decoder_streamlen(decoder);
    uint8_t *room = malloc(n + 1);
    b.begin = b.pos = b.last = room;
    b.end = room + n;
    nghttp3_qpack_decoder_write_decoder(decoder, &b);
    put(b.pos, nghttp3_buf_len(&b));
    free(room);
}

int main(void) {
    while (fgets(line, sizeof line, stdin)) {
        uint8_t *s;
        line[strcspn(line, "\n")] = 0;
        const char *w = strtok(line, " ");
        if (w == NULL) continue;
        if (!strcmp(w, "encoder")) new_encoder();
        else if (!strcmp(w, "decoder")) new_decoder();
        else if (!strcmp(w, "encode")) encode();
        else if (!strcmp(w, "section")) section();
        else if (!strcmp(w, "written")) written();
        else if (!strcmp(w, "reports")) {
            size_t n = bytes(strtok(NULL, " "), &s);
            tell(nghttp3_qpack_encoder_read_decoder(encoder, s, n));
            free(s);
        } else if (!strcmp(w, "instructions")) {
            size_t n = bytes(strtok(NULL, " "), &s);
            tell(nghttp3_qpack_decoder_read_encoder(decoder, s, n));
            free(s);
        } else printf("no such command");
        putchar('\n');
        fflush(stdout);
    }
    return 0;
}
