/*
 * Frames whose headers have bytes around their length, as protocols have them: PostgreSQL (55.7, "Message Formats"), MQTT 3.1.1
 * (2.2), gRPC ("gRPC over HTTP2", Length-Prefixed-Message), HTTP/2 (RFC 9113, 4.1), MySQL ("Protocol::Packet"), TLS 1.2 (RFC
 * 5246, 6.2.1), 9P2000 (intro(5)) and Modbus/TCP ("MBAP Header"). The bytes are written by hand from these.
 */
#include "test.h"

#define B(text) text, sizeof text - 1
#define TEN "0123456789"
#define HUNDRED TEN TEN TEN TEN TEN TEN TEN TEN TEN TEN

#define STARTUP { 0, IOBUFS_U32_BE, 0, 4 } /* PostgreSQL's first message has no type */
#define POSTGRES { 1, IOBUFS_U32_BE, 0, 4 }
#define MQTT { 1, IOBUFS_VARINT, 0, 0 }
#define GRPC { 1, IOBUFS_U32_BE, 0, 0 }
#define HTTP2 { 0, IOBUFS_U24_BE, 6, 0 }
#define MYSQL { 0, IOBUFS_U24_LE, 1, 0 }
#define TLS { 3, IOBUFS_U16_BE, 0, 0 }
#define NINEP { 0, IOBUFS_U32_LE, 3, 7 }
#define MODBUS { 4, IOBUFS_U16_BE, 1, 1 }

/* A frame: the bytes around its length, its body, and all of it. */
struct frame {
    struct iobufs_layout layout;
    const char *around; size_t count;
    const char *body; size_t n;
    const char *whole; size_t size;
};

static const struct frame cases[] = {
    { STARTUP, B(""), B("\x04\xd2\x16\x2f"), B("\0\0\0\x08\x04\xd2\x16\x2f") },
    { POSTGRES, B("Q"), B("SELECT 1\0"), B("Q\0\0\0\x0dSELECT 1\0") },
    { POSTGRES, B("S"), B(""), B("S\0\0\0\4") },
    { MQTT, B("\x30"), B("\0\3a/bhi"), B("\x30\7\0\3a/bhi") },
    { MQTT, B("\x31"), B("\0\1t" HUNDRED TEN TEN "1234567"), B("\x31\x82\1\0\1t" HUNDRED TEN TEN "1234567") },
    { MQTT, B("\xc0"), B(""), B("\xc0\0") },
    { GRPC, B("\0"), B("\x0a\3bob"), B("\0\0\0\0\5\x0a\3bob") },
    { GRPC, B("\1"), B(""), B("\1\0\0\0\0") },
    { HTTP2, B("\4\1\0\0\0\0"), B(""), B("\0\0\0\4\1\0\0\0\0") },
    { HTTP2, B("\x08\0\0\0\0\1"), B("\0\0\3\xe8"), B("\0\0\4\x08\0\0\0\0\1\0\0\3\xe8") },
    { HTTP2, B("\0\1\0\0\0\3"), B(HUNDRED HUNDRED HUNDRED), B("\0\1\x2c\0\1\0\0\0\3" HUNDRED HUNDRED HUNDRED) },
    { MYSQL, B("\0"), B("\3SELECT 1"), B("\x09\0\0\0\3SELECT 1") },
    { MYSQL, B("\1"), B("\1"), B("\1\0\0\1\1") },
    { MYSQL, B("\2"), B(HUNDRED HUNDRED HUNDRED), B("\x2c\1\0\2" HUNDRED HUNDRED HUNDRED) },
    { TLS, B("\x15\3\3"), B("\1\0"), B("\x15\3\3\0\2\1\0") },
    { TLS, B("\x17\3\3"), B(HUNDRED HUNDRED HUNDRED), B("\x17\3\3\1\x2c" HUNDRED HUNDRED HUNDRED) },
    { NINEP, B("\x64\xff\xff"), B("\0\x20\0\0\6\0" "9P2000"), B("\x13\0\0\0\x64\xff\xff\0\x20\0\0\6\0" "9P2000") },
    { MODBUS, B("\0\1\0\0\x11"), B("\3\0\x6b\0\3"), B("\0\1\0\0\0\6\x11\3\0\x6b\0\3") },
};

static int view_has(const struct iobuf_at *view, const char *wanted, size_t n) {
    const uint8_t *at = NULL;
    return iobuf_chunk(view, &at) == n && !memcmp(at, wanted, n);
}

static int text_has(const struct iobufs_at *text, const char *wanted, size_t n) {
    uint8_t all[400];
    CHECK(n <= sizeof all);
    if (iobufs_len(text) != n) return 0;
    OK(iobufs_peek(text, 0, all, n));
    return !memcmp(all, wanted, n);
}

/* The header that is written, and what keeps it from being written. */
static void written(const struct frame *frame) {
    const uint8_t *around = bytes(frame->around);
    uint8_t head[32], some[32] = {0};
    size_t len = 99, size = frame->size - frame->n;
    memset(head, 7, sizeof head);
    OK(iobufs_frames_header(&frame->layout, around, frame->count, frame->n, head, sizeof head, &len));
    CHECK(len == size);
    CHECK(!memcmp(head, frame->whole, size));
    for (size_t i = size; i < sizeof head; i++) CHECK(head[i] == 7);
    len = 99;
    CHECK(iobufs_layout_header(&frame->layout, around, frame->count, frame->n, some, size - 1, &len) == IOBUFS_OUT_OF_RANGE);
    CHECK(iobufs_layout_header(&frame->layout, some, frame->count + 1, frame->n, some + 8, 24, &len) == IOBUFS_TOO_LONG);
    if (frame->count > 0)
        CHECK(iobufs_layout_header(&frame->layout, around, frame->count - 1, frame->n, some, 32, &len) == IOBUFS_TOO_LONG);
    CHECK(len == 99);
    for (size_t i = 0; i < sizeof some; i++) CHECK(some[i] == 0);
}

static void feed(struct iobufs_frames_at *frames, const char *from, size_t n) {
    VIEW(piece);
    OK(iobuf_copy_from_slice(bytes(from), n, &piece));
    OK(iobufs_frames_feed(frames, &piece));
}

/* A frame that is fed in two pieces, of which `cut` bytes are the first, is taken as its body, and with its header. */
static void fed(const struct frame *frame, size_t cut) {
    FRAMES(frames); VIEW(body); TEXT(whole);
    size_t wrong = 99, header = 99;
    OK(iobufs_frames_set_layout(&frames, &frame->layout));
    for (int is_whole = 0; is_whole < 2; is_whole++) {
        feed(&frames, frame->whole, cut);
        if (cut < frame->size) {
            CHECK(iobufs_frames_next(&frames, 0, 400, &body, &wrong) == IOBUFS_END_OF_BUFFER);
            CHECK(iobufs_frames_next_whole(&frames, 0, 400, &whole, &header, &wrong) == IOBUFS_END_OF_BUFFER);
        }
        CHECK(iobufs_frames_len(&frames) == cut);
        CHECK(header == 99);
        feed(&frames, frame->whole + cut, frame->size - cut);
        if (is_whole) OK(iobufs_frames_next_whole(&frames, frame->n, frame->n, &whole, &header, &wrong));
        else OK(iobufs_frames_next(&frames, frame->n, frame->n, &body, &wrong));
        CHECK(iobufs_frames_len(&frames) == 0);
    }
    CHECK(view_has(&body, frame->body, frame->n));
    CHECK(text_has(&whole, frame->whole, frame->size));
    CHECK(header == frame->size - frame->n);
    CHECK(wrong == 99);
    iobufs_frames_drop(&frames); iobuf_drop(&body); iobufs_drop(&whole);
}

/* So of one that is received in two reads. */
static void received(const struct frame *frame, size_t cut) {
    RECEIVED(block); VIEW(body); VIEW(whole);
    size_t wrong = 99, header = 99;
    OK(iobufs_received_with_layout(&frame->layout, &block));
    for (int is_whole = 0; is_whole < 2; is_whole++) {
        receive(&block, frame->whole, cut);
        if (cut < frame->size) {
            CHECK(iobufs_received_next(&block, 0, 400, &body, &wrong) == IOBUFS_END_OF_BUFFER);
            CHECK(iobufs_received_next_whole(&block, 0, 400, &whole, &header, &wrong) == IOBUFS_END_OF_BUFFER);
        }
        CHECK(iobufs_received_len(&block) == cut);
        CHECK(header == 99);
        receive(&block, frame->whole + cut, frame->size - cut);
        if (is_whole) OK(iobufs_received_next_whole(&block, frame->n, frame->n, &whole, &header, &wrong));
        else OK(iobufs_received_next(&block, frame->n, frame->n, &body, &wrong));
        CHECK(iobufs_received_len(&block) == 0);
    }
    CHECK(view_has(&body, frame->body, frame->n));
    CHECK(view_has(&whole, frame->whole, frame->size));
    CHECK(header == frame->size - frame->n);
    CHECK(wrong == 99);
    iobufs_received_drop(&block); iobuf_drop(&body); iobuf_drop(&whole);
}

/* A frame that comes byte by byte. */
static void by_bytes(const struct frame *frame) {
    FRAMES(frames); RECEIVED(block); VIEW(body); TEXT(whole);
    size_t wrong = 99, header = 99;
    OK(iobufs_frames_set_layout(&frames, &frame->layout));
    OK(iobufs_received_with_layout(&frame->layout, &block));
    for (size_t i = 0; i < frame->size; i++) {
        CHECK(iobufs_frames_next_whole(&frames, 0, 400, &whole, &header, &wrong) == IOBUFS_END_OF_BUFFER);
        CHECK(iobufs_received_next(&block, 0, 400, &body, &wrong) == IOBUFS_END_OF_BUFFER);
        feed(&frames, frame->whole + i, 1);
        receive(&block, frame->whole + i, 1);
    }
    OK(iobufs_frames_next_whole(&frames, 0, 400, &whole, &header, &wrong));
    CHECK(text_has(&whole, frame->whole, frame->size));
    CHECK(iobufs_chunk_count(&whole) == frame->size); /* none is copied */
    OK(iobufs_received_next(&block, 0, 400, &body, &wrong));
    CHECK(view_has(&body, frame->body, frame->n));
    iobufs_frames_drop(&frames); iobufs_received_drop(&block); iobuf_drop(&body); iobufs_drop(&whole);
}

/* Headers whose frames can't be: the layout, the range, the header, the status, and the length that is wrong, or 99. */
static const struct { struct iobufs_layout layout; size_t lo, hi; const char *header; size_t n; iobufs_status status; size_t wrong; }
faults[] = {
    { POSTGRES, 0, 400, B("Q\0\0\0\3"), IOBUFS_INVALID_LENGTH, 3 },
    { POSTGRES, 0, 400, B("Q\0\0\1\x95"), IOBUFS_INVALID_LENGTH, 405 },
    { POSTGRES, 1, 400, B("Q\0\0\0\4"), IOBUFS_INVALID_LENGTH, 4 },
    { MQTT, 0, 127, B("\x30\x80\1"), IOBUFS_INVALID_LENGTH, 128 },
    { MQTT, 0, 400, B("\x30\x80\0"), IOBUFS_INVALID_VARINT, 99 },
    { TLS, 0, 16384, B("\x17\3\3\x40\1"), IOBUFS_INVALID_LENGTH, 16385 },
    { NINEP, 0, 400, B("\6\0\0\0\x64\xff\xff"), IOBUFS_INVALID_LENGTH, 6 },
    { MODBUS, 0, 253, B("\0\1\0\0\0\0\x11"), IOBUFS_INVALID_LENGTH, 0 },
};

static void fails(void) {
    for (size_t i = 0; i < sizeof faults / sizeof *faults; i++) {
        FRAMES(frames); RECEIVED(block); VIEW(view); TEXT(text);
        size_t wrong = 99, header = 99;
        OK(iobufs_frames_set_layout(&frames, &faults[i].layout));
        OK(iobufs_received_with_layout(&faults[i].layout, &block));
        feed(&frames, faults[i].header, faults[i].n);
        receive(&block, faults[i].header, faults[i].n);
        for (int call = 0; call < 4; call++) {
            size_t lo = faults[i].lo, hi = faults[i].hi;
            wrong = 99;
            CHECK((call == 0   ? iobufs_frames_next(&frames, lo, hi, &view, &wrong)
                   : call == 1 ? iobufs_frames_next_whole(&frames, lo, hi, &text, &header, &wrong)
                   : call == 2 ? iobufs_received_next(&block, lo, hi, &view, &wrong)
                               : iobufs_received_next_whole(&block, lo, hi, &view, &header, &wrong)) == faults[i].status);
            CHECK(wrong == faults[i].wrong);
        }
        CHECK(header == 99);
        CHECK(iobufs_frames_len(&frames) == faults[i].n);
        CHECK(iobufs_received_len(&block) == faults[i].n);
        iobufs_frames_drop(&frames); iobufs_received_drop(&block);
    }
}

/* A layout that changes within a stream: PostgreSQL's first message has no type, and others come with it. */
static void changed(void) {
    static const struct iobufs_layout startup = STARTUP, typed = POSTGRES, unknown = { 1, 10, 0, 4 };
    static const char session[] = "\0\0\0\x08\x04\xd2\x16\x2fQ\0\0\0\x0dSELECT 1\0S\0\0\0\4";
    static const struct { const char *body; size_t n; } bodies[] = { { B("\x04\xd2\x16\x2f") }, { B("SELECT 1\0") }, { B("") } };
    FRAMES(frames); RECEIVED(block); VIEW(body);
    size_t wrong = 99;
    OK(iobufs_frames_set_layout(&frames, &startup));
    OK(iobufs_received_with_layout(&startup, &block));
    feed(&frames, session, sizeof session - 1);
    receive(&block, session, sizeof session - 1);
    for (size_t i = 0; i < 3; i++) {
        OK(iobufs_frames_next(&frames, 0, 400, &body, &wrong));
        CHECK(view_has(&body, bodies[i].body, bodies[i].n));
        OK(iobufs_received_next(&block, 0, 400, &body, &wrong));
        CHECK(view_has(&body, bodies[i].body, bodies[i].n));
        if (i > 0) continue;
        /* a length that was decoded is forgotten: 'Q', 0, 0, 0 as a number */
        CHECK(iobufs_received_next(&block, 0, SIZE_MAX, &body, &wrong) == IOBUFS_END_OF_BUFFER);
        CHECK(iobufs_received_set_layout(&block, &unknown) == IOBUFS_BAD_KIND);
        CHECK(iobufs_frames_set_layout(&frames, &unknown) == IOBUFS_BAD_KIND);
        OK(iobufs_received_set_layout(&block, &typed));
        OK(iobufs_frames_set_layout(&frames, &typed));
    }
    CHECK(iobufs_frames_len(&frames) == 0);
    CHECK(iobufs_received_len(&block) == 0);
    iobufs_frames_drop(&frames); iobufs_received_drop(&block); iobuf_drop(&body);
}

/* Headers that can't be written: the layout, how many bytes are around the length, the body's, and the status. */
static const struct { struct iobufs_layout layout; size_t count, n; iobufs_status status; } unwritten[] = {
    { { 0, 10, 0, 0 }, 0, 0, IOBUFS_BAD_KIND },
    { { 11, IOBUFS_VARINT, 11, 0 }, 22, 0, IOBUFS_OK },
    { { 11, IOBUFS_VARINT, 12, 0 }, 23, 0, IOBUFS_TOO_LONG },
    { { 255, IOBUFS_VARINT, 255, 0 }, 510, 0, IOBUFS_TOO_LONG },
    { { 0, IOBUFS_U8, 0, 3 }, 0, 252, IOBUFS_OK },
    { { 0, IOBUFS_U8, 0, 4 }, 0, 252, IOBUFS_TOO_LONG },
    { { 0, IOBUFS_VARINT, 0, 0 }, 0, SIZE_MAX - 10, IOBUFS_OK },
    { { 0, IOBUFS_VARINT, 0, 0 }, 0, SIZE_MAX - 9, IOBUFS_TOO_LONG },
    { { 0, IOBUFS_VARINT, 0, 255 }, 0, SIZE_MAX - 10, IOBUFS_TOO_LONG },
};

static void statuses(void) {
    static const struct iobufs_layout unknown = { 0, 255, 0, 0 }, typed = POSTGRES, bare = { 0, IOBUFS_U16_LE, 0, 0 };
    static const uint8_t around[510] = {0};
    RECEIVED(block); VIEW(whole);
    uint8_t head[32];
    size_t len, wrong = 99, header = 99;
    for (size_t i = 0; i < sizeof unwritten / sizeof *unwritten; i++)
        CHECK(iobufs_layout_header(&unwritten[i].layout, around, unwritten[i].count, unwritten[i].n, head, sizeof head, &len)
              == unwritten[i].status);
    OK(iobufs_layout_header(&bare, around, 0, 3, head, sizeof head, &len));
    OK(iobufs_frames_header(&bare, NULL, 0, 3, head, sizeof head, &len)); /* NULL for no bytes, and for no space */
    CHECK(len == 2 && head[0] == 3 && head[1] == 0);
    CHECK(iobufs_frames_header(&bare, NULL, 0, 3, NULL, 0, &len) == IOBUFS_OUT_OF_RANGE);
    CHECK(iobufs_frames_header(&typed, NULL, 0, 3, NULL, 0, &len) == IOBUFS_TOO_LONG);
    CHECK(len == 2);
    CHECK(iobufs_received_with_layout(&unknown, &block) == IOBUFS_BAD_KIND);
    CHECK(iobufs_received_set_layout(&block, &unknown) == IOBUFS_BAD_KIND);
    OK(iobufs_received_set_layout(&block, &typed));
    CHECK(iobufs_received_next_whole(&block, 0, 9, &whole, &header, &wrong) == IOBUFS_END_OF_BUFFER);
    CHECK(header == 99);
}

int main(void) {
    for (size_t i = 0; i < sizeof cases / sizeof *cases; i++) {
        written(&cases[i]);
        for (size_t cut = 0; cut <= cases[i].size; cut++) {
            fed(&cases[i], cut);
            received(&cases[i], cut);
        }
        by_bytes(&cases[i]);
    }
    fails(); changed(); statuses();
    return 0;
}
