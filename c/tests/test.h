/* The tests share these: buffers with their places, and checks that say where they failed. */
#include "iobufs.h"
#include <stdio.h>
#include <stdlib.h>
#include <string.h>

#define CHECK(x) do { if (!(x)) { fprintf(stderr, "%s:%d: %s\n", __FILE__, __LINE__, #x); exit(1); } } while (0)
#define OK(x) CHECK((x) == IOBUFS_OK)

#define VIEW(name) struct iobuf_at name = IOBUF_INIT
#define PART(name) struct iobufmut_at name = IOBUFMUT_INIT
#define TEXT(name) struct iobufs_at name = IOBUFS_INIT
#define PARTS(name) struct iobufsmut_at name = IOBUFSMUT_INIT
#define BUILDER(name) struct iobufs_builder_at name = IOBUFS_BUILDER_INIT
#define FRAMES(name) struct iobufs_frames_at name = IOBUFS_FRAMES_INIT
#define RECEIVED(name) struct iobufs_received_at name = IOBUFS_RECEIVED_INIT

static inline const uint8_t *bytes(const char *text) { return (const uint8_t *)text; }

/* Receives bytes: writes them into the space, as a read would. */
static inline void receive(struct iobufs_received_at *received, const char *src, size_t n) {
    for (size_t done = 0; done < n;) {
        uint8_t *at = NULL;
        size_t space = 0;
        OK(iobufs_received_space(received, &at, &space));
        if (space > n - done) space = n - done;
        CHECK(space > 0);
        memcpy(at, src + done, space);
        OK(iobufs_received_filled(received, space));
        done += space;
    }
}

/* Whether a buffer holds just these bytes. */
static inline int view_is(const struct iobuf_at *view, const char *text) {
    const uint8_t *at = NULL;
    size_t n = iobuf_chunk(view, &at);
    return n == strlen(text) && n == iobuf_len(view) && (n == 0 || !memcmp(at, text, n));
}
static inline int part_is(struct iobufmut_at *part, const char *text) {
    uint8_t *at = NULL;
    size_t n = iobufmut_chunk(part, &at);
    return n == strlen(text) && n == iobufmut_len(part) && (n == 0 || !memcmp(at, text, n));
}
static inline int text_is(const struct iobufs_at *text, const char *wanted) {
    size_t len = strlen(wanted), seen = 0;
    if (iobufs_len(text) != len) return 0;
    for (size_t i = 0; i < iobufs_chunk_count(text); i++) {
        struct iobufs_iovec chunk;
        if (iobufs_chunks_from(text, i, &chunk, 1) != 1) return 0;
        if (chunk.len == 0 || memcmp(chunk.base, wanted + seen, chunk.len)) return 0;
        seen += chunk.len;
    }
    return seen == len;
}
static inline int parts_are(struct iobufsmut_at *parts, const char *wanted) {
    struct iobufs_iovec list[4];
    size_t len = strlen(wanted), seen = 0, count = iobufsmut_chunks(parts, list, 4);
    if (iobufsmut_len(parts) != len) return 0;
    for (size_t i = 0; i < count; seen += list[i++].len)
        if (memcmp(list[i].base, wanted + seen, list[i].len)) return 0;
    return seen == len;
}
