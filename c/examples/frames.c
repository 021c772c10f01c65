/*
 * Prints the frames of the standard input, each a varint length followed by a body, one a line: the length, and the body's
 * first bytes. Status 1 if the input ends inside a frame, 2 for a bad frame, 3 if reading or an allocation fails.
 */
#include <iobufs.h>
#include <errno.h>
#include <stdio.h>
#include <unistd.h>

enum { MOST = 1 << 20, SHOWN = 32 };

// [docs: read_frame_c]
/* Takes the next frame of a descriptor. IOBUFS_END_OF_BUFFER if it ends, or can't be read: then errno isn't 0. */
static iobufs_status read_frame(int fd, struct iobufs_received_at *block, struct iobuf_at *body) {
    iobufs_status status;
    size_t wrong, space;
    uint8_t *at;
    while ((status = iobufs_received_next(block, 0, MOST, body, &wrong)) == IOBUFS_END_OF_BUFFER) {
        status = iobufs_received_space(block, &at, &space);
        if (status != IOBUFS_OK) return status;
        errno = 0;
        ssize_t n = read(fd, at, space);
        if (n < 0 && errno == EINTR) continue;
        if (n <= 0) return IOBUFS_END_OF_BUFFER;
        status = iobufs_received_filled(block, (size_t)n);
        if (status != IOBUFS_OK) return status;
    }
    return status;
}
// [docs end]

static void print_frame(const struct iobuf_at *body) {
    const uint8_t *at = NULL;
    size_t n = iobuf_chunk(body, &at);
    printf("%zu %.*s%s\n", n, (int)(n < SHOWN ? n : SHOWN), n ? (const char *)at : "", n > SHOWN ? ".." : "");
}

/* Says why the program ends, and returns its status. */
static int stop(int status, const char *why) {
    fprintf(stderr, "frames: %s\n", why);
    return status;
}

/* The program's status, after the last frame. */
static int end(iobufs_status status, size_t left) {
    if (status == IOBUFS_END_OF_BUFFER && errno) return stop(3, "cannot read");
    if (status == IOBUFS_END_OF_BUFFER) return left ? stop(1, "the input ends inside a frame") : 0;
    return stop(status == IOBUFS_MEMORY ? 3 : 2, iobufs_strerror(status));
}

int main(void) {
    struct iobufs_received_at block = IOBUFS_RECEIVED_INIT;
    struct iobuf_at body = IOBUF_INIT;
    iobufs_status status = iobufs_received_new(IOBUFS_VARINT, &block);
    while (status == IOBUFS_OK) {
        status = read_frame(STDIN_FILENO, &block, &body);
        if (status == IOBUFS_OK) print_frame(&body);
    }
    int ended = end(status, iobufs_received_len(&block));
    iobufs_received_drop(&block);
    iobuf_drop(&body);
    return ended;
}
