/*
 * A sender and a reader over a socketpair: frames of views, written by writev from the chunks of a text, with short
 * writes (a small socket buffer that isn't waited for), read in pieces and taken out as frames. Sums at both ends have
 * to be equal.
 *
 *     pipe [MEBIBYTES [BODY [plain]]]
 *
 * BODY is the bytes of a frame. The bodies of a batch lie one behind the other in a block of the sender's. By the
 * buffers a frame is its length and a slice of that block, or, of a short body, a copy of it; the reader's frames are
 * slices of what was read, and only those that came in two pieces are copied. With `plain`, the same frames and writes
 * by plain copies: each body into another block, behind its length, and out of what was read into memory of its own.
 */
#include "test.h"
#include <errno.h>
#include <fcntl.h>
#include <poll.h>
#include <sys/mman.h>
#include <sys/socket.h>
#include <sys/uio.h>
#include <sys/wait.h>
#include <time.h>
#include <unistd.h>

enum {
    MOST = 1 << 20,            /* the longest body */
    BATCH = 1 << 17,           /* the bytes of a batch */
    LIST = 64,                 /* the most chunks of a write */
    PIECE = 32768,             /* the bytes of a read */
    SHORT = 2048,              /* a body from this length on isn't copied */
    LONGEST_LENGTH = 10,       /* the bytes of the longest varint */
    SEND_BUFFER = 16384,       /* the bytes that are asked of the sender's socket: it takes about twice as many */
    ALWAYS_SHORT_WRITES = 4096 /* from this body on a list is more than the socket takes */
};

/* Shared memory: the sender tells this to the reader's process. */
struct told { uint64_t sum; size_t writes, short_writes; };

static struct told *told;
static size_t body; /* the bytes of a frame */

static uint64_t sum_of(uint64_t sum, const uint8_t *at, size_t n) {
    for (size_t i = 0; i + 8 <= n; i += 8) {
        uint64_t word;
        memcpy(&word, at + i, 8);
        sum = (sum ^ word) * 0x9e3779b97f4a7c15u;
    }
    return sum;
}

/* The byte that fills frame i, which begins with its number. */
static uint8_t filler(size_t i) { return (uint8_t)(i * 31 % 251); }

/* Frames that are sent at a time. */
static size_t batch(void) { return body < BATCH ? BATCH / body : 1; }

/* Chunks that are listed at a time: of each frame two, of twice the bytes that the socket takes, since what isn't
 * written is listed again. */
static size_t listed(void) {
    size_t chunks = 2 * (2 * PIECE / body) + 2;
    return chunks < LIST ? chunks : LIST;
}

/* Writes some of a list, and waits where nothing can be written. */
static size_t write_some(int to, struct iovec *list, size_t n, size_t len) {
    for (;;) {
        ssize_t wrote = writev(to, list, (int)n);
        if (wrote > 0) {
            told->writes++;
            told->short_writes += (size_t)wrote < len;
            return (size_t)wrote;
        }
        CHECK(wrote < 0);
        CHECK(errno == EAGAIN);
        struct pollfd ready = { to, POLLOUT, 0 };
        CHECK(poll(&ready, 1, -1) == 1);
    }
}

static size_t read_some(int from, uint8_t *room) {
    ssize_t n = read(from, room, PIECE);
    CHECK(n > 0);
    return (size_t)n;
}

/* ---- by the buffers ---- */

/* The bodies of n frames from i on, as a view of one block, and where they lie; `block` holds the block of the batch
 * before it, which nobody shares any more. */
static const uint8_t *make_bodies(struct iobuf_at *block, struct iobufmut_at *part, size_t i, size_t n) {
    const uint8_t *at;
    if (iobuf_try_into_mut(block, part) != IOBUFS_OK || iobufmut_capacity(part) < batch() * body) {
        OK(iobufmut_with_capacity(batch() * body, part));
    }
    iobufmut_truncate(part, 0);
    for (size_t k = 0; k < n; k++, i++) {
        OK(iobufmut_put_slice(part, (const uint8_t *)&i, sizeof i));
        OK(iobufmut_put_bytes(part, filler(i), body - sizeof i));
    }
    OK(iobufmut_freeze(part, block));
    CHECK(iobuf_chunk(block, &at) == n * body);
    for (size_t k = 0; k < n; k++) told->sum = sum_of(told->sum, at + k * body, body);
    return at;
}

/* A length and a body: a slice of the front of `bodies`, or, of a short one, a copy. */
static void put_frame(struct iobufs_builder_at *builder, struct iobuf_at *bodies, const uint8_t *at,
                      struct iobuf_at *first) {
    OK(iobufs_builder_put_length(builder, body));
    if (body < SHORT) {
        OK(iobufs_builder_put_slice(builder, at, body));
        return;
    }
    OK(iobuf_split_to(bodies, body, first));
    OK(iobufs_builder_push(builder, first));
}

static void send_text(int to, struct iobufs_at *text) {
    while (iobufs_len(text) > 0) {
        struct iovec list[LIST];
        size_t len = 0, n = iobufs_chunks(text, (struct iobufs_iovec *)list, listed());
        for (size_t i = 0; i < n; i++) len += list[i].iov_len;
        OK(iobufs_advance(text, write_some(to, list, n, len)));
    }
}

static void send_frames(int to, size_t count) {
    BUILDER(builder); PART(part); VIEW(block); VIEW(bodies); VIEW(first); TEXT(text);
    const size_t copied = LONGEST_LENGTH + (body < SHORT ? body : 0); /* of a frame, at most */
    for (size_t i = 0, n; i < count; i += n) {
        n = count - i < batch() ? count - i : batch();
        const uint8_t *at = make_bodies(&block, &part, i, n);
        OK(iobuf_clone(&block, &bodies));
        OK(iobufs_builder_new(n * copied, &builder));
        for (size_t k = 0; k < n; k++) put_frame(&builder, &bodies, at + k * body, &first);
        OK(iobufs_builder_finish(&builder, &text));
        iobuf_drop(&bodies);
        send_text(to, &text);
    }
    iobufs_builder_drop(&builder); iobufs_drop(&text); iobuf_drop(&block); iobuf_drop(&bodies); iobuf_drop(&first);
}

/* Reads into the memory of an earlier piece, if no frame holds that any more, or else into new memory, which stays with
 * `earlier`; what was read, `out`, is a slice of it. */
static void read_piece(int from, struct iobuf_at *earlier, struct iobufmut_at *part, struct iobuf_at *out) {
    uint8_t *at;
    if (iobuf_try_into_mut(earlier, part) != IOBUFS_OK || iobufmut_len(part) < PIECE) OK(iobufmut_zeroed(PIECE, part));
    CHECK(iobufmut_chunk(part, &at) == PIECE);
    size_t n = read_some(from, at);
    OK(iobufmut_freeze(part, earlier));
    OK(iobuf_slice(earlier, IOBUFS_INCLUDED, 0, IOBUFS_EXCLUDED, n, out));
}

/* Reads into two blocks in turn: a frame that has begun and not ended keeps the last one. */
static uint64_t read_frames(int from, size_t count) {
    FRAMES(frames); PART(part); VIEW(view); VIEW(one); VIEW(other);
    struct iobuf_at *earlier = &one, *later = &other;
    uint64_t sum = 0;
    const uint8_t *at;
    for (size_t seen = 0; seen < count;) {
        read_piece(from, earlier, &part, &view);
        struct iobuf_at *last = earlier;
        earlier = later;
        later = last;
        OK(iobufs_frames_feed(&frames, &view));
        iobufs_status status;
        size_t wrong;
        while ((status = iobufs_frames_next(&frames, 0, MOST, &view, &wrong)) == IOBUFS_OK) {
            CHECK(iobuf_chunk(&view, &at) == body);
            sum = sum_of(sum, at, body);
            seen++;
        }
        CHECK(status == IOBUFS_END_OF_BUFFER);
    }
    iobufs_frames_drop(&frames); iobuf_drop(&view); iobuf_drop(&one); iobuf_drop(&other);
    return sum;
}

/* ---- by plain copies ---- */

static size_t put_length(uint8_t *at, size_t n) {
    size_t used = 0;
    for (; n >= 128; n >>= 7) at[used++] = (uint8_t)(n | 128);
    at[used++] = (uint8_t)n;
    return used;
}

/* A body: its number, and then its filler. */
static void fill_body(uint8_t *at, size_t number) {
    memcpy(at, &number, sizeof number);
    memset(at + sizeof number, filler(number), body - sizeof number);
}

/* Copies n bodies into a block, each behind its length, and answers how many bytes these are. */
static size_t frame_all(uint8_t *block, const uint8_t *bodies, size_t n) {
    size_t used = 0;
    for (size_t k = 0; k < n; k++) {
        used += put_length(block + used, body);
        memcpy(block + used, bodies + k * body, body);
        used += body;
    }
    return used;
}

static void write_all(int to, uint8_t *block, size_t used) {
    for (size_t sent = 0; sent < used;) {
        struct iovec rest = { block + sent, used - sent };
        sent += write_some(to, &rest, 1, used - sent);
    }
}

static void send_plain(int to, size_t count) {
    uint8_t *bodies = (uint8_t *)malloc(batch() * body);
    uint8_t *block = (uint8_t *)malloc(batch() * (body + LONGEST_LENGTH));
    CHECK(bodies);
    CHECK(block);
    for (size_t i = 0, n; i < count; i += n) {
        n = count - i < batch() ? count - i : batch();
        for (size_t k = 0; k < n; k++) fill_body(bodies + k * body, i + k);
        for (size_t k = 0; k < n; k++) told->sum = sum_of(told->sum, bodies + k * body, body);
        write_all(to, block, frame_all(block, bodies, n));
    }
    free(bodies); free(block);
}

/* A frame comes in pieces: `len` and `shift` are what its length is so far, byte by byte; then `taken` has `have` bytes
 * of its body, and before it is NULL. */
static uint64_t read_plain(int from, size_t count) {
    static uint8_t room[PIECE];
    uint8_t *taken = NULL;
    uint64_t sum = 0;
    for (size_t seen = 0, len = 0, shift = 0, have = 0; seen < count;) {
        size_t n = read_some(from, room);
        for (size_t at = 0; at < n;) {
            if (taken == NULL) {
                uint8_t byte = room[at++];
                len |= (size_t)(byte & 127) << shift;
                shift += 7;
                if (byte & 128) continue;
                CHECK(len <= MOST);
                taken = (uint8_t *)malloc(len);
                CHECK(taken);
                have = 0;
            }
            size_t part = len - have < n - at ? len - have : n - at;
            memcpy(taken + have, room + at, part);
            have += part; at += part;
            if (have < len) continue;
            CHECK(len == body);
            sum = sum_of(sum, taken, len);
            free(taken);
            taken = NULL; len = shift = 0; seen++;
        }
    }
    return sum;
}

/* ---- both ends ---- */

struct arguments { size_t mebibytes, count; int plain; };

/* Reads them, and sets `body`. */
static struct arguments read_arguments(int argc, char **argv) {
    struct arguments given = { 64, 0, argc > 3 };
    body = 4096;
    if (argc > 1) given.mebibytes = (size_t)atol(argv[1]);
    if (argc > 2) body = (size_t)atol(argv[2]);
    CHECK(body >= sizeof(size_t)); /* it begins with its number */
    CHECK(body <= MOST);
    given.count = given.mebibytes * 1048576 / body;
    return given;
}

/* The sender's end, which has a small buffer and isn't waited for, and the reader's. */
static void open_pair(int ends[2]) {
    const int size = SEND_BUFFER;
    CHECK(!socketpair(AF_UNIX, SOCK_STREAM, 0, ends));
    CHECK(!setsockopt(ends[0], SOL_SOCKET, SO_SNDBUF, &size, sizeof size));
    CHECK(!fcntl(ends[0], F_SETFL, O_NONBLOCK));
}

/* The sender in a process of its own, and the reader in this one, whose sum is the answer. Each closes the other's end:
 * else a reader would wait for a sender that has failed. */
static uint64_t run_both(const int ends[2], size_t count, int plain) {
    int status;
    pid_t child = fork();
    CHECK(child >= 0);
    if (child == 0) {
        close(ends[1]);
        (plain ? send_plain : send_frames)(ends[0], count);
        exit(0);
    }
    close(ends[0]);
    uint64_t sum = (plain ? read_plain : read_frames)(ends[1], count);
    CHECK(waitpid(child, &status, 0) == child);
    CHECK(status == 0);
    return sum;
}

static double now(void) {
    struct timespec at;
    clock_gettime(CLOCK_MONOTONIC, &at);
    return (double)at.tv_sec + (double)at.tv_nsec / 1e9;
}

static void report(struct arguments given, double seconds) {
    printf("%zu MiB in %zu frames of %zu bytes%s: %.2f s, %zu writes, %zu of them short\n", given.mebibytes,
           given.count, body, given.plain ? " by plain copies" : "", seconds, told->writes, told->short_writes);
}

int main(int argc, char **argv) {
    const struct arguments given = read_arguments(argc, argv);
    int ends[2];
    told = (struct told *)mmap(NULL, sizeof *told, PROT_READ | PROT_WRITE, MAP_SHARED | MAP_ANONYMOUS, -1, 0);
    CHECK(told != MAP_FAILED);
    open_pair(ends);
    const double began = now();
    const uint64_t sum = run_both(ends, given.count, given.plain);
    const double ended = now();
    CHECK(sum == told->sum);
    CHECK(body < ALWAYS_SHORT_WRITES || told->short_writes > 0);
    report(given, ended - began);
    return 0;
}
