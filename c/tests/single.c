/*
 * What a single call costs over the border, in nanoseconds: the least of some rounds of so many calls each (an
 * argument). Beside them a read of a length out of a struct, which is what the original's inlined call is.
 */
#include "test.h"
#include <time.h>

enum { ROUNDS = 9 };

static double now(void) {
    struct timespec at;
    clock_gettime(CLOCK_MONOTONIC, &at);
    return (double)at.tv_sec * 1e9 + (double)at.tv_nsec;
}

/* Times an expression with a number for a value, ROUNDS * calls times. The values are added to `sum`, which keeps the
 * compiler from leaving the expression out. */
#define TIME(name, calls, sum, x) do { \
    double least = 1e18; \
    for (int round = 0; round < ROUNDS; round++) { \
        double began = now(); \
        for (long call = 0; call < (calls); call++) (sum) += (size_t)(x); \
        double spent = (now() - began) / (double)(calls); \
        if (spent < least) least = spent; \
    } \
    printf("%-24s %5.2f\n", name, least); \
} while (0)

int main(int argc, char **argv) {
    const long calls = argc > 1 ? atol(argv[1]) : 10000000;
    VIEW(view); VIEW(piece); PART(part); TEXT(one); TEXT(four);
    OK(iobuf_copy_from_slice(bytes("hello world"), 11, &view));
    OK(iobufmut_copy_from_slice(bytes("hello world"), 11, &part));
    OK(iobuf_clone(&view, &piece));
    iobufs_from_view(&piece, &one);
    for (int i = 0; i < 4; i++) {
        OK(iobuf_clone(&view, &piece));
        OK(iobufs_append(&four, &piece));
    }
    const uint8_t *at;
    uint8_t *room;
    struct { const uint8_t *at; size_t len; } plain = { bytes("hello world"), 11 };
    volatile size_t *len = &plain.len;
    size_t sum = 0;
    TIME("plain length", calls, sum, *len);
    TIME("iobuf_len", calls, sum, iobuf_len(&view));
    TIME("iobuf_chunk", calls, sum, iobuf_chunk(&view, &at));
    TIME("iobufmut_len", calls, sum, iobufmut_len(&part));
    TIME("iobufmut_capacity", calls, sum, iobufmut_capacity(&part));
    TIME("iobufmut_remaining_mut", calls, sum, iobufmut_remaining_mut(&part));
    TIME("iobufmut_chunk", calls, sum, iobufmut_chunk(&part, &room));
    TIME("iobufs_len, one piece", calls, sum, iobufs_len(&one));
    TIME("iobufs_len, four", calls, sum, iobufs_len(&four));
    TIME("iobufs_chunk, one piece", calls, sum, iobufs_chunk(&one, &at));
    TIME("iobufs_chunk, four", calls, sum, iobufs_chunk(&four, &at));
    TIME("iobufs_chunk_count", calls, sum, iobufs_chunk_count(&four));
    /* Every put has to fit, and every advance to have a byte: then none is left, and the capacity with them. */
    OK(iobufmut_with_capacity((size_t)calls * ROUNDS, &part));
    TIME("iobufmut_put_u8", calls, sum, iobufmut_put_u8(&part, 1));
    TIME("iobufmut_advance", calls, sum, iobufmut_advance(&part, 1));
    CHECK(sum > 0);
    CHECK(iobufmut_capacity(&part) == 0);
    iobuf_drop(&view); iobuf_drop(&piece); iobufmut_drop(&part); iobufs_drop(&one); iobufs_drop(&four);
    return 0;
}
