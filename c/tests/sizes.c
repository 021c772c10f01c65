/*
 * Calls at size and at their edges: chunks of up to 5 MiB, read through the pointer that is returned; empty ranges;
 * lengths and limits above 2^32; fronts that are no length. The bytes are those of `model`, and a chunk is a range of
 * it.
 */
#include "test.h"

#define LONG ((size_t)5 << 20) /* the most bytes of a buffer */
#define FAR ((size_t)1 << 33)  /* a length that 32 bits don't hold, and no buffer has */

static uint8_t model[LONG], room[LONG]; /* `room`: what a call copies out */

static size_t least(size_t one, size_t other) { return one < other ? one : other; }

/* Whether n bytes are those of the model from `lo` to `hi`. */
static int is_range(const uint8_t *at, size_t n, size_t lo, size_t hi) {
    return n == hi - lo && !memcmp(at, model + lo, n);
}
/* Whether a buffer holds these bytes of the model, in one chunk. */
static int view_shows(struct iobuf_at *view, size_t lo, size_t hi) {
    const uint8_t *at = model;
    size_t n = iobuf_chunk(view, &at);
    return n == iobuf_len(view) && is_range(at, n, lo, hi);
}
static int part_shows(struct iobufmut_at *part, size_t lo, size_t hi) {
    uint8_t *at = model;
    size_t n = iobufmut_chunk(part, &at);
    return n == iobufmut_len(part) && is_range(at, n, lo, hi);
}

/* The end of the chunk that begins at `at`: chunks end at multiples of chunk_len, and the last one at `hi`. */
static size_t chunk_end(size_t at, size_t chunk_len, size_t hi) { return least((at / chunk_len + 1) * chunk_len, hi); }

/* Chunk i is listed by itself as it is in the list of all. */
static void check_one(const struct iobufs_at *text, size_t i, const struct iobufs_iovec *list) {
    struct iobufs_iovec one;
    CHECK(iobufs_chunks_from(text, i, &one, 1) == 1);
    CHECK(one.base == list[i].base);
    CHECK(one.len == list[i].len);
}

/* The chunks from i on, at most three, are listed as they are in the list of all, which has `count`. */
static void check_three(const struct iobufs_at *text, size_t i, const struct iobufs_iovec *list, size_t count) {
    struct iobufs_iovec three[3];
    size_t some = least(count - i, 3);
    CHECK(iobufs_chunks_from(text, i, three, 3) == some);
    CHECK(!memcmp(three, list + i, some * sizeof *three));
}

/* Byte n of the text is that of chunk i at `offset`. */
static void check_located(const struct iobufs_at *text, size_t n, size_t i, size_t offset) {
    size_t found = 0, found_offset = 0;
    OK(iobufs_locate(text, n, &found, &found_offset));
    CHECK(found == i);
    CHECK(found_offset == offset);
}

/* The chunks of a text show the model from `lo` to `hi`, cut at multiples of chunk_len: in a list of all, one by one,
 * in threes, and by the place of their last bytes. */
static void check_text(const struct iobufs_at *text, size_t chunk_len, size_t lo, size_t hi) {
    size_t count = iobufs_chunk_count(text), begin = lo, end; /* where chunk i begins and ends in the model */
    struct iobufs_iovec *list = (struct iobufs_iovec *)calloc(count + 1, sizeof *list);
    CHECK(list);
    CHECK(iobufs_len(text) == hi - lo);
    CHECK(iobufs_chunks(text, list, count + 1) == count);
    for (size_t i = 0; i < count; i++, begin = end) {
        end = chunk_end(begin, chunk_len, hi);
        CHECK(is_range(list[i].base, list[i].len, begin, end));
        check_one(text, i, list);
        check_three(text, i, list, count);
        check_located(text, end - 1 - lo, i, end - 1 - begin);
    }
    CHECK(begin == hi);
    free(list);
}

/* A view that no other shares is recovered with its block, twice. */
static void recovered(size_t n) {
    VIEW(view); PART(part);
    const uint8_t *before = NULL, *after = NULL;
    OK(iobuf_copy_from_slice(model, n, &view));
    iobuf_chunk(&view, &before);
    for (int twice = 0; twice < 2; twice++) {
        OK(iobuf_try_into_mut(&view, &part));
        CHECK(part_shows(&part, 0, n));
        CHECK(iobufmut_capacity(&part) == n);
        OK(iobufmut_freeze(&part, &view));
    }
    iobuf_chunk(&view, &after);
    CHECK(before == after);
    iobuf_drop(&view);
}

/* A view of n bytes is sliced, split, copied out, and becomes a writable buffer. */
static void views(size_t n) {
    const size_t third = n / 3, half = n / 2, quarter = n / 4, after = half + 7 + quarter;
    VIEW(view); VIEW(other); PART(part);
    OK(iobuf_copy_from_slice(model, n, &view));
    CHECK(view_shows(&view, 0, n));
    OK(iobuf_slice(&view, IOBUFS_INCLUDED, third, IOBUFS_EXCLUDED, n - 1, &other));
    CHECK(view_shows(&other, third, n - 1));
    CHECK(view_shows(&view, 0, n));
    iobuf_drop(&other);
    OK(iobuf_split_to(&view, half, &other));
    CHECK(view_shows(&other, 0, half));
    CHECK(view_shows(&view, half, n));
    OK(iobuf_split_to(&view, 7, &other));
    CHECK(view_shows(&other, half, half + 7));
    iobuf_drop(&other);
    OK(iobuf_copy_to_slice(&view, room, quarter));
    CHECK(!memcmp(room, model + half + 7, quarter));
    CHECK(view_shows(&view, after, n));
    OK(iobufmut_from_view(&view, &part));
    CHECK(part_shows(&part, after, n));
    iobufmut_drop(&part);
    recovered(n);
}

/* Frames of n bytes that are received in steps, after a short one whose body is kept. */
static void received(size_t n, size_t step) {
    RECEIVED(block); VIEW(first); VIEW(body);
    uint8_t head[10];
    size_t len, wrong;
    OK(iobufs_received_new(IOBUFS_U32_LE, &block));
    receive(&block, "\3\0\0\0abc", 7);
    OK(iobufs_received_next(&block, 0, 3, &first, &wrong));
    for (int twice = 0; twice < 2; twice++) {
        OK(iobufs_frames_length(IOBUFS_U32_LE, n, head, sizeof head, &len));
        receive(&block, (const char *)head, len);
        for (size_t at = 0; at < n; at += step) {
            CHECK(iobufs_received_next(&block, 0, n, &body, &wrong) == IOBUFS_END_OF_BUFFER);
            CHECK(iobufs_received_len(&block) == len + at);
            receive(&block, (const char *)model + at, least(n - at, step));
        }
        OK(iobufs_received_next(&block, 0, n, &body, &wrong));
        CHECK(view_shows(&body, 0, n));
        CHECK(view_is(&first, "abc"));
        CHECK(iobufs_received_len(&block) == 0);
    }
    iobufs_received_drop(&block); iobuf_drop(&first); iobuf_drop(&body);
}

/* Three writable buffers of n bytes in a row, of which the first and five bytes more are drained. */
static void parts_in_row(size_t n) {
    enum { PARTS_HERE = 3, MORE = 5 };
    PARTS(row); TEXT(text);
    struct iobufmut memory[PARTS_HERE];
    struct iobufmut_at places[PARTS_HERE];
    struct iobufs_iovec list[PARTS_HERE];
    for (size_t i = 0; i < PARTS_HERE; i++) {
        places[i].at = &memory[i];
        iobufmut_init(places[i].at);
        OK(iobufmut_copy_from_slice(model + i * n, n, &places[i]));
        CHECK(part_shows(&places[i], i * n, i * n + n));
    }
    OK(iobufsmut_from_parts(places, PARTS_HERE, &row));
    CHECK(iobufsmut_chunks(&row, list, PARTS_HERE) == PARTS_HERE);
    CHECK(iobufsmut_capacity(&row) == PARTS_HERE * n);
    for (size_t i = 0; i < PARTS_HERE; i++) CHECK(is_range(list[i].base, list[i].len, i * n, i * n + n));
    OK(iobufsmut_advance(&row, n + MORE));
    CHECK(iobufsmut_chunks(&row, list, PARTS_HERE) == PARTS_HERE - 1);
    CHECK(is_range(list[0].base, list[0].len, n + MORE, 2 * n));
    OK(iobufsmut_freeze(&row, &text));
    check_text(&text, n, n + MORE, PARTS_HERE * n);
    iobufs_drop(&text);
}

/* A buffer of n bytes that are put, and one of n zeros. */
static void fresh_parts(size_t n) {
    PART(part); PART(zeros);
    uint8_t *at = NULL;
    OK(iobufmut_with_capacity(n, &part));
    OK(iobufmut_put_slice(&part, model, n));
    CHECK(part_shows(&part, 0, n));
    CHECK(iobufmut_remaining_mut(&part) == 0);
    OK(iobufmut_zeroed(n, &zeros));
    CHECK(iobufmut_chunk(&zeros, &at) == n);
    CHECK(at[0] == 0);
    CHECK(!memcmp(at, at + 1, n - 1)); /* each byte is the one before it */
    iobufmut_drop(&part); iobufmut_drop(&zeros);
}

/* A text of so many chunks of n bytes is cut, sliced, copied out and coalesced. */
static void texts(size_t count, size_t n) {
    const size_t all = count * n, third = all / 3, after = n / 2 + (all - n);
    TEXT(text); TEXT(front); VIEW(view);
    for (size_t i = 0; i < count; i++) {
        OK(iobuf_copy_from_slice(model + i * n, n, &view));
        OK(iobufs_append(&text, &view));
    }
    check_text(&text, n, 0, all);
    OK(iobufs_clone(&text, &front));
    OK(iobufs_take_after(&front, n / 2, all - n, &view));
    CHECK(view_shows(&view, n / 2, after));
    check_text(&front, n, after, all);
    iobuf_drop(&view); iobufs_drop(&front);
    OK(iobufs_slice(&text, all / 5, all - 1, &front));
    check_text(&front, n, all / 5, all - 1);
    iobufs_drop(&front);
    OK(iobufs_split_to(&text, third, &front));
    check_text(&front, n, 0, third);
    check_text(&text, n, third, all);
    OK(iobufs_copy_to_slice(&text, room, third));
    CHECK(!memcmp(room, model + third, third));
    OK(iobufs_coalesce(&text, &view));
    CHECK(view_shows(&view, 2 * third, all));
    iobuf_drop(&view); iobufs_drop(&front);
}

/* Of a view of n bytes: ranges without bytes, and those that don't fit. */
static void ranges_of_view(struct iobuf_at *view, size_t n) {
    VIEW(out);
    const size_t beyond[] = { n + 1, FAR + n, SIZE_MAX };
    for (size_t at = 0; at <= n; at += n / 2) {
        OK(iobuf_slice(view, IOBUFS_INCLUDED, at, IOBUFS_EXCLUDED, at, &out));
        CHECK(iobuf_len(&out) == 0);
        /* No bytes, from at + 1 on. */
        const iobufs_status status = at < n ? IOBUFS_OK : IOBUFS_OUT_OF_RANGE;
        CHECK(iobuf_slice(view, IOBUFS_EXCLUDED, at, IOBUFS_INCLUDED, at, &out) == status);
        CHECK(iobuf_slice(view, IOBUFS_EXCLUDED, at, IOBUFS_EXCLUDED, at, &out) == IOBUFS_OUT_OF_RANGE);
    }
    OK(iobuf_slice(view, IOBUFS_INCLUDED, n, IOBUFS_UNBOUNDED, 0, &out));
    OK(iobuf_slice(view, IOBUFS_UNBOUNDED, 0, IOBUFS_EXCLUDED, 0, &out));
    CHECK(iobuf_len(&out) == 0);
    for (size_t i = 0; i < sizeof beyond / sizeof *beyond; i++) {
        const size_t far = beyond[i];
        CHECK(iobuf_slice(view, IOBUFS_INCLUDED, 0, IOBUFS_EXCLUDED, far, &out) == IOBUFS_OUT_OF_RANGE);
        CHECK(iobuf_slice(view, IOBUFS_INCLUDED, far, IOBUFS_UNBOUNDED, 0, &out) == IOBUFS_OUT_OF_RANGE);
        CHECK(iobuf_slice(view, IOBUFS_EXCLUDED, far, IOBUFS_INCLUDED, far, &out) == IOBUFS_OUT_OF_RANGE);
        CHECK(iobuf_split_to(view, far, &out) == IOBUFS_OUT_OF_RANGE);
        CHECK(iobuf_advance(view, far) == IOBUFS_OUT_OF_RANGE);
    }
    OK(iobuf_split_to(view, 0, &out));
    OK(iobuf_advance(view, 0));
    OK(iobuf_copy_to_slice(view, room, 0));
    CHECK(view_shows(view, 0, n));
    CHECK(iobuf_len(&out) == 0);
    OK(iobuf_copy_from_slice(model, 0, &out));
    CHECK(iobuf_len(&out) == 0);
}

/* Of a text of n bytes in one chunk: ranges without bytes, and those that don't fit. */
static void ranges_of_text(struct iobufs_at *text, size_t n) {
    TEXT(front); VIEW(out);
    size_t index, offset;
    OK(iobufs_split_to(text, 0, &front));
    CHECK(iobufs_len(&front) == 0);
    OK(iobufs_take_after(text, 0, 0, &out));
    CHECK(iobuf_len(&out) == 0);
    check_text(text, n, 0, n);
    CHECK(iobufs_take_after(text, SIZE_MAX, 1, &out) == IOBUFS_END_OF_BUFFER);
    CHECK(iobufs_take_after(text, FAR, SIZE_MAX - FAR, &out) == IOBUFS_END_OF_BUFFER);
    CHECK(iobufs_slice(text, 0, FAR, &front) == IOBUFS_OUT_OF_RANGE);
    CHECK(iobufs_slice(text, SIZE_MAX, n, &front) == IOBUFS_OUT_OF_RANGE);
    CHECK(iobufs_split_to(text, FAR, &front) == IOBUFS_OUT_OF_RANGE);
    CHECK(iobufs_advance(text, SIZE_MAX) == IOBUFS_OUT_OF_RANGE);
    CHECK(iobufs_locate(text, n, &index, &offset) == IOBUFS_OUT_OF_RANGE);
    CHECK(iobufs_locate(text, FAR, &index, &offset) == IOBUFS_OUT_OF_RANGE);
    OK(iobufs_split_to(text, n, &front));
    CHECK(iobufs_len(text) == 0);
    check_text(&front, n, 0, n);
    iobufs_drop(&front);
}

static void ranges(void) {
    const size_t n = 5000;
    VIEW(view); TEXT(text);
    OK(iobuf_copy_from_slice(model, n, &view));
    ranges_of_view(&view, n);
    iobufs_from_view(&view, &text);
    ranges_of_text(&text, n);
}

/* A length above 2^32 at the front of a view, and limits below and above it; capacities that no buffer has. */
static void far_length(void) {
    static const uint8_t written[] = { 0x85, 0x80, 0x80, 0x80, 0x20 };
    PART(part); VIEW(view); VIEW(out);
    const uint8_t *at = NULL;
    size_t n = 1;
    CHECK(iobufmut_with_capacity((size_t)1 << 63, &part) == IOBUFS_BAD_LAYOUT);
    CHECK(iobufmut_zeroed((size_t)1 << 63, &part) == IOBUFS_BAD_LAYOUT);
    CHECK(iobufs_length_size(FAR + 5) == 5);
    CHECK(iobufs_length_size(SIZE_MAX) == 10);
    OK(iobufmut_with_capacity(9, &part));
    OK(iobufmut_put_length(&part, FAR + 5));
    OK(iobufmut_freeze(&part, &view));
    CHECK(iobuf_chunk(&view, &at) == 5);
    CHECK(!memcmp(at, written, 5));
    CHECK(iobuf_read_length(&view, 0, FAR + 4, &n) == IOBUFS_INVALID_LENGTH);
    CHECK(iobuf_len(&view) == 5);
    CHECK(iobuf_read_length(&view, FAR + 6, SIZE_MAX, &n) == IOBUFS_INVALID_LENGTH);
    CHECK(n == FAR + 5);
    CHECK(iobuf_read_length(&view, FAR + 6, FAR + 4, &n) == IOBUFS_INVALID_LENGTH);
    CHECK(iobuf_read_view(&view, 0, SIZE_MAX, &out) == IOBUFS_END_OF_BUFFER);
    CHECK(iobuf_len(&view) == 5);
    OK(iobuf_read_length(&view, FAR + 5, FAR + 5, &n));
    CHECK(n == FAR + 5);
    CHECK(iobuf_len(&view) == 0);
    iobuf_drop(&view);
}

/* Frames whose lengths are below a limit above 2^32, or above one. */
static void far_frames(void) {
    VIEW(view); VIEW(out); FRAMES(frames); RECEIVED(block);
    size_t n = 1;
    OK(iobuf_copy_from_slice(bytes("\3abc"), 4, &view));
    CHECK(iobuf_read_view(&view, FAR, SIZE_MAX, &out) == IOBUFS_INVALID_LENGTH);
    CHECK(iobuf_len(&view) == 4);
    OK(iobufs_frames_feed(&frames, &view));
    CHECK(iobufs_frames_next(&frames, FAR, SIZE_MAX, &out, &n) == IOBUFS_INVALID_LENGTH);
    CHECK(iobufs_frames_len(&frames) == 4);
    OK(iobufs_frames_next(&frames, 3, FAR, &out, &n));
    CHECK(view_is(&out, "abc"));
    OK(iobufs_received_new(IOBUFS_U64_BE, &block));
    receive(&block, "\0\0\0\2\0\0\0\5", 8);
    CHECK(iobufs_received_next(&block, 0, FAR + 4, &out, &n) == IOBUFS_INVALID_LENGTH);
    CHECK(n == FAR + 5);
    CHECK(iobufs_received_next(&block, FAR + 5, SIZE_MAX, &out, &n) == IOBUFS_END_OF_BUFFER);
    CHECK(iobufs_received_len(&block) == 8);
    iobuf_drop(&out); iobufs_frames_drop(&frames); iobufs_received_drop(&block);
}

/* A front that is no length, of one byte or two, and why. */
struct front { const char *bytes; size_t len; iobufs_status why; };

/* The view is of the front, and stays. */
static void front_of_text(const struct front *front, const struct iobuf_at *view) {
    TEXT(text); VIEW(out);
    uint16_t two = 1;
    uint32_t four = 1;
    size_t n = 1;
    OK(iobuf_clone(view, &out));
    iobufs_from_view(&out, &text);
    CHECK(iobufs_read_length(&text, 0, SIZE_MAX, &n) == front->why);
    CHECK(n == 1);
    CHECK(iobufs_read_view(&text, 0, SIZE_MAX, &out) == front->why);
    if (front->len < 2) CHECK(iobufs_get_u16(&text, &two) == IOBUFS_END_OF_BUFFER);
    CHECK(two == 1);
    CHECK(iobufs_get_u32(&text, &four) == IOBUFS_END_OF_BUFFER);
    CHECK(four == 1);
    CHECK(iobufs_len(&text) == front->len);
    CHECK(iobuf_len(&out) == 0);
    iobufs_drop(&text);
}

/* The view is of the front, and is fed then to frames that hold nothing, before and after. */
static void front_of_view(const struct front *front, struct iobuf_at *view, struct iobufs_frames_at *frames) {
    VIEW(out);
    uint16_t two = 1;
    size_t n = 1;
    CHECK(iobuf_read_length(view, 0, SIZE_MAX, &n) == front->why);
    CHECK(n == 1);
    CHECK(iobuf_read_view(view, 0, SIZE_MAX, &out) == front->why);
    if (front->len < 2) CHECK(iobuf_get_u16(view, &two) == IOBUFS_END_OF_BUFFER);
    CHECK(two == 1);
    CHECK(iobuf_len(view) == front->len);
    CHECK(iobuf_len(&out) == 0);
    OK(iobufs_frames_feed(frames, view));
    CHECK(iobufs_frames_next(frames, 0, SIZE_MAX, &out, &n) == front->why);
    CHECK(iobufs_frames_len(frames) == front->len);
    iobufs_frames_drop(frames);
}

/* Fronts that are no length and no number: each call says why, and what it read from stays. */
static void fronts(void) {
    static const struct front all[] = { { "\x80", 1, IOBUFS_END_OF_BUFFER }, { "\x80\0", 2, IOBUFS_INVALID_VARINT } };
    TEXT(none); PART(part); VIEW(view); FRAMES(frames);
    uint8_t one = 1;
    CHECK(iobufs_get_u8(&none, &one) == IOBUFS_END_OF_BUFFER);
    CHECK(one == 1);
    for (size_t i = 0; i < sizeof all / sizeof *all; i++) {
        OK(iobuf_copy_from_slice(bytes(all[i].bytes), all[i].len, &view));
        front_of_text(&all[i], &view);
        front_of_view(&all[i], &view, &frames);
    }
    OK(iobufmut_with_capacity(1, &part));
    CHECK(iobufmut_put_length(&part, 300) == IOBUFS_OUT_OF_RANGE);
    CHECK(iobufmut_len(&part) == 0);
    iobufmut_drop(&part);
}

int main(void) {
    static const size_t sizes[] = { 64, 4097, 65537, (1 << 20) + 1, LONG };
    for (size_t i = 0; i < LONG; i++) model[i] = (uint8_t)((i * 7 + i / 251) % 253);
    for (size_t i = 0; i < sizeof sizes / sizeof *sizes; i++) {
        const size_t n = sizes[i];
        views(n);
        parts_in_row(n / 3);
        fresh_parts(n / 3);
        received(n, n / 7 + 1); received(n / 16, 1); received(n, 4096);
        texts(1, n); texts(2, n / 2); texts(4, n / 4); texts(n / 16, 16);
    }
    ranges();
    far_length();
    far_frames();
    fronts();
    return 0;
}
