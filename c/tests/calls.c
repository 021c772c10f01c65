/*
 * Every call but those that protocols.c has, with values that are worked by hand. Each test makes the buffers that it
 * needs, of these: HELLO, buffers of capacity 16, and texts whose pieces `|` divides.
 */
#include "test.h"

#define HELLO(view) OK(iobuf_copy_from_slice(bytes("hello world"), 11, &view))

/* IOBUFS_BUILT is the build that is tested. */
static void sizes(void) {
    CHECK(iobufs_build() == IOBUFS_BUILT);
    CHECK(iobuf_size() <= sizeof(struct iobuf));
    CHECK(iobufmut_size() <= sizeof(struct iobufmut));
    CHECK(iobufs_size() <= sizeof(struct iobufs));
    CHECK(iobufsmut_size() <= sizeof(struct iobufsmut));
    CHECK(iobufs_builder_size() <= sizeof(struct iobufs_builder));
    CHECK(iobufs_frames_size() <= sizeof(struct iobufs_frames));
    CHECK(iobufs_received_size() <= sizeof(struct iobufs_received));
}

/* ---- iobuf ---- */

static void view_clones(void) {
    VIEW(hello); VIEW(other); VIEW(none);
    const uint8_t *at = NULL;
    CHECK(view_is(&hello, ""));
    OK(iobuf_copy_from_slice(bytes(""), 0, &hello));
    HELLO(hello);
    CHECK(view_is(&hello, "hello world"));
    OK(iobuf_clone(&hello, &other));
    CHECK(iobuf_eq(&hello, &other));
    CHECK(!iobuf_eq(&hello, &none));
    CHECK(iobuf_chunk(&none, &at) == 0);
    CHECK(at != NULL);
    iobuf_drop(&hello); iobuf_drop(&hello);
    CHECK(view_is(&hello, ""));
    CHECK(view_is(&other, "hello world"));
    iobuf_from_static(bytes("for good"), 8, &other);
    CHECK(view_is(&other, "for good"));
    iobuf_drop(&other);
    CHECK(view_is(&other, ""));
}

static void view_cuts(void) {
    VIEW(hello); VIEW(rest); VIEW(cut);
    HELLO(hello);
    OK(iobuf_clone(&hello, &rest));
    CHECK(iobuf_split_to(&rest, 12, &cut) == IOBUFS_OUT_OF_RANGE);
    CHECK(view_is(&rest, "hello world"));
    CHECK(view_is(&cut, ""));
    OK(iobuf_split_to(&rest, 5, &cut));
    CHECK(view_is(&cut, "hello"));
    CHECK(view_is(&rest, " world"));
    CHECK(iobuf_advance(&rest, 7) == IOBUFS_OUT_OF_RANGE);
    CHECK(view_is(&rest, " world"));
    OK(iobuf_advance(&rest, 1));
    CHECK(view_is(&rest, "world"));
    /* The cut holds bytes: a failure keeps them, and a success drops them. */
    CHECK(iobuf_split_to(&rest, 6, &cut) == IOBUFS_OUT_OF_RANGE);
    CHECK(view_is(&cut, "hello"));
    OK(iobuf_split_to(&rest, 2, &cut));
    CHECK(view_is(&cut, "wo"));
    CHECK(view_is(&rest, "rld"));
    CHECK(view_is(&hello, "hello world"));
    iobuf_drop(&hello); iobuf_drop(&rest); iobuf_drop(&cut);
}

/* A slice that fails keeps what was there before: "old". There is no kind 3, 7, 9 or 255. */
static void view_slices(void) {
    static const struct {
        uint8_t lo_kind; size_t lo; uint8_t hi_kind; size_t hi; iobufs_status status; const char *bytes;
    } cases[] = {
        { IOBUFS_INCLUDED, 2, IOBUFS_EXCLUDED, 4, IOBUFS_OK, "ll" },
        { IOBUFS_EXCLUDED, 5, IOBUFS_INCLUDED, 7, IOBUFS_OK, "wo" },
        { IOBUFS_UNBOUNDED, 0, IOBUFS_UNBOUNDED, 0, IOBUFS_OK, "hello world" },
        { IOBUFS_INCLUDED, 4, IOBUFS_EXCLUDED, 2, IOBUFS_OUT_OF_RANGE, "old" },
        { IOBUFS_INCLUDED, 4, IOBUFS_INCLUDED, 11, IOBUFS_OUT_OF_RANGE, "old" },
        { IOBUFS_INCLUDED, 0, IOBUFS_INCLUDED, SIZE_MAX, IOBUFS_OUT_OF_RANGE, "old" },
        { 7, 1, 9, 3, IOBUFS_BAD_KIND, "old" },
        { IOBUFS_INCLUDED, 0, 3, 1, IOBUFS_BAD_KIND, "old" },
        { 255, 9, IOBUFS_EXCLUDED, 1, IOBUFS_BAD_KIND, "old" },
    };
    VIEW(hello); VIEW(cut);
    HELLO(hello);
    for (size_t i = 0; i < sizeof cases / sizeof *cases; i++) {
        OK(iobuf_copy_from_slice(bytes("old"), 3, &cut));
        CHECK(iobuf_slice(&hello, cases[i].lo_kind, cases[i].lo, cases[i].hi_kind, cases[i].hi, &cut)
              == cases[i].status);
        CHECK(view_is(&cut, cases[i].bytes));
    }
    CHECK(view_is(&hello, "hello world"));
    iobuf_drop(&hello); iobuf_drop(&cut);
}

static void view_copies_out(void) {
    VIEW(view);
    uint8_t out[6] = { 0 };
    HELLO(view);
    OK(iobuf_copy_to_slice(&view, out, 5));
    CHECK(!memcmp(out, "hello", 6));
    CHECK(view_is(&view, " world"));
    OK(iobuf_copy_to_slice(&view, out, 6));
    CHECK(!memcmp(out, " world", 6));
    CHECK(view_is(&view, ""));
    CHECK(iobuf_copy_to_slice(&view, out, 1) == IOBUFS_END_OF_BUFFER);
    CHECK(out[0] == ' ');
    OK(iobuf_copy_to_slice(&view, out, 0));
    iobuf_drop(&view);
}

/* Memory that isn't copied lives until the last buffer made of it is dropped: nothing reads it after that. */
static void lent(void) {
    uint8_t *memory = (uint8_t *)malloc(6);
    memcpy(memory, "\5abcde", 6);
    VIEW(whole); VIEW(share); VIEW(frame); TEXT(text); TEXT(front); BUILDER(builder); FRAMES(fed);
    size_t wrong = 0;
    iobuf_from_static(memory, 6, &whole);
    OK(iobuf_slice(&whole, IOBUFS_INCLUDED, 1, IOBUFS_EXCLUDED, 4, &share));
    OK(iobufs_append(&text, &share));
    OK(iobuf_clone(&whole, &share));
    OK(iobufs_prepend(&text, &share));
    OK(iobufs_split_to(&text, 2, &front));
    OK(iobufs_builder_new(0, &builder));
    OK(iobuf_clone(&whole, &share));
    OK(iobufs_builder_push(&builder, &share));
    OK(iobuf_clone(&whole, &share));
    OK(iobufs_frames_feed(&fed, &share));
    OK(iobufs_frames_next(&fed, 0, 9, &frame, &wrong));
    CHECK(text_is(&front, "\5a"));
    CHECK(text_is(&text, "bcdeabc"));
    CHECK(view_is(&frame, "abcde"));
    OK(iobufs_advance(&text, 7));
    iobuf_drop(&whole); iobuf_drop(&frame); iobufs_drop(&front); iobufs_builder_drop(&builder);
    /* `text` and `fed` hold none of these bytes any more, and are used on: the sanitizer sees a read of them. */
    memset(memory, 0, 6);
    free(memory);
    CHECK(iobufs_len(&text) == 0);
    CHECK(iobufs_frames_len(&fed) == 0);
    CHECK(view_is(&whole, ""));
    HELLO(whole);
    OK(iobufs_append(&text, &whole));
    CHECK(text_is(&text, "hello world"));
    iobufs_drop(&text); iobufs_frames_drop(&fed); iobuf_drop(&whole);
}

/* The memory moves, and the buffer with it. */
static void moved(void) {
    struct iobuf *before = (struct iobuf *)malloc(sizeof *before), *after = (struct iobuf *)malloc(sizeof *after);
    struct iobuf_at place = { before };
    iobuf_init(before);
    HELLO(place);
    memcpy(after, before, sizeof *before);
    free(before);
    place.at = after;
    CHECK(view_is(&place, "hello world"));
    iobuf_drop(&place);
    free(after);
}

/* ---- results that replace a buffer: none is copied ---- */

/* Whether a view, or the first chunk of a text, is the n bytes at this address. */
static int view_is_at(const struct iobuf_at *view, const uint8_t *wanted, size_t n) {
    const uint8_t *at = NULL;
    return iobuf_chunk(view, &at) == n && at == wanted;
}
static int text_is_at(const struct iobufs_at *text, const uint8_t *wanted, size_t n) {
    const uint8_t *at = NULL;
    return iobufs_chunk(text, &at) == n && at == wanted;
}

/* Makes a buffer of three bytes, and answers their address. */
static const uint8_t *make_xyz(struct iobufmut_at *buffer) {
    uint8_t *at = NULL;
    OK(iobufmut_copy_from_slice(bytes("xyz"), 3, buffer));
    CHECK(iobufmut_chunk(buffer, &at) == 3);
    return at;
}

static void views_in_place(void) {
    VIEW(hello); VIEW(other); VIEW(cut);
    const uint8_t *at = NULL;
    HELLO(hello);
    CHECK(iobuf_chunk(&hello, &at) == 11);
    OK(iobuf_slice(&hello, IOBUFS_INCLUDED, 4, IOBUFS_UNBOUNDED, 0, &other));
    CHECK(view_is_at(&other, at + 4, 7));
    OK(iobuf_clone(&hello, &other));
    CHECK(view_is_at(&other, at, 11));
    OK(iobuf_split_to(&other, 5, &cut));
    CHECK(view_is_at(&cut, at, 5));
    CHECK(view_is_at(&other, at + 5, 6));
    iobuf_drop(&hello); iobuf_drop(&other); iobuf_drop(&cut);
}

static void texts_in_place(void) {
    PART(buffer); PARTS(several); VIEW(view); TEXT(text); TEXT(other);
    const uint8_t *at = make_xyz(&buffer);
    OK(iobufmut_freeze(&buffer, &view));
    CHECK(view_is_at(&view, at, 3));
    iobufs_from_view(&view, &text);
    CHECK(text_is_at(&text, at, 3));
    at = make_xyz(&buffer);
    iobufsmut_from_mut(&buffer, &several);
    OK(iobufsmut_freeze(&several, &text));
    CHECK(text_is_at(&text, at, 3));
    OK(iobufs_clone(&text, &other));
    CHECK(text_is_at(&other, at, 3));
    OK(iobufs_slice(&text, 1, 3, &other));
    CHECK(text_is_at(&other, at + 1, 2));
    OK(iobufs_split_to(&text, 1, &other));
    CHECK(text_is_at(&text, at + 1, 2));
    CHECK(text_is_at(&other, at, 1));
    OK(iobufs_coalesce(&text, &view));
    CHECK(view_is_at(&view, at + 1, 2));
    iobufs_drop(&other);
    iobufs_from_view(&view, &text);
    OK(iobufs_take(&text, 1, &view));
    CHECK(view_is_at(&view, at + 1, 1));
    CHECK(text_is_at(&text, at + 2, 1));
    iobuf_drop(&view); iobufs_drop(&text);
}

/* ---- iobufmut ---- */

/* Makes a buffer of capacity 16 with these bytes. */
static void make_16(struct iobufmut_at *buffer, const char *text) {
    OK(iobufmut_with_capacity(16, buffer));
    OK(iobufmut_put_slice(buffer, bytes(text), strlen(text)));
}

/* Makes a buffer of "abc", of whose capacity 16 five bytes are drained: its block recovers as one of 16 - 5. */
static void make_drained(struct iobufmut_at *buffer) {
    make_16(buffer, "helloabc");
    OK(iobufmut_advance(buffer, 5));
    CHECK(part_is(buffer, "abc"));
    CHECK(iobufmut_capacity(buffer) == 16 - 5);
}

static void buffer_of_none(void) {
    PART(none);
    uint8_t *at = NULL;
    CHECK(iobufmut_len(&none) == 0);
    CHECK(iobufmut_capacity(&none) == 0);
    CHECK(iobufmut_remaining_mut(&none) == 0);
    CHECK(iobufmut_chunk(&none, &at) == 0);
    CHECK(at != NULL);
    OK(iobufmut_put_slice(&none, bytes(""), 0));
    CHECK(iobufmut_put_slice(&none, bytes("x"), 1) == IOBUFS_OUT_OF_RANGE);
    CHECK(iobufmut_put_u8(&none, 1) == IOBUFS_OUT_OF_RANGE);
    CHECK(iobufmut_put_bytes(&none, 1, 1) == IOBUFS_OUT_OF_RANGE);
    CHECK(iobufmut_set_len(&none, 1) == IOBUFS_OUT_OF_RANGE);
    CHECK(iobufmut_advance(&none, 1) == IOBUFS_OUT_OF_RANGE);
    CHECK(iobufmut_with_capacity(SIZE_MAX, &none) == IOBUFS_BAD_LAYOUT);
    CHECK(iobufmut_zeroed(SIZE_MAX, &none) == IOBUFS_BAD_LAYOUT);
}

static void buffer_puts(void) {
    PART(buffer);
    make_16(&buffer, "hello");
    OK(iobufmut_put_u8(&buffer, ' '));
    OK(iobufmut_put_bytes(&buffer, 'x', 3));
    CHECK(part_is(&buffer, "hello xxx"));
    CHECK(iobufmut_capacity(&buffer) == 16);
    CHECK(iobufmut_remaining_mut(&buffer) == 16 - 9);
    CHECK(iobufmut_put_slice(&buffer, bytes("too long"), 8) == IOBUFS_OUT_OF_RANGE);
    OK(iobufmut_copy_from_slice(bytes("xyz"), 3, &buffer));
    CHECK(part_is(&buffer, "xyz"));
    CHECK(iobufmut_remaining_mut(&buffer) == 0);
    OK(iobufmut_zeroed(2, &buffer));
    CHECK(iobufmut_len(&buffer) == 2);
    CHECK(iobufmut_capacity(&buffer) == 2);
    iobufmut_drop(&buffer); iobufmut_drop(&buffer);
}

static void buffer_writes(void) {
    PART(buffer);
    uint8_t *at = NULL;
    make_16(&buffer, "hello xxx");
    OK(iobufmut_write_at(&buffer, 6, bytes("yz"), 2));
    CHECK(part_is(&buffer, "hello yzx"));
    CHECK(iobufmut_write_at(&buffer, 8, bytes("yz"), 2) == IOBUFS_OUT_OF_RANGE);
    CHECK(iobufmut_write_at(&buffer, SIZE_MAX, bytes("yz"), 2) == IOBUFS_OUT_OF_RANGE);
    CHECK(iobufmut_chunk(&buffer, &at) == 9);
    at[0] = 'j';
    CHECK(part_is(&buffer, "jello yzx"));
    iobufmut_truncate(&buffer, 20);
    CHECK(part_is(&buffer, "jello yzx"));
    iobufmut_truncate(&buffer, 5);
    CHECK(part_is(&buffer, "jello"));
    iobufmut_drop(&buffer);
}

static void buffer_drains(void) {
    PART(buffer);
    uint8_t *at = NULL, out[3];
    make_16(&buffer, "jello yzx");
    iobufmut_truncate(&buffer, 5);
    OK(iobufmut_advance(&buffer, 2));
    CHECK(part_is(&buffer, "llo"));
    CHECK(iobufmut_capacity(&buffer) == 16 - 2);
    OK(iobufmut_set_len(&buffer, 5)); /* zeros, not the bytes that were cut off */
    CHECK(iobufmut_chunk(&buffer, &at) == 5);
    CHECK(!memcmp(at, "llo\0\0", 5));
    OK(iobufmut_copy_to_slice(&buffer, out, 3));
    CHECK(!memcmp(out, "llo", 3));
    CHECK(iobufmut_len(&buffer) == 2);
    CHECK(iobufmut_copy_to_slice(&buffer, out, 3) == IOBUFS_END_OF_BUFFER);
    iobufmut_truncate(&buffer, 0);
    CHECK(part_is(&buffer, ""));
    CHECK(iobufmut_capacity(&buffer) == 16 - 5);
    OK(iobufmut_put_length(&buffer, 300));
    CHECK(part_is(&buffer, "\xac\x02"));
    iobufmut_drop(&buffer);
}

static void buffer_freezes(void) {
    PART(buffer); VIEW(view); VIEW(share);
    make_drained(&buffer);
    OK(iobufmut_freeze(&buffer, &view));
    CHECK(view_is(&view, "abc"));
    CHECK(iobufmut_capacity(&buffer) == 0);
    OK(iobufmut_freeze(&buffer, &share));
    CHECK(view_is(&share, ""));
    OK(iobuf_clone(&view, &share));
    CHECK(iobuf_try_into_mut(&view, &buffer) == IOBUFS_DECLINED);
    CHECK(view_is(&view, "abc"));
    CHECK(iobufmut_capacity(&buffer) == 0);
    iobuf_drop(&share);
    OK(iobuf_try_into_mut(&view, &buffer));
    CHECK(part_is(&buffer, "abc"));
    CHECK(iobufmut_capacity(&buffer) == 16 - 5);
    CHECK(view_is(&view, ""));
    iobufmut_drop(&buffer);
}

/* The bytes of a view that is shared are copied; those of one that isn't are recovered. */
static void buffer_from_views(void) {
    PART(buffer); VIEW(view); VIEW(share);
    make_drained(&buffer);
    OK(iobufmut_freeze(&buffer, &view));
    OK(iobuf_clone(&view, &share));
    OK(iobufmut_from_view(&view, &buffer));
    CHECK(part_is(&buffer, "abc"));
    CHECK(iobufmut_capacity(&buffer) == 3);
    CHECK(view_is(&view, ""));
    OK(iobufmut_from_view(&share, &buffer));
    CHECK(part_is(&buffer, "abc"));
    CHECK(iobufmut_capacity(&buffer) == 16 - 5);
    iobufmut_drop(&buffer);
}

/* ---- iobufs ---- */

/* Appends a copy of each of the pieces, which `|` divides: "ab|c" is two. */
static void append_pieces(struct iobufs_at *text, const char *pieces) {
    VIEW(piece);
    for (const char *at = pieces, *end; at; at = *end ? end + 1 : NULL) {
        end = at + strcspn(at, "|");
        OK(iobuf_copy_from_slice(bytes(at), (size_t)(end - at), &piece));
        OK(iobufs_append(text, &piece));
        CHECK(view_is(&piece, ""));
    }
}

static void text_chunks(void) {
    TEXT(text); VIEW(view);
    const uint8_t *at = NULL;
    CHECK(iobufs_len(&text) == 0);
    CHECK(iobufs_chunk_count(&text) == 0);
    CHECK(iobufs_chunk(&text, &at) == 0);
    append_pieces(&text, "abc|de||fghi"); /* the empty piece is no chunk */
    CHECK(text_is(&text, "abcdefghi"));
    CHECK(iobufs_chunk_count(&text) == 3);
    CHECK(iobufs_chunk(&text, &at) == 3);
    CHECK(at[2] == 'c');
    size_t index, offset;
    OK(iobufs_locate(&text, 4, &index, &offset));
    CHECK(index == 1);
    CHECK(offset == 1);
    CHECK(iobufs_locate(&text, 9, &index, &offset) == IOBUFS_OUT_OF_RANGE);
    HELLO(view);
    OK(iobufs_prepend(&text, &view));
    CHECK(text_is(&text, "hello worldabcdefghi"));
    CHECK(view_is(&view, ""));
    iobufs_drop(&text); iobufs_drop(&text);
    CHECK(iobufs_len(&text) == 0);
}

static void text_lists(void) {
    static const struct iobufs_iovec unwritten = { NULL, 99 };
    TEXT(text);
    struct iobufs_iovec list[4] = { unwritten, unwritten, unwritten, unwritten };
    append_pieces(&text, "abc|de|fghi");
    CHECK(iobufs_chunks(&text, list, 0) == 0);
    CHECK(iobufs_chunks(&text, list, 2) == 2);
    CHECK(list[1].len == 2);
    CHECK(list[1].base[0] == 'd');
    CHECK(list[2].len == 99);
    CHECK(iobufs_chunks(&text, list, 4) == 3);
    CHECK(list[0].len == 3);
    CHECK(list[2].len == 4);
    CHECK(list[2].base[3] == 'i');
    list[2] = unwritten;
    CHECK(iobufs_chunks_from(&text, 1, list, 4) == 2);
    CHECK(list[0].base[1] == 'e');
    CHECK(list[1].len == 4);
    CHECK(list[2].len == 99);
    list[1] = unwritten;
    CHECK(iobufs_chunks_from(&text, 2, list, 1) == 1);
    CHECK(list[0].len == 4);
    CHECK(list[1].len == 99);
    CHECK(iobufs_chunks_from(&text, 0, list, 0) == 0);
    CHECK(iobufs_chunks_from(&text, 3, list, 4) == 0);
    CHECK(iobufs_chunks_from(&text, SIZE_MAX, list, 4) == 0);
    CHECK(list[0].len == 4);
    iobufs_drop(&text);
}

static void text_slices(void) {
    TEXT(text); TEXT(slice);
    append_pieces(&text, "hello world|abc|de|fghi");
    OK(iobufs_slice(&text, 9, 15, &slice));
    CHECK(text_is(&slice, "ldabcd"));
    CHECK(iobufs_chunk_count(&slice) == 3);
    CHECK(iobufs_slice(&text, 3, 21, &slice) == IOBUFS_OUT_OF_RANGE);
    CHECK(iobufs_slice(&text, 3, 2, &slice) == IOBUFS_OUT_OF_RANGE);
    CHECK(text_is(&slice, "ldabcd"));
    OK(iobufs_slice(&text, 20, 20, &slice));
    CHECK(text_is(&slice, ""));
    CHECK(iobufs_len(&text) == 20);
    CHECK(text_is(&text, "hello worldabcdefghi"));
    iobufs_drop(&text); iobufs_drop(&slice);
}

static void text_truncates(void) {
    TEXT(text); TEXT(slice); TEXT(copy);
    append_pieces(&text, "hello world|abc|de|fghi");
    OK(iobufs_slice(&text, 9, 15, &slice));
    OK(iobufs_truncate(&slice, 6));
    OK(iobufs_truncate(&slice, SIZE_MAX));
    CHECK(text_is(&slice, "ldabcd"));
    CHECK(!iobufs_eq(&text, &slice));
    CHECK(iobufs_eq(&slice, &slice));
    OK(iobufs_truncate(&slice, 3));
    CHECK(text_is(&slice, "lda"));
    CHECK(iobufs_chunk_count(&slice) == 2);
    append_pieces(&copy, "l|da"); /* cut elsewhere */
    CHECK(iobufs_eq(&slice, &copy));
    OK(iobufs_clone(&text, &copy));
    OK(iobufs_truncate(&copy, 12));
    OK(iobufs_advance(&copy, 9));
    CHECK(iobufs_eq(&slice, &copy));
    CHECK(iobufs_eq(&copy, &slice));
    OK(iobufs_truncate(&copy, 0));
    CHECK(text_is(&copy, ""));
    CHECK(!iobufs_eq(&slice, &copy));
    iobufs_drop(&text); iobufs_drop(&slice);
}

static void text_cuts(void) {
    TEXT(text); TEXT(cut);
    append_pieces(&text, "hello world|abc|de|fghi");
    OK(iobufs_clone(&text, &cut));
    CHECK(iobufs_split_to(&text, 21, &cut) == IOBUFS_OUT_OF_RANGE);
    CHECK(text_is(&cut, "hello worldabcdefghi"));
    OK(iobufs_split_to(&text, 12, &cut));
    CHECK(text_is(&cut, "hello worlda"));
    CHECK(text_is(&text, "bcdefghi"));
    CHECK(iobufs_advance(&text, 9) == IOBUFS_OUT_OF_RANGE);
    CHECK(text_is(&text, "bcdefghi"));
    OK(iobufs_advance(&text, 3));
    CHECK(text_is(&text, "efghi"));
    iobufs_drop(&text); iobufs_drop(&cut);
}

static void text_copies_out(void) {
    TEXT(text);
    uint8_t all[12] = "............";
    append_pieces(&text, "hello world|a");
    CHECK(iobufs_peek(&text, 13, all, 0) == IOBUFS_END_OF_BUFFER);
    CHECK(iobufs_peek(&text, 1, all, 12) == IOBUFS_END_OF_BUFFER);
    CHECK(iobufs_peek(&text, SIZE_MAX, all, 2) == IOBUFS_END_OF_BUFFER);
    CHECK(!memcmp(all, "............", 12));
    OK(iobufs_peek(&text, 12, all, 0));
    OK(iobufs_peek(&text, 9, all, 3));
    CHECK(!memcmp(all, "lda.........", 12));
    OK(iobufs_peek(&text, 0, all, iobufs_len(&text)));
    CHECK(!memcmp(all, "hello worlda", 12));
    CHECK(text_is(&text, "hello worlda"));
    OK(iobufs_copy_to_slice(&text, all, 9));
    CHECK(text_is(&text, "lda"));
    CHECK(iobufs_copy_to_slice(&text, all, 4) == IOBUFS_END_OF_BUFFER);
    CHECK(text_is(&text, "lda"));
    OK(iobufs_copy_to_slice(&text, all, 3));
    CHECK(!memcmp(all, "ldalo wor", 9));
    CHECK(text_is(&text, ""));
}

static void text_takes(void) {
    TEXT(text); VIEW(view);
    append_pieces(&text, "hello world|a");
    CHECK(iobufs_take(&text, 13, &view) == IOBUFS_END_OF_BUFFER);
    OK(iobufs_take(&text, 5, &view));
    CHECK(view_is(&view, "hello"));
    CHECK(text_is(&text, " worlda"));
    CHECK(iobufs_take_after(&text, 6, 2, &view) == IOBUFS_END_OF_BUFFER);
    CHECK(iobufs_take_after(&text, SIZE_MAX, 2, &view) == IOBUFS_END_OF_BUFFER);
    CHECK(view_is(&view, "hello"));
    CHECK(text_is(&text, " worlda"));
    OK(iobufs_take_after(&text, 1, 6, &view));
    CHECK(view_is(&view, "worlda"));
    CHECK(text_is(&text, ""));
    iobuf_drop(&view);
}

static void text_single(void) {
    TEXT(text); VIEW(view); PART(buffer);
    append_pieces(&text, "ghi|jk");
    CHECK(iobufs_try_into_single(&text, &view) == IOBUFS_DECLINED);
    CHECK(text_is(&text, "ghijk"));
    OK(iobufs_coalesce(&text, &view));
    CHECK(view_is(&view, "ghijk"));
    CHECK(text_is(&text, ""));
    iobufs_from_view(&view, &text);
    CHECK(text_is(&text, "ghijk"));
    CHECK(view_is(&view, ""));
    OK(iobufs_try_into_single(&text, &view));
    CHECK(view_is(&view, "ghijk"));
    CHECK(text_is(&text, ""));
    make_xyz(&buffer);
    OK(iobufmut_freeze(&buffer, &view));
    CHECK(iobufmut_capacity(&buffer) == 0);
    iobufs_from_view(&view, &text);
    CHECK(text_is(&text, "xyz"));
    CHECK(view_is(&view, ""));
    iobufs_from_view(&view, &text);
    CHECK(text_is(&text, ""));
}

static void text_append_all(void) {
    TEXT(text); TEXT(other);
    append_pieces(&text, "ab|c");
    append_pieces(&other, "de|f|ghi");
    OK(iobufs_append_all(&text, &other));
    CHECK(text_is(&text, "abcdefghi"));
    CHECK(iobufs_chunk_count(&text) == 5);
    CHECK(text_is(&other, ""));
    OK(iobufs_append_all(&text, &other)); /* nothing to something */
    CHECK(text_is(&text, "abcdefghi"));
    CHECK(text_is(&other, ""));
    OK(iobufs_append_all(&other, &text)); /* something to nothing */
    CHECK(text_is(&other, "abcdefghi"));
    CHECK(iobufs_chunk_count(&other) == 5);
    CHECK(text_is(&text, ""));
    CHECK(iobufs_append_all(&other, &other) == IOBUFS_DECLINED);
    CHECK(text_is(&other, "abcdefghi"));
    CHECK(iobufs_chunk_count(&other) == 5);
    OK(iobufs_advance(&other, 9));
    CHECK(text_is(&other, ""));
}

/* ---- iobufsmut ---- */

/* Makes parts of two buffers of these capacities; an empty buffer between them counts for nothing. */
static void make_parts(struct iobufsmut_at *parts, size_t one, size_t other) {
    PART(first); PART(second); PART(none);
    OK(iobufmut_with_capacity(one, &first));
    OK(iobufmut_with_capacity(other, &second));
    struct iobufmut_at row[3] = { first, none, second };
    OK(iobufsmut_from_parts(row, 3, parts));
    CHECK(iobufmut_capacity(&first) == 0);
    CHECK(iobufmut_capacity(&second) == 0);
    CHECK(iobufsmut_part_count(parts) == 2);
    CHECK(iobufsmut_capacity(parts) == one + other);
}

static void parts_of_few(void) {
    PART(buffer); PART(none); PARTS(parts);
    uint8_t *at = NULL;
    CHECK(iobufsmut_len(&parts) == 0);
    CHECK(iobufsmut_capacity(&parts) == 0);
    CHECK(iobufsmut_part_count(&parts) == 1);
    CHECK(iobufsmut_put_u8(&parts, 1) == IOBUFS_OUT_OF_RANGE);
    CHECK(iobufsmut_chunk(&parts, &at) == 0);
    CHECK(at != NULL);
    OK(iobufmut_with_capacity(4, &buffer));
    iobufsmut_from_mut(&buffer, &parts);
    CHECK(iobufsmut_capacity(&parts) == 4);
    CHECK(iobufsmut_part_count(&parts) == 1);
    CHECK(iobufmut_capacity(&buffer) == 0);
    OK(iobufsmut_coalesce(&parts, &buffer));
    CHECK(iobufmut_capacity(&buffer) == 4);
    CHECK(iobufsmut_capacity(&parts) == 0);
    struct iobufmut_at row[2] = { buffer, none };
    OK(iobufsmut_from_parts(row, 2, &parts));
    CHECK(iobufsmut_capacity(&parts) == 4);
    CHECK(iobufsmut_part_count(&parts) == 1);
    OK(iobufsmut_from_parts(row, 0, &parts));
    CHECK(iobufsmut_capacity(&parts) == 0);
    CHECK(iobufsmut_part_count(&parts) == 1);
    iobufsmut_drop(&parts);
}

static void parts_put(void) {
    PARTS(parts);
    uint8_t *at = NULL;
    struct iobufs_iovec list[3];
    make_parts(&parts, 4, 2);
    CHECK(iobufsmut_remaining_mut(&parts) == 6);
    OK(iobufsmut_put_slice(&parts, bytes("abc"), 3));
    OK(iobufsmut_put_bytes(&parts, 'x', 2));
    OK(iobufsmut_put_u8(&parts, 'y'));
    CHECK(parts_are(&parts, "abcxxy"));
    CHECK(iobufsmut_put_u8(&parts, 'z') == IOBUFS_OUT_OF_RANGE);
    CHECK(iobufsmut_put_slice(&parts, bytes("z"), 1) == IOBUFS_OUT_OF_RANGE);
    CHECK(iobufsmut_put_bytes(&parts, 'z', 1) == IOBUFS_OUT_OF_RANGE);
    CHECK(iobufsmut_chunk(&parts, &at) == 4);
    CHECK(!memcmp(at, "abcx", 4));
    CHECK(iobufsmut_chunks(&parts, list, 3) == 2);
    CHECK(list[0].len == 4);
    CHECK(list[1].len == 2);
    CHECK(list[1].base[1] == 'y');
    CHECK(iobufsmut_chunks(&parts, list, 1) == 1);
    OK(iobufsmut_set_len(&parts, 0));
    OK(iobufsmut_put_slice(&parts, bytes("ABCDEF"), 6));
    CHECK(parts_are(&parts, "ABCDEF"));
    iobufsmut_drop(&parts); iobufsmut_drop(&parts);
}

static void parts_drain(void) {
    PARTS(parts); TEXT(text);
    uint8_t out[3];
    make_parts(&parts, 4, 2);
    OK(iobufsmut_put_slice(&parts, bytes("ABCDEF"), 6));
    OK(iobufsmut_copy_to_slice(&parts, out, 3));
    CHECK(!memcmp(out, "ABC", 3));
    CHECK(parts_are(&parts, "DEF"));
    CHECK(iobufsmut_advance(&parts, 4) == IOBUFS_OUT_OF_RANGE);
    OK(iobufsmut_advance(&parts, 2));
    CHECK(parts_are(&parts, "F"));
    CHECK(iobufsmut_copy_to_slice(&parts, out, 3) == IOBUFS_END_OF_BUFFER);
    CHECK(iobufsmut_set_len(&parts, 9) == IOBUFS_OUT_OF_RANGE);
    CHECK(parts_are(&parts, "F"));
    OK(iobufsmut_freeze(&parts, &text));
    CHECK(text_is(&text, "F"));
    CHECK(iobufsmut_capacity(&parts) == 0);
    OK(iobufsmut_freeze(&parts, &text));
    CHECK(text_is(&text, ""));
}

static void parts_coalesce(void) {
    PART(buffer); PARTS(parts);
    uint8_t *at = NULL;
    make_parts(&parts, 3, 3);
    OK(iobufsmut_set_len(&parts, 4));
    OK(iobufsmut_put_length(&parts, 5));
    CHECK(iobufsmut_put_length(&parts, 300) == IOBUFS_OUT_OF_RANGE);
    CHECK(iobufsmut_len(&parts) == 5);
    OK(iobufsmut_coalesce(&parts, &buffer));
    CHECK(iobufmut_chunk(&buffer, &at) == 5);
    CHECK(!memcmp(at, "\0\0\0\0\5", 5));
    CHECK(iobufmut_capacity(&buffer) == 5);
    iobufmut_drop(&buffer);
}

/* ---- iobufs_builder ---- */

static void builders(void) {
    BUILDER(builder); VIEW(hello); TEXT(text);
    HELLO(hello);
    OK(iobufs_builder_finish(&builder, &text));
    CHECK(text_is(&text, ""));
    OK(iobufs_builder_push(&builder, &hello)); /* an empty builder takes views, and no byte */
    CHECK(view_is(&hello, ""));
    CHECK(iobufs_builder_put_u8(&builder, 1) == IOBUFS_OUT_OF_RANGE);
    CHECK(iobufs_builder_remaining_mut(&builder) == 0);
    OK(iobufs_builder_finish(&builder, &text));
    CHECK(text_is(&text, "hello world"));
    HELLO(hello);
    CHECK(iobufs_builder_new(SIZE_MAX, &builder) == IOBUFS_BAD_LAYOUT);
    OK(iobufs_builder_new(6, &builder));
    OK(iobufs_builder_put_length(&builder, 11));
    OK(iobufs_builder_push(&builder, &hello));
    CHECK(view_is(&hello, ""));
    OK(iobufs_builder_push(&builder, &hello)); /* a view without bytes is no chunk */
    OK(iobufs_builder_put_slice(&builder, bytes("abc"), 3));
    OK(iobufs_builder_put_bytes(&builder, '-', 1));
    OK(iobufs_builder_put_u8(&builder, '.'));
    CHECK(iobufs_builder_remaining_mut(&builder) == 0);
    CHECK(iobufs_builder_put_slice(&builder, bytes("x"), 1) == IOBUFS_OUT_OF_RANGE);
    CHECK(iobufs_builder_put_bytes(&builder, 'x', 1) == IOBUFS_OUT_OF_RANGE);
    CHECK(iobufs_builder_put_length(&builder, 0) == IOBUFS_OUT_OF_RANGE);
    OK(iobufs_builder_finish(&builder, &text));
    CHECK(text_is(&text, "\13hello worldabc-."));
    CHECK(iobufs_chunk_count(&text) == 3);
    CHECK(iobufs_builder_remaining_mut(&builder) == 0);
    OK(iobufs_builder_new(6, &builder));
    iobufs_builder_drop(&builder); iobufs_builder_drop(&builder); iobufs_drop(&text);
}

/* ---- varint lengths ---- */

static void text_lengths(void) {
    TEXT(text); VIEW(view);
    size_t length = 77;
    CHECK(iobufs_read_length(&text, 0, 9, &length) == IOBUFS_END_OF_BUFFER);
    CHECK(length == 77);
    append_pieces(&text, "\xac|\x02\x03hi!\x80"); /* 300, cut in two; a frame; and half a length */
    CHECK(iobufs_read_length(&text, 0, 299, &length) == IOBUFS_INVALID_LENGTH);
    CHECK(length == 300);
    CHECK(iobufs_len(&text) == 7);
    OK(iobufs_read_length(&text, 0, 300, &length));
    CHECK(length == 300);
    CHECK(iobufs_len(&text) == 5);
    CHECK(iobufs_read_view(&text, 4, 9, &view) == IOBUFS_INVALID_LENGTH);
    OK(iobufs_read_view(&text, 0, 9, &view));
    CHECK(view_is(&view, "hi!"));
    CHECK(iobufs_len(&text) == 1);
    CHECK(iobufs_read_view(&text, 0, 9, &view) == IOBUFS_END_OF_BUFFER);
    iobufs_drop(&text); iobuf_drop(&view);
}

static void view_lengths(void) {
    VIEW(view); VIEW(body);
    size_t length = 77;
    CHECK(iobufs_length_size(0) == 1);
    CHECK(iobufs_length_size(127) == 1);
    CHECK(iobufs_length_size(128) == 2);
    CHECK(iobufs_length_size(SIZE_MAX) == 10);
    OK(iobuf_copy_from_slice(bytes("\x80\0"), 2, &view));
    CHECK(iobuf_read_length(&view, 0, 9, &length) == IOBUFS_INVALID_VARINT);
    CHECK(iobuf_len(&view) == 2);
    OK(iobuf_copy_from_slice(bytes("\x07z"), 2, &view));
    CHECK(iobuf_read_length(&view, 8, 9, &length) == IOBUFS_INVALID_LENGTH);
    CHECK(length == 7);
    OK(iobuf_read_length(&view, 7, 9, &length));
    CHECK(view_is(&view, "z"));
    CHECK(iobuf_read_length(&view, 0, 9, &length) == IOBUFS_INVALID_LENGTH);
    CHECK(length == 'z');
    OK(iobuf_copy_from_slice(bytes("\3hi!\4no"), 7, &view));
    CHECK(iobuf_read_view(&view, 4, 9, &body) == IOBUFS_INVALID_LENGTH);
    CHECK(iobuf_len(&view) == 7);
    OK(iobuf_read_view(&view, 0, 3, &body));
    CHECK(view_is(&body, "hi!"));
    CHECK(view_is(&view, "\4no"));
    CHECK(iobuf_read_view(&view, 0, 9, &body) == IOBUFS_END_OF_BUFFER);
    CHECK(view_is(&body, "hi!"));
    CHECK(view_is(&view, "\4no"));
    iobuf_drop(&view); iobuf_drop(&body);
}

/* ---- big-endian numbers: the bytes of TWO, FOUR and EIGHT count from 1 to 14 ---- */

#define TWO 0x0102
#define FOUR 0x03040506
#define EIGHT 0x0708090a0b0c0d0e

static void buffer_numbers(void) {
    static const uint8_t all[] = { 1, 2, 3, 4, 5, 6, 7, 8, 9, 10, 11, 12, 13, 14 };
    PART(buffer); VIEW(view);
    const uint8_t *at = NULL;
    uint8_t one = 0; uint16_t two = 0; uint32_t four = 0; uint64_t eight = 0;
    CHECK(iobufmut_put_u16(&buffer, 1) == IOBUFS_OUT_OF_RANGE);
    OK(iobufmut_with_capacity(15, &buffer));
    OK(iobufmut_put_u16(&buffer, TWO));
    OK(iobufmut_put_u32(&buffer, FOUR));
    OK(iobufmut_put_u64(&buffer, EIGHT));
    CHECK(iobufmut_put_u16(&buffer, 1) == IOBUFS_OUT_OF_RANGE);
    CHECK(iobufmut_put_u32(&buffer, 1) == IOBUFS_OUT_OF_RANGE);
    CHECK(iobufmut_put_u64(&buffer, 1) == IOBUFS_OUT_OF_RANGE);
    OK(iobufmut_freeze(&buffer, &view));
    CHECK(iobuf_chunk(&view, &at) == sizeof all);
    CHECK(!memcmp(at, all, sizeof all));
    OK(iobuf_get_u16(&view, &two));
    OK(iobuf_get_u32(&view, &four));
    OK(iobuf_get_u64(&view, &eight));
    CHECK(two == TWO);
    CHECK(four == FOUR);
    CHECK(eight == EIGHT);
    CHECK(iobufs_swap16(two) == 0x0201);
    CHECK(iobufs_swap32(four) == 0x06050403);
    CHECK(iobufs_swap64(eight) == 0x0e0d0c0b0a090807);
    CHECK(iobuf_get_u8(&view, &one) == IOBUFS_END_OF_BUFFER);
    CHECK(one == 0);
    OK(iobuf_copy_from_slice(bytes("\3hi"), 3, &view));
    CHECK(iobuf_get_u32(&view, &four) == IOBUFS_END_OF_BUFFER);
    CHECK(iobuf_get_u64(&view, &eight) == IOBUFS_END_OF_BUFFER);
    CHECK(iobuf_len(&view) == 3);
    OK(iobuf_get_u8(&view, &one));
    CHECK(one == 3);
    iobuf_drop(&view);
}

/* Parts of three bytes each: what is written to the addresses of a list, as readv does, is read after the first `gone`. */
static void check_read(size_t count, size_t gone) {
    PARTS(parts);
    struct iobufmut memory[5];
    struct iobufmut_at places[5];
    struct iobufs_iovec list[5];
    uint8_t got[15];
    size_t chunks = count - gone / 3, n = 3 * count - gone;
    for (size_t i = 0; i < count; i++) {
        places[i].at = &memory[i];
        iobufmut_init(places[i].at);
        OK(iobufmut_with_capacity(3, &places[i]));
    }
    OK(iobufsmut_from_parts(places, count, &parts));
    OK(iobufsmut_set_len(&parts, 3 * count));
    OK(iobufsmut_advance(&parts, gone));
    CHECK(iobufsmut_chunks(&parts, list, 5) == chunks);
    for (size_t i = 0; i < chunks; i++) memset((uint8_t *)list[i].base, 'a' + (int)i, list[i].len);
    OK(iobufsmut_copy_to_slice(&parts, got, n));
    CHECK(!memcmp(got, "aabbbcccdddeee", n));
    iobufsmut_drop(&parts);
}

static void parts_read(void) {
    for (size_t count = 1; count <= 5; count++) {
        check_read(count, 1);
        if (count > 1) check_read(count, 4);
    }
}

/* Numbers that are cut by the ends of parts, and then of chunks. */
static void parts_numbers(void) {
    PARTS(parts); TEXT(text);
    uint8_t one = 0; uint16_t two = 0; uint32_t four = 0; uint64_t eight = 0;
    CHECK(iobufsmut_put_u32(&parts, 1) == IOBUFS_OUT_OF_RANGE);
    make_parts(&parts, 5, 10);
    OK(iobufsmut_put_u16(&parts, TWO));
    OK(iobufsmut_put_u32(&parts, FOUR));
    OK(iobufsmut_put_u64(&parts, EIGHT));
    CHECK(iobufsmut_put_u16(&parts, 1) == IOBUFS_OUT_OF_RANGE);
    CHECK(iobufsmut_put_u64(&parts, 1) == IOBUFS_OUT_OF_RANGE);
    OK(iobufsmut_freeze(&parts, &text));
    CHECK(iobufs_chunk_count(&text) == 2);
    OK(iobufs_get_u8(&text, &one));
    OK(iobufs_get_u16(&text, &two));
    OK(iobufs_get_u32(&text, &four));
    CHECK(one == 1);
    CHECK(two == 0x0203);
    CHECK(four == 0x04050607);
    CHECK(iobufs_get_u64(&text, &eight) == IOBUFS_END_OF_BUFFER);
    CHECK(iobufs_len(&text) == 7);
    iobufs_drop(&text);
}

static void builder_numbers(void) {
    BUILDER(builder); TEXT(text);
    uint64_t eight = 0;
    CHECK(iobufs_builder_put_u64(&builder, 1) == IOBUFS_OUT_OF_RANGE);
    OK(iobufs_builder_new(15, &builder));
    OK(iobufs_builder_put_u16(&builder, TWO));
    OK(iobufs_builder_put_u32(&builder, FOUR));
    OK(iobufs_builder_put_u64(&builder, EIGHT));
    CHECK(iobufs_builder_put_u16(&builder, 1) == IOBUFS_OUT_OF_RANGE);
    CHECK(iobufs_builder_put_u32(&builder, 1) == IOBUFS_OUT_OF_RANGE);
    OK(iobufs_builder_finish(&builder, &text));
    OK(iobufs_get_u64(&text, &eight));
    CHECK(eight == 0x0102030405060708);
    CHECK(iobufs_len(&text) == 6);
    iobufs_drop(&text);
}

/* COUNTED are the bytes of these numbers, of which the highest is the first. */
static const uint8_t counted[] = { 1, 2, 3, 4, 5, 6, 7, 8 };
#define COUNTED_8 0x01
#define COUNTED_16 0x0102
#define COUNTED_32 0x01020304
#define COUNTED_64 0x0102030405060708

/* Buffers with space for n bytes, and those that hold n of the counted ones. */
static void part_for(struct iobufmut_at *part, size_t n) { OK(iobufmut_with_capacity(n, part)); }
static void parts_for(struct iobufsmut_at *parts, size_t n) {
    PART(part);
    part_for(&part, n);
    iobufsmut_from_mut(&part, parts);
}
static void builder_for(struct iobufs_builder_at *builder, size_t n) { OK(iobufs_builder_new(n, builder)); }
static void view_with(struct iobuf_at *view, size_t n) { OK(iobuf_copy_from_slice(counted, n, view)); }
static void text_with(struct iobufs_at *text, size_t n) {
    VIEW(first); VIEW(second);
    OK(iobuf_copy_from_slice(counted, n / 2, &first));
    OK(iobuf_copy_from_slice(counted + n / 2, n - n / 2, &second));
    iobufs_from_view(&first, text);
    OK(iobufs_append(text, &second));
}
/* Whether a buffer held just n of the counted bytes. It is dropped. */
static int part_counts(struct iobufmut_at *part, size_t n) {
    uint8_t *at;
    int is = iobufmut_chunk(part, &at) == n && !memcmp(at, counted, n);
    iobufmut_drop(part);
    return is;
}
static int parts_count(struct iobufsmut_at *parts, size_t n) {
    PART(part);
    OK(iobufsmut_coalesce(parts, &part));
    return part_counts(&part, n);
}
static int builder_counts(struct iobufs_builder_at *builder, size_t n) {
    TEXT(text); VIEW(view); PART(part);
    OK(iobufs_builder_finish(builder, &text));
    OK(iobufs_try_into_single(&text, &view));
    OK(iobufmut_from_view(&view, &part));
    return part_counts(&part, n);
}

/* A call puts a number if there is space for all its bytes. */
#define PUTS(put, HANDLE, space_for, counts, bits) do { \
    HANDLE(it); \
    CHECK(put##bits(&it, COUNTED_##bits) == IOBUFS_OUT_OF_RANGE); \
    space_for(&it, bits / 8 - 1); \
    CHECK(put##bits(&it, COUNTED_##bits) == IOBUFS_OUT_OF_RANGE); \
    CHECK(counts(&it, 0)); \
    space_for(&it, bits / 8); \
    OK(put##bits(&it, COUNTED_##bits)); \
    CHECK(counts(&it, bits / 8)); \
} while (0)
/* A call reads a number if all its bytes are there, and leaves the others. */
#define GETS(get, HANDLE, with, len, drop, bits) do { \
    HANDLE(it); \
    uint##bits##_t n = 99; \
    CHECK(get##bits(&it, &n) == IOBUFS_END_OF_BUFFER); \
    with(&it, bits / 8 - 1); \
    CHECK(get##bits(&it, &n) == IOBUFS_END_OF_BUFFER); \
    CHECK(n == 99); \
    CHECK(len(&it) == bits / 8 - 1); \
    with(&it, bits / 8); \
    OK(get##bits(&it, &n)); \
    CHECK(n == COUNTED_##bits); \
    CHECK(len(&it) == 0); \
    drop(&it); \
} while (0)

static void inline_numbers(void) {
    PUTS(iobufmut_put_u, PART, part_for, part_counts, 16);
    PUTS(iobufmut_put_u, PART, part_for, part_counts, 32);
    PUTS(iobufmut_put_u, PART, part_for, part_counts, 64);
    PUTS(iobufsmut_put_u, PARTS, parts_for, parts_count, 16);
    PUTS(iobufsmut_put_u, PARTS, parts_for, parts_count, 32);
    PUTS(iobufsmut_put_u, PARTS, parts_for, parts_count, 64);
    PUTS(iobufs_builder_put_u, BUILDER, builder_for, builder_counts, 16);
    PUTS(iobufs_builder_put_u, BUILDER, builder_for, builder_counts, 32);
    PUTS(iobufs_builder_put_u, BUILDER, builder_for, builder_counts, 64);
    GETS(iobuf_get_u, VIEW, view_with, iobuf_len, iobuf_drop, 8);
    GETS(iobuf_get_u, VIEW, view_with, iobuf_len, iobuf_drop, 16);
    GETS(iobuf_get_u, VIEW, view_with, iobuf_len, iobuf_drop, 32);
    GETS(iobuf_get_u, VIEW, view_with, iobuf_len, iobuf_drop, 64);
    GETS(iobufs_get_u, TEXT, text_with, iobufs_len, iobufs_drop, 8);
    GETS(iobufs_get_u, TEXT, text_with, iobufs_len, iobufs_drop, 16);
    GETS(iobufs_get_u, TEXT, text_with, iobufs_len, iobufs_drop, 32);
    GETS(iobufs_get_u, TEXT, text_with, iobufs_len, iobufs_drop, 64);
}

/* Each size with each order; of those that are known, the lowest bytes are put, and read back. */
static void number_of_size(uint8_t size, uint8_t order) {
    static const uint64_t number = 0xf1f2f3f4f5f6f7f8;
    PART(part); PARTS(parts); BUILDER(builder); VIEW(view); VIEW(view_of_parts); TEXT(text); TEXT(built);
    const int known = order <= IOBUFS_LE && (size == 1 || size == 2 || size == 4 || size == 8);
    const iobufs_status wanted = known ? IOBUFS_OK : IOBUFS_BAD_KIND;
    const uint64_t lowest = size < 8 ? number & ((UINT64_C(1) << (8 * size)) - 1) : number;
    uint64_t read = 99, read_of_text = 99;
    const uint8_t *at;
    part_for(&part, 8); parts_for(&parts, 8); builder_for(&builder, 8);
    CHECK(iobufmut_put_number(&part, number, size, order) == wanted);
    CHECK(iobufsmut_put_number(&parts, number, size, order) == wanted);
    CHECK(iobufs_builder_put_number(&builder, number, size, order) == wanted);
    OK(iobufmut_freeze(&part, &view));
    OK(iobufsmut_freeze(&parts, &text));
    OK(iobufs_builder_finish(&builder, &built));
    CHECK(iobuf_chunk(&view, &at) == (known ? size : 0));
    for (uint8_t i = 0; known && i < size; i++) CHECK(at[order == IOBUFS_LE ? i : size - 1 - i] == 0xf8 - i);
    CHECK(iobufs_eq(&text, &built));
    OK(iobufs_take(&text, iobufs_len(&text), &view_of_parts));
    CHECK(iobuf_eq(&view, &view_of_parts));
    CHECK(iobuf_get_number(&view, size, order, &read) == wanted);
    CHECK(iobufs_get_number(&built, size, order, &read_of_text) == wanted);
    CHECK(read == (known ? lowest : 99));
    CHECK(read_of_text == (known ? lowest : 99));
    CHECK(iobuf_get_number(&view, size, order, &read) == (known ? IOBUFS_END_OF_BUFFER : IOBUFS_BAD_KIND));
    CHECK(iobufs_get_number(&built, size, order, &read) == (known ? IOBUFS_END_OF_BUFFER : IOBUFS_BAD_KIND));
    CHECK(iobufmut_put_number(&part, number, size, order) == (known ? IOBUFS_OUT_OF_RANGE : IOBUFS_BAD_KIND));
    CHECK(iobufsmut_put_number(&parts, number, size, order) == (known ? IOBUFS_OUT_OF_RANGE : IOBUFS_BAD_KIND));
    CHECK(iobufs_builder_put_number(&builder, number, size, order) == (known ? IOBUFS_OUT_OF_RANGE : IOBUFS_BAD_KIND));
    iobuf_drop(&view); iobuf_drop(&view_of_parts); iobufs_drop(&built);
}

static void numbers_of_sizes(void) {
    for (unsigned size = 0; size <= UINT8_MAX; size++)
        for (unsigned order = 0; order <= 3; order++) number_of_size((uint8_t)size, (uint8_t)order);
    number_of_size(4, UINT8_MAX);
}

/* ---- iobufs_frames and iobufs_received ---- */

static void frames(void) {
    FRAMES(fed); VIEW(body); TEXT(rest);
    size_t wrong = 0;
    CHECK(iobufs_frames_len(&fed) == 0);
    CHECK(iobufs_frames_next(&fed, 0, 9, &body, &wrong) == IOBUFS_END_OF_BUFFER);
    OK(iobuf_copy_from_slice(bytes("\5hel"), 4, &body));
    OK(iobufs_frames_feed(&fed, &body));
    CHECK(view_is(&body, ""));
    CHECK(iobufs_frames_next(&fed, 0, 9, &body, &wrong) == IOBUFS_END_OF_BUFFER);
    CHECK(iobufs_frames_len(&fed) == 4);
    CHECK(iobufs_frames_next(&fed, 0, 4, &body, &wrong) == IOBUFS_INVALID_LENGTH);
    CHECK(wrong == 5);
    OK(iobuf_copy_from_slice(bytes("lo\0x"), 4, &body));
    OK(iobufs_frames_feed(&fed, &body));
    OK(iobufs_frames_next(&fed, 0, 9, &body, &wrong));
    CHECK(view_is(&body, "hello"));
    OK(iobufs_frames_next(&fed, 0, 9, &body, &wrong));
    CHECK(view_is(&body, ""));
    CHECK(iobufs_frames_len(&fed) == 1);
    OK(iobufs_frames_rest(&fed, &rest));
    CHECK(text_is(&rest, "x"));
    iobufs_frames_drop(&fed); iobufs_frames_drop(&fed); iobufs_drop(&rest); iobuf_drop(&body);
    CHECK(iobufs_frames_len(&fed) == 0);
}

static void received_of_none(void) {
    RECEIVED(none); VIEW(body);
    uint8_t *at = NULL;
    size_t space = 7, wrong = 0;
    CHECK(iobufs_received_len(&none) == 0);
    CHECK(iobufs_received_filled(&none, 1) == IOBUFS_OUT_OF_RANGE);
    CHECK(iobufs_received_next(&none, 0, 9, &body, &wrong) == IOBUFS_END_OF_BUFFER);
    OK(iobufs_received_filled(&none, 0));
    CHECK(iobufs_received_new(10, &none) == IOBUFS_BAD_KIND);
    CHECK(iobufs_received_new(255, &none) == IOBUFS_BAD_KIND);
    OK(iobufs_received_space(&none, &at, &space));
    CHECK(space != 7 && space > 0);
    receive(&none, "\2hi", 3); /* its lengths are varints */
    OK(iobufs_received_next(&none, 0, 9, &body, &wrong));
    CHECK(view_is(&body, "hi"));
    iobufs_received_drop(&none); iobuf_drop(&body);
}

/* No contract says where the space is, and that bytes that are written there are received. */
static void received_space(void) {
    RECEIVED(block); VIEW(body);
    uint8_t *at = NULL, *again = NULL;
    const uint8_t *taken = NULL;
    size_t space = 0, more = 0, wrong = 0;
    OK(iobufs_received_new(IOBUFS_VARINT, &block));
    CHECK(iobufs_received_filled(&block, 1) == IOBUFS_OUT_OF_RANGE); /* none was lent */
    OK(iobufs_received_space(&block, &at, &space));
    CHECK(space >= 12);
    CHECK(at[0] == 0);
    CHECK(at[space - 1] == 0);
    CHECK(iobufs_received_len(&block) == 0);
    memcpy(at, "\5helloX", 7);
    CHECK(iobufs_received_filled(&block, space + 1) == IOBUFS_OUT_OF_RANGE);
    CHECK(iobufs_received_filled(&block, SIZE_MAX) == IOBUFS_OUT_OF_RANGE);
    CHECK(iobufs_received_len(&block) == 0);
    OK(iobufs_received_filled(&block, 4));
    CHECK(iobufs_received_len(&block) == 4);
    CHECK(iobufs_received_next(&block, 0, 9, &body, &wrong) == IOBUFS_END_OF_BUFFER);
    CHECK(iobufs_received_next(&block, 0, 4, &body, &wrong) == IOBUFS_INVALID_LENGTH);
    CHECK(wrong == 5);
    CHECK(iobufs_received_len(&block) == 4);
    OK(iobufs_received_space(&block, &again, &more));
    CHECK(again == at + 4);
    CHECK(more == space - 4);
    OK(iobufs_received_filled(&block, 2));
    OK(iobufs_received_next(&block, 5, 5, &body, &wrong));
    CHECK(view_is(&body, "hello"));
    CHECK(iobuf_chunk(&body, &taken) == 5);
    CHECK(taken == at + 1);
    CHECK(iobufs_received_len(&block) == 0);
    iobufs_received_drop(&block); iobuf_drop(&body);
}

static void received_frames(void) {
    RECEIVED(block); VIEW(first); VIEW(second);
    size_t wrong = 0;
    OK(iobufs_received_new(IOBUFS_VARINT, &block));
    receive(&block, "\5hello", 6);
    OK(iobufs_received_next(&block, 0, 9, &first, &wrong));
    CHECK(view_is(&first, "hello"));
    receive(&block, "\0\2hi\x80\0", 6);
    OK(iobufs_received_next(&block, 0, 9, &second, &wrong));
    CHECK(view_is(&second, ""));
    OK(iobufs_received_next(&block, 0, 9, &second, &wrong));
    CHECK(view_is(&second, "hi"));
    CHECK(view_is(&first, "hello"));
    CHECK(iobufs_received_next(&block, 0, 9, &second, &wrong) == IOBUFS_INVALID_VARINT);
    CHECK(iobufs_received_len(&block) == 2);
    CHECK(view_is(&second, "hi"));
    iobufs_received_drop(&block); iobufs_received_drop(&block);
    CHECK(iobufs_received_len(&block) == 0);
    CHECK(view_is(&first, "hello"));
    iobuf_drop(&first); iobuf_drop(&second);
}

/* ---- prefixes ---- */

/* A frame: a head, and the body "abc". */
struct prefix_case { uint8_t prefix; const char *bytes; size_t n; };

static void check_head(const struct prefix_case *frame) {
    uint8_t head[10];
    size_t n = 99, other = 99;
    OK(iobufs_frames_length(frame->prefix, 3, head, sizeof head, &n));
    CHECK(n == frame->n - 3);
    CHECK(!memcmp(head, frame->bytes, n));
    CHECK(iobufs_frames_length(frame->prefix, 4, head, n - 1, &other) == IOBUFS_OUT_OF_RANGE);
    CHECK(!memcmp(head, frame->bytes, n));
    CHECK(other == 99);
}

/* `fed` and `read` hold nothing, before and after. */
static void check_frame(const struct prefix_case *frame, struct iobufs_frames_at *fed,
                        struct iobufs_received_at *read) {
    VIEW(body);
    size_t wrong = 0;
    OK(iobufs_received_new(frame->prefix, read));
    receive(read, frame->bytes, frame->n);
    OK(iobufs_received_next(read, 0, 3, &body, &wrong));
    CHECK(view_is(&body, "abc"));
    CHECK(iobufs_received_len(read) == 0);
    OK(iobufs_frames_set_prefix(fed, frame->prefix));
    OK(iobuf_copy_from_slice(bytes(frame->bytes), frame->n, &body));
    OK(iobufs_frames_feed(fed, &body));
    CHECK(iobufs_frames_next(fed, 0, 2, &body, &wrong) == IOBUFS_INVALID_LENGTH);
    CHECK(wrong == 3);
    OK(iobufs_frames_next(fed, 0, 3, &body, &wrong));
    CHECK(view_is(&body, "abc"));
    CHECK(iobufs_frames_len(fed) == 0);
    iobuf_drop(&body);
}

static void prefixes(void) {
    static const struct prefix_case cases[] = {
        { IOBUFS_VARINT, "\3abc", 4 },
        { IOBUFS_U8, "\3abc", 4 },
        { IOBUFS_U16_BE, "\0\3abc", 5 },
        { IOBUFS_U24_BE, "\0\0\3abc", 6 },
        { IOBUFS_U32_BE, "\0\0\0\3abc", 7 },
        { IOBUFS_U64_BE, "\0\0\0\0\0\0\0\3abc", 11 },
        { IOBUFS_U16_LE, "\3\0abc", 5 },
        { IOBUFS_U24_LE, "\3\0\0abc", 6 },
        { IOBUFS_U32_LE, "\3\0\0\0abc", 7 },
        { IOBUFS_U64_LE, "\3\0\0\0\0\0\0\0abc", 11 },
    };
    FRAMES(fed); RECEIVED(read);
    for (size_t i = 0; i < sizeof cases / sizeof *cases; i++) {
        check_head(&cases[i]);
        check_frame(&cases[i], &fed, &read);
    }
    CHECK(iobufs_frames_set_prefix(&fed, 10) == IOBUFS_BAD_KIND);
    CHECK(iobufs_frames_set_prefix(&fed, 255) == IOBUFS_BAD_KIND);
    iobufs_frames_drop(&fed); iobufs_received_drop(&read);
}

/* Lengths that a prefix can't write, and the longest that a varint can. */
static void long_heads(void) {
    uint8_t head[10];
    size_t n = 99;
    CHECK(iobufs_frames_length(10, 0, head, sizeof head, &n) == IOBUFS_BAD_KIND);
    CHECK(iobufs_frames_length(IOBUFS_U8, 256, head, sizeof head, &n) == IOBUFS_TOO_LONG);
    CHECK(iobufs_frames_length(IOBUFS_U24_LE, 1 << 24, head, sizeof head, &n) == IOBUFS_TOO_LONG);
    CHECK(n == 99);
    OK(iobufs_frames_length(IOBUFS_VARINT, SIZE_MAX, head, sizeof head, &n));
    CHECK(n == 10);
    CHECK(head[9] == 1);
}

static void statuses(void) {
    static const struct { iobufs_status status; const char *text; } told[] = {
        { IOBUFS_OK, "done" },
        { IOBUFS_MEMORY, "an allocation failed" },
        { IOBUFS_BAD_LAYOUT, "capacity too large" },
        { IOBUFS_TOO_LONG, "lengths or capacities add up to too much" },
        { IOBUFS_OUT_OF_RANGE, "outside the bytes or the space" },
        { IOBUFS_END_OF_BUFFER, "fewer bytes remain" },
        { IOBUFS_INVALID_VARINT, "invalid varint" },
        { IOBUFS_INVALID_LENGTH, "length outside the range" },
        { IOBUFS_DECLINED, "the buffer can't be converted" },
        { IOBUFS_BAD_KIND, "unknown kind, size or order" },
        { 10, "no status" },
        { 255, "no status" },
    };
    for (size_t i = 0; i < sizeof told / sizeof *told; i++) CHECK(!strcmp(iobufs_strerror(told[i].status), told[i].text));
}

int main(void) {
    sizes();
    view_clones(); view_cuts(); view_slices(); view_copies_out(); lent(); moved();
    views_in_place(); texts_in_place();
    buffer_of_none(); buffer_puts(); buffer_writes(); buffer_drains(); buffer_freezes(); buffer_from_views();
    text_chunks(); text_lists(); text_slices(); text_truncates(); text_cuts(); text_copies_out(); text_takes();
    text_single(); text_append_all();
    parts_of_few(); parts_put(); parts_read(); parts_drain(); parts_coalesce();
    builders();
    text_lengths(); view_lengths();
    buffer_numbers(); parts_numbers(); builder_numbers(); inline_numbers(); numbers_of_sizes();
    frames(); received_of_none(); received_space(); received_frames();
    prefixes(); long_heads(); statuses();
    return 0;
}
