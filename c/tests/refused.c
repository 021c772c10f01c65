/*
 * Every call that may ask for memory, with its first request refused, then its second, and so on until none is: the
 * status is IOBUFS_MEMORY, what the header says stays, and every block is given back. Linked with --wrap=malloc,
 * --wrap=calloc, --wrap=realloc and --wrap=free, which count blocks and refuse.
 */
#include "test.h"

void *__real_malloc(size_t);
void *__real_calloc(size_t, size_t);
void *__real_realloc(void *, size_t);
void __real_free(void *);
void *__wrap_malloc(size_t);
void *__wrap_calloc(size_t, size_t);
void *__wrap_realloc(void *, size_t);
void __wrap_free(void *);

static long blocks, requests, refuse_at; /* refuse_at is 0 while nothing is refused */

static int refuses(void) { return ++requests == refuse_at; }
void *__wrap_malloc(size_t n) {
    if (refuses()) return NULL;
    blocks++;
    return __real_malloc(n);
}
void *__wrap_calloc(size_t n, size_t size) {
    if (refuses()) return NULL;
    blocks++;
    return __real_calloc(n, size);
}
void *__wrap_realloc(void *old, size_t n) {
    if (refuses()) return NULL;
    blocks += old == NULL;
    return __real_realloc(old, n);
}
void __wrap_free(void *old) {
    blocks -= old != NULL;
    __real_free(old);
}

/* The bytes of `text`, a frame and four bytes more; of `view` and `shared`, a frame; and of `out_view`. */
#define TEXT_BYTES "\5abcdefghi"
#define VIEW_BYTES "\3abc"
#define OLD_BYTES "old"
enum { TEXT_LEN = sizeof TEXT_BYTES - 1, VIEW_LEN = sizeof VIEW_BYTES - 1, OLD_LEN = sizeof OLD_BYTES - 1 };

/* Each case is given these, filled again for every refusal. `frames` was fed TEXT_BYTES, `received` got VIEW_BYTES, and
 * `fresh` nothing; `builder` has put all that fits; `out_text` is empty. */
struct made {
    struct iobuf_at view, out_view, shared;
    struct iobufmut_at part, out_part;
    struct iobufs_at text, out_text;
    struct iobufsmut_at parts;
    struct iobufs_builder_at builder;
    struct iobufs_frames_at frames;
    struct iobufs_received_at received, fresh;
};

typedef iobufs_status run(struct made *);
typedef void kept(struct made *);

static iobufs_status copy(struct made *m) { return iobuf_copy_from_slice(bytes("abc"), 3, &m->out_view); }
static iobufs_status with_capacity(struct made *m) { return iobufmut_with_capacity(9, &m->out_part); }
static iobufs_status zeroed(struct made *m) { return iobufmut_zeroed(9, &m->out_part); }
static iobufs_status part_copy(struct made *m) { return iobufmut_copy_from_slice(bytes("abc"), 3, &m->out_part); }
static iobufs_status from_view(struct made *m) { return iobufmut_from_view(&m->shared, &m->out_part); }
static iobufs_status freeze(struct made *m) { return iobufmut_freeze(&m->part, &m->out_view); }
static iobufs_status clone(struct made *m) { return iobuf_clone(&m->view, &m->out_view); }
static iobufs_status split(struct made *m) { return iobuf_split_to(&m->view, 1, &m->out_view); }
static iobufs_status slice(struct made *m) {
    return iobuf_slice(&m->view, IOBUFS_INCLUDED, 1, IOBUFS_UNBOUNDED, 0, &m->out_view);
}
static iobufs_status text_clone(struct made *m) { return iobufs_clone(&m->text, &m->out_text); }
static iobufs_status append(struct made *m) { return iobufs_append(&m->text, &m->view); }
static iobufs_status prepend(struct made *m) { return iobufs_prepend(&m->text, &m->view); }
static iobufs_status append_all(struct made *m) { return iobufs_append_all(&m->out_text, &m->text); }
static iobufs_status text_split(struct made *m) { return iobufs_split_to(&m->text, 4, &m->out_text); }
static iobufs_status text_slice(struct made *m) { return iobufs_slice(&m->text, 1, 5, &m->out_text); }
static iobufs_status text_truncate(struct made *m) { return iobufs_truncate(&m->text, 5); }
static iobufs_status text_take(struct made *m) { return iobufs_take(&m->text, 5, &m->out_view); }
static iobufs_status text_take_after(struct made *m) { return iobufs_take_after(&m->text, 1, 5, &m->out_view); }
static iobufs_status coalesce(struct made *m) { return iobufs_coalesce(&m->text, &m->out_view); }
static iobufs_status parts_freeze(struct made *m) { return iobufsmut_freeze(&m->parts, &m->out_text); }
static iobufs_status parts_coalesce(struct made *m) { return iobufsmut_coalesce(&m->parts, &m->out_part); }
static iobufs_status from_parts(struct made *m) {
    struct iobufmut_at row[2] = { m->part, m->out_part };
    struct iobufsmut memory;
    struct iobufsmut_at out = { &memory };
    iobufsmut_init(out.at);
    iobufs_status status = iobufsmut_from_parts(row, 2, &out);
    iobufsmut_drop(&out);
    return status;
}

static iobufs_status builder_new(struct made *m) { return iobufs_builder_new(9, &m->builder); }
static iobufs_status push(struct made *m) { return iobufs_builder_push(&m->builder, &m->view); }
static iobufs_status finish(struct made *m) { return iobufs_builder_finish(&m->builder, &m->out_text); }
static iobufs_status feed(struct made *m) { return iobufs_frames_feed(&m->frames, &m->view); }
static iobufs_status next(struct made *m) {
    size_t wrong;
    return iobufs_frames_next(&m->frames, 0, 99, &m->out_view, &wrong);
}
static iobufs_status next_whole(struct made *m) {
    size_t header, wrong;
    return iobufs_frames_next_whole(&m->frames, 0, 99, &m->out_text, &header, &wrong);
}
static iobufs_status rest(struct made *m) { return iobufs_frames_rest(&m->frames, &m->out_text); }
static iobufs_status space(struct made *m) { uint8_t *at; size_t n; return iobufs_received_space(&m->fresh, &at, &n); }
static iobufs_status received(struct made *m) {
    size_t wrong;
    return iobufs_received_next(&m->received, 0, 99, &m->out_view, &wrong);
}
static iobufs_status received_whole(struct made *m) {
    size_t header, wrong;
    return iobufs_received_next_whole(&m->received, 0, 99, &m->out_view, &header, &wrong);
}
static iobufs_status read_view(struct made *m) { return iobufs_read_view(&m->text, 0, 99, &m->out_view); }
static iobufs_status view_read(struct made *m) { return iobuf_read_view(&m->view, 0, 99, &m->out_view); }

static void shared_stays(struct made *m) { CHECK(view_is(&m->shared, VIEW_BYTES)); }
static void view_stays(struct made *m) {
    CHECK(view_is(&m->view, VIEW_BYTES));
    CHECK(view_is(&m->out_view, OLD_BYTES));
}
static void text_stays(struct made *m) {
    CHECK(text_is(&m->text, TEXT_BYTES));
    CHECK(text_is(&m->out_text, ""));
    view_stays(m);
}
/* Both, in order, hold the bytes that one of them held. */
static void both_stay(struct made *m) {
    uint8_t all[TEXT_LEN];
    size_t n = iobufs_len(&m->out_text);
    CHECK(n <= TEXT_LEN);
    CHECK(iobufs_len(&m->text) == TEXT_LEN - n);
    OK(iobufs_peek(&m->out_text, 0, all, n));
    OK(iobufs_peek(&m->text, 0, all + n, TEXT_LEN - n));
    CHECK(!memcmp(all, TEXT_BYTES, TEXT_LEN));
}
static void builder_stays(struct made *m) {
    CHECK(iobufs_builder_remaining_mut(&m->builder) == 0);
    CHECK(view_is(&m->view, VIEW_BYTES));
}
static void frames_stay(struct made *m) {
    CHECK(iobufs_frames_len(&m->frames) == TEXT_LEN);
    view_stays(m);
}
static void received_stays(struct made *m) {
    CHECK(iobufs_received_len(&m->received) == VIEW_LEN);
    CHECK(iobufs_received_len(&m->fresh) == 0);
    CHECK(view_is(&m->out_view, OLD_BYTES));
}
/* No promise is made of what is left: nothing is compared. */
static void given_up(struct made *m) { (void)m; }

static const struct { const char *name; run *call; kept *stays; } cases[] = {
    { "copy", copy, view_stays },
    { "with_capacity", with_capacity, given_up },
    { "zeroed", zeroed, given_up },
    { "part copy", part_copy, given_up },
    { "from_view", from_view, shared_stays },
    { "freeze", freeze, given_up },
    { "clone", clone, view_stays },
    { "split_to", split, view_stays },
    { "slice", slice, view_stays },
    { "text clone", text_clone, text_stays },
    { "append", append, text_stays },
    { "prepend", prepend, text_stays },
    { "append_all", append_all, both_stay },
    { "text split_to", text_split, text_stays },
    { "text slice", text_slice, text_stays },
    { "text truncate", text_truncate, text_stays },
    { "text take", text_take, text_stays },
    { "text take_after", text_take_after, text_stays },
    { "coalesce", coalesce, given_up },
    { "parts freeze", parts_freeze, given_up },
    { "parts coalesce", parts_coalesce, given_up },
    { "from_parts", from_parts, given_up },
    { "builder", builder_new, builder_stays },
    { "push", push, builder_stays },
    { "finish", finish, given_up },
    { "feed", feed, frames_stay },
    { "next", next, frames_stay },
    { "next_whole", next_whole, frames_stay },
    { "rest", rest, frames_stay },
    { "space", space, received_stays },
    { "received next", received, received_stays },
    { "received next_whole", received_whole, received_stays },
    { "read_view", read_view, text_stays },
    { "view read_view", view_read, view_stays },
};

/* Appends TEXT_BYTES in four pieces to a text, and feeds the same to frames. */
static void fill_pieces(struct iobufs_at *text, struct iobufs_frames_at *frames) {
    static const size_t ends[] = { 3, 6, 7, TEXT_LEN };
    VIEW(piece);
    for (size_t i = 0, at = 0; i < sizeof ends / sizeof *ends; at = ends[i++]) {
        OK(iobuf_copy_from_slice(bytes(TEXT_BYTES) + at, ends[i] - at, &piece));
        OK(iobufs_append(text, &piece));
        OK(iobuf_copy_from_slice(bytes(TEXT_BYTES) + at, ends[i] - at, &piece));
        OK(iobufs_frames_feed(frames, &piece));
    }
    CHECK(text_is(text, TEXT_BYTES));
    CHECK(iobufs_chunk_count(text) == sizeof ends / sizeof *ends);
}

/* Fills the writable buffers: `parts` with seven bytes in two, `part` with three, and `out_part` with none. */
static void fill_parts(struct made *m) {
    OK(iobufmut_with_capacity(3, &m->part));
    OK(iobufmut_with_capacity(5, &m->out_part));
    struct iobufmut_at row[2] = { m->part, m->out_part };
    OK(iobufsmut_from_parts(row, 2, &m->parts));
    OK(iobufsmut_set_len(&m->parts, 7));
    OK(iobufmut_copy_from_slice(bytes("xyz"), 3, &m->part));
    OK(iobufmut_with_capacity(5, &m->out_part));
}

/* Fills all that a case is given, of which all handles are empty; `other` shares the block of m->shared then, so that a
 * writable buffer of that is a copy. */
static void fill(struct made *m, struct iobuf_at *other) {
    OK(iobuf_copy_from_slice(bytes(VIEW_BYTES), VIEW_LEN, &m->view));
    OK(iobuf_copy_from_slice(bytes(VIEW_BYTES), VIEW_LEN, &m->shared));
    OK(iobuf_clone(&m->shared, other));
    OK(iobuf_copy_from_slice(bytes(OLD_BYTES), OLD_LEN, &m->out_view));
    fill_parts(m);
    fill_pieces(&m->text, &m->frames);
    OK(iobufs_builder_new(1, &m->builder));
    OK(iobufs_builder_put_u8(&m->builder, 1));
    OK(iobufs_received_new(IOBUFS_VARINT, &m->fresh));
    OK(iobufs_received_new(IOBUFS_VARINT, &m->received));
    receive(&m->received, VIEW_BYTES, VIEW_LEN);
}

static void drop_all(struct made *m) {
    iobuf_drop(&m->view); iobuf_drop(&m->out_view); iobuf_drop(&m->shared);
    iobufmut_drop(&m->part); iobufmut_drop(&m->out_part);
    iobufs_drop(&m->text); iobufs_drop(&m->out_text);
    iobufsmut_drop(&m->parts);
    iobufs_builder_drop(&m->builder);
    iobufs_frames_drop(&m->frames);
    iobufs_received_drop(&m->received); iobufs_received_drop(&m->fresh);
}

/* One case with its request number `refusal` refused; answers whether it made so many. */
static int refused(run *call, kept *stays, long refusal) {
    VIEW(view); VIEW(out_view); VIEW(shared); VIEW(other);
    PART(part); PART(out_part);
    TEXT(text); TEXT(out_text);
    PARTS(parts); BUILDER(builder); FRAMES(frames);
    RECEIVED(received); RECEIVED(fresh);
    struct made m = { view, out_view, shared, part, out_part, text, out_text, parts, builder, frames, received, fresh };
    fill(&m, &other);
    requests = 0;
    refuse_at = refusal;
    iobufs_status status = call(&m);
    refuse_at = 0;
    int was = requests >= refusal;
    CHECK(status == (was ? IOBUFS_MEMORY : IOBUFS_OK));
    if (was) stays(&m);
    drop_all(&m);
    iobuf_drop(&other);
    CHECK(blocks == 0);
    return was;
}

int main(void) {
    long all = 0;
    for (size_t i = 0; i < sizeof cases / sizeof *cases; i++) {
        long refusals = 0;
        while (refused(cases[i].call, cases[i].stays, refusals + 1)) refusals++;
        all += refusals;
        fprintf(stderr, "%s: %ld refused\n", cases[i].name, refusals);
    }
    CHECK(all >= 20); /* else the calls don't come here: they aren't linked with --wrap */
    return 0;
}
