/*
 * Random calls beside a plain model: bytes in arrays, blocks as counts of their holders. Every status, every length,
 * every byte, and which views can be written again has to agree. The seed is fixed; the arguments are how many calls
 * are made, and after how many seconds it stops before.
 *
 * The function of a call first compares the status, if the model says that the call fails: then the model stays. Else
 * it makes the call, and then changes the model.
 */
#include "test.h"
#include <time.h>

/* There are VIEWS views and as many writable buffers, TEXTS texts, and ROWS rows. */
enum { VIEWS = 6, TEXTS = 4, ROWS = 3 };

/* The model has memory for so many bytes of a buffer, views of a text, buffers of a row, blocks, and bytes of a frame's
 * body. */
enum { MOST = 240, PIECES = 40, ROW_PARTS = 8, BLOCKS = 8192, BODY = 40 };

/* Sizes of new ones are below these: the bytes of a view, of a writable buffer, of a builder's own, and of a body. */
enum { NEW_VIEW = 60, NEW_PART = 80, MOST_ROOM = 40, NEW_BODY = 30 };

/* Nothing is added to a text or a builder of more pieces than this, or to frames of so many. */
enum { FULL_TEXT = 12, MOST_BUILT = 10, MOST_FED = 20 };

/* ---- the model ---- */

/* The block of a view of bytes that stay for good, and of what a builder has written and not finished. Others are
 * indices of `holders`. */
enum { NO_BLOCK = 0, BUILDERS_BLOCK = -1 };

/* A view. `room` is the capacity of the writable buffer that it becomes, if its block is its own. */
struct view { uint8_t at[MOST]; size_t len; int block; size_t room; };
/* A writable buffer. */
struct part { uint8_t at[MOST]; size_t len, capacity; };
/* A text: its views. An empty text has one, without bytes. */
struct text { struct view piece[PIECES]; size_t count; };
/* Several writable buffers. */
struct row { struct part part[ROW_PARTS]; size_t count; };
/* A builder: how many bytes it may still write, how many it has written since the last pushed view, and all of them. */
struct builder { size_t room, inline_len; struct text text; };

static int holders[BLOCKS]; /* how many views share each block */
static const struct view no_bytes;
static const struct part no_part;
static const struct builder no_builder;

static int new_block(void) {
    static int last = 1;
    do last = last % (BLOCKS - 1) + 1; while (holders[last]);
    holders[last] = 1;
    return last;
}
/* A view is dropped. */
static void let_go(struct view *v) { if (v->block) holders[v->block]--; *v = no_bytes; }
static struct view shared(const struct view *v) { if (v->block) holders[v->block]++; return *v; }
static struct view copied(const uint8_t *at, size_t n) {
    struct view v = no_bytes;
    if (n == 0) return v;
    memcpy(v.at, at, n);
    v.len = v.room = n; v.block = new_block();
    return v;
}
/* The first n bytes of a view are dropped. */
static void advanced(struct view *v, size_t n) {
    memmove(v->at, v->at + n, v->len - n);
    v->len -= n;
    if (v->block) v->room -= n;
}
/* The bytes from `from` to `to`, in the block that the view has. */
static struct view between(const struct view *v, size_t from, size_t to) {
    if (from == to) return no_bytes;
    struct view part = shared(v);
    part.len = to;
    advanced(&part, from);
    return part;
}
/* A writable buffer of these bytes. */
static struct part part_of(const uint8_t *at, size_t len, size_t capacity) {
    struct part p = { { 0 }, len, capacity };
    memcpy(p.at, at, len);
    return p;
}
/* A buffer becomes a view, and an empty one is left. */
static struct view frozen(struct part *p) {
    struct view v = no_bytes;
    if (p->len) {
        memcpy(v.at, p->at, p->len);
        v.len = p->len;
        v.room = p->capacity;
        v.block = new_block();
    }
    *p = no_part;
    return v;
}
static size_t text_len(const struct text *t) {
    size_t n = 0;
    for (size_t i = 0; i < t->count; i++) n += t->piece[i].len;
    return n;
}
static void no_text(struct text *t) { t->count = 1; t->piece[0] = no_bytes; }
static void drop_text(struct text *t) {
    for (size_t i = 0; i < t->count; i++) let_go(&t->piece[i]);
    no_text(t);
}
/* Another text of the same views. */
static struct text shared_text(const struct text *t) {
    struct text out = *t;
    for (size_t i = 0; i < t->count; i++) out.piece[i] = shared(&t->piece[i]);
    return out;
}
static void drop_first(struct text *t) {
    let_go(&t->piece[0]);
    memmove(t->piece, t->piece + 1, --t->count * sizeof *t->piece);
}
/* The first n bytes are copied out: they leave the text. */
static void text_rest(struct text *t, size_t n) {
    if (n == 0) return;
    if (n == text_len(t)) { drop_text(t); return; }
    while (n >= t->piece[0].len) { n -= t->piece[0].len; drop_first(t); }
    advanced(&t->piece[0], n);
}
/* An advance by n bytes. It keeps the block of a text's only view, even if it has no byte left. */
static void text_advanced(struct text *t, size_t n) {
    if (t->count == 1 && n == t->piece[0].len) { advanced(&t->piece[0], n); return; }
    text_rest(t, n);
}
/* A view is added at the end of a text. */
static void push(struct text *t, const struct view *v) {
    if (v->len == 0) { struct view gone = *v; let_go(&gone); return; }
    if (text_len(t) == 0) { drop_text(t); t->piece[0] = *v; return; }
    t->piece[t->count++] = *v;
}
static void bytes_of(const struct text *t, uint8_t *out) {
    for (size_t i = 0; i < t->count; i++) {
        memcpy(out, t->piece[i].at, t->piece[i].len);
        out += t->piece[i].len;
    }
}
/* The piece that has the byte at `offset`, which the text has, and where the piece starts. */
static size_t piece_at(const struct text *t, size_t offset, size_t *start) {
    size_t i = 0;
    for (*start = 0; *start + t->piece[i].len <= offset; i++) *start += t->piece[i].len;
    return i;
}
/* The n bytes from offset `from`, which the text has: shared within a piece, else a copy. The text stays. */
static struct view view_of_range(const struct text *t, size_t from, size_t n) {
    uint8_t all[PIECES * MOST];
    size_t start;
    if (n == 0) return no_bytes;
    const struct view *piece = &t->piece[piece_at(t, from, &start)];
    if (from + n <= start + piece->len) return between(piece, from - start, from - start + n);
    bytes_of(t, all);
    return copied(all + from, n);
}
/* The bytes from `lo` to `hi`, shared. The text stays. */
static struct text sliced(const struct text *t, size_t lo, size_t hi) {
    struct text out;
    no_text(&out);
    for (size_t i = 0, at = 0; i < t->count && at < hi; at += t->piece[i++].len) {
        size_t from = lo > at ? lo - at : 0, to = hi - at < t->piece[i].len ? hi - at : t->piece[i].len;
        if (from >= to) continue;
        struct view v = between(&t->piece[i], from, to);
        push(&out, &v);
    }
    return out;
}
/* The first `at` bytes; `t` keeps the rest. All of them move, fewer are shared. */
static struct text split(struct text *t, size_t at) {
    struct text front = *t;
    if (at > 0 && at == text_len(t)) { no_text(t); return front; }
    front = sliced(t, 0, at);
    text_rest(t, at);
    return front;
}
static size_t row_len(const struct row *r) {
    size_t n = 0;
    for (size_t i = 0; i < r->count; i++) n += r->part[i].len;
    return n;
}
static size_t row_capacity(const struct row *r) {
    size_t n = 0;
    for (size_t i = 0; i < r->count; i++) n += r->part[i].capacity;
    return n;
}
/* The empty row is left: one buffer without bytes. */
static void no_row(struct row *r) {
    r->part[0] = no_part;
    r->count = 1;
}
/* Buffers without capacity are left out of a row; if all are, it has one. */
static void keep_parts(struct row *r) {
    size_t kept = 0;
    for (size_t i = 0; i < r->count; i++) {
        struct part p = r->part[i];
        if (p.capacity) r->part[kept++] = p;
    }
    if (kept == 0) r->part[kept++] = no_part;
    r->count = kept;
}
static void row_bytes(const struct row *r, uint8_t *out) {
    for (size_t i = 0; i < r->count; i++) {
        memcpy(out, r->part[i].at, r->part[i].len);
        out += r->part[i].len;
    }
}
/* Bytes are put behind those that are there; they fit. */
static void part_put(struct part *p, const uint8_t *at, size_t n) {
    memcpy(p->at + p->len, at, n);
    p->len += n;
}
static void row_put(struct row *r, const uint8_t *at, size_t n) {
    for (size_t i = 0; i < r->count; i++) {
        struct part *p = &r->part[i];
        size_t some = n < p->capacity - p->len ? n : p->capacity - p->len;
        part_put(p, at, some);
        at += some; n -= some;
    }
}
/* The first n bytes are dropped, with their room. */
static void part_drain(struct part *p, size_t n) {
    memmove(p->at, p->at + n, p->len - n);
    p->len -= n; p->capacity -= n;
}
static void row_drain(struct row *r, size_t n) {
    if (n == 0) return;
    const int several = r->count > 1; /* a buffer alone stays, even if it has no capacity left */
    for (size_t i = 0; i < r->count; i++) {
        size_t some = n < r->part[i].len ? n : r->part[i].len;
        part_drain(&r->part[i], some);
        n -= some;
    }
    if (several) keep_parts(r);
}
/* n bytes are readable: the new ones are zeros. */
static void part_resize(struct part *p, size_t n) {
    if (n > p->len) memset(p->at + p->len, 0, n - p->len);
    p->len = n;
}
static void row_resize(struct row *r, size_t n) {
    for (size_t i = 0; i < r->count; i++) {
        size_t part = n < r->part[i].capacity ? n : r->part[i].capacity;
        part_resize(&r->part[i], part);
        n -= part;
    }
}

/* ---- the buffers beside it ---- */

/* Of each kind: the model, the memory of the buffer beside it, and its handle. */
static struct view views[VIEWS];
static struct iobuf view_memory[VIEWS];
static struct iobuf_at view_at[VIEWS];

static struct part parts[VIEWS];
static struct iobufmut part_memory[VIEWS];
static struct iobufmut_at part_at[VIEWS];

static struct text texts[TEXTS];
static struct iobufs text_memory[TEXTS];
static struct iobufs_at text_at[TEXTS];

static struct row rows[ROWS];
static struct iobufsmut row_memory[ROWS];
static struct iobufsmut_at row_at[ROWS];

static struct builder builder;
static struct iobufs_builder builder_memory;
static struct iobufs_builder_at builder_at;

static struct text frames; /* fed and not taken */
static struct iobufs_frames frames_memory;
static struct iobufs_frames_at frames_at;

static uint8_t came[2 * MOST]; /* received and not taken */
static size_t came_len;
static struct iobufs_received received_memory;
static struct iobufs_received_at received_at;

/* Frames that were taken of what was received, with their headers or without. */
static struct { uint8_t bytes[10 + BODY]; size_t len; } kept[VIEWS];
static struct iobuf kept_memory[VIEWS];
static struct iobuf_at kept_at[VIEWS];

/* The bytes of static views. */
static uint8_t fixed[MOST];

static uint64_t state = 47;
static uint64_t number(void) {
    uint64_t z = state += 0x9e3779b97f4a7c15u;
    z = (z ^ z >> 30) * 0xbf58476d1ce4e5b9u;
    z = (z ^ z >> 27) * 0x94d049bb133111ebu;
    return z ^ z >> 31;
}
static size_t below(size_t n) { return (size_t)(number() % n); }
/* A length that is often within n, and at times just outside or far. */
static size_t about(size_t n) {
    switch (below(16)) {
    case 0: return n + 1;
    case 1: return SIZE_MAX - below(3);
    case 2: return n;
    case 3: return 0;
    default: return below(n + 1);
    }
}

/* The number of so many bytes. */
static uint64_t number_of(const uint8_t *at, size_t size) {
    uint64_t n = 0;
    for (size_t i = 0; i < size; i++) n = n << 8 | at[i];
    return n;
}

/* Buffer i of each kind reads as its model. */
static void same_view(int i) {
    const uint8_t *at;
    CHECK(iobuf_len(&view_at[i]) == views[i].len);
    CHECK(iobuf_chunk(&view_at[i], &at) == views[i].len);
    CHECK(views[i].len == 0 || !memcmp(at, views[i].at, views[i].len));
}
static void same_part(int i) {
    uint8_t *at;
    CHECK(iobufmut_chunk(&part_at[i], &at) == parts[i].len);
    CHECK(iobufmut_capacity(&part_at[i]) == parts[i].capacity);
    CHECK(iobufmut_remaining_mut(&part_at[i]) == parts[i].capacity - parts[i].len);
    CHECK(parts[i].len == 0 || !memcmp(at, parts[i].at, parts[i].len));
}
static void same_text(int i) {
    struct iobufs_iovec list[PIECES];
    const struct text *t = &texts[i];
    size_t len = text_len(t), n = iobufs_chunks(&text_at[i], list, PIECES);
    CHECK(iobufs_len(&text_at[i]) == len);
    CHECK(iobufs_chunk_count(&text_at[i]) == n);
    CHECK(n == (len ? t->count : 0));
    for (size_t k = 0; k < n; k++) {
        CHECK(list[k].len == t->piece[k].len);
        CHECK(!memcmp(list[k].base, t->piece[k].at, list[k].len));
    }
}
static void same_row(int i) {
    struct iobufs_iovec list[PIECES];
    const struct row *r = &rows[i];
    size_t n = iobufsmut_chunks(&row_at[i], list, PIECES), seen = 0;
    CHECK(iobufsmut_part_count(&row_at[i]) == r->count);
    CHECK(iobufsmut_len(&row_at[i]) == row_len(r));
    CHECK(iobufsmut_capacity(&row_at[i]) == row_capacity(r));
    for (size_t k = 0; k < r->count; k++) {
        if (r->part[k].len == 0) continue;
        CHECK(seen < n);
        CHECK(list[seen].len == r->part[k].len);
        CHECK(!memcmp(list[seen++].base, r->part[k].at, r->part[k].len));
    }
    CHECK(seen == n);
}

/* ---- shared by the calls ---- */

static uint8_t some[2 * MOST]; /* a call is given these, or copies them out */
static void any_bytes(size_t n) {
    for (size_t i = 0; i < n; i++) some[i] = (uint8_t)number();
}
/* As many bytes as `some` has room for: still more than a buffer has, if n is. */
static size_t in_some(size_t n) { return n < sizeof some ? n : sizeof some; }

/* Fills `some` with the bytes of a number, the highest first. */
static const uint8_t *number_bytes(uint64_t n, size_t size) {
    for (size_t i = size; i > 0; n >>= 8) some[--i] = (uint8_t)n;
    return some;
}

/* A view or a text becomes another one: what it held is dropped. */
static void replace_view(int view, struct view by) { let_go(&views[view]); views[view] = by; }
static void replace_text(int text, struct text by) { drop_text(&texts[text]); texts[text] = by; }

/* ---- calls: `view`, `part`, `text`, `row` and `out` are the numbers of buffers ---- */

static void view_copy(int out) {
    size_t n = below(NEW_VIEW);
    any_bytes(n);
    OK(iobuf_copy_from_slice(some, n, &view_at[out]));
    replace_view(out, copied(some, n));
}
static void view_of_static(int out) {
    size_t n = below(NEW_VIEW);
    iobuf_from_static(fixed, n, &view_at[out]);
    replace_view(out, no_bytes);
    memcpy(views[out].at, fixed, n);
    views[out].len = n;
}
static void view_clone(int view, int out) {
    OK(iobuf_clone(&view_at[view], &view_at[out]));
    replace_view(out, shared(&views[view]));
}
static void view_advance(int view, size_t n) {
    if (n > views[view].len) { CHECK(iobuf_advance(&view_at[view], n) == IOBUFS_OUT_OF_RANGE); return; }
    OK(iobuf_advance(&view_at[view], n));
    advanced(&views[view], n);
}
static void view_split(int view, int out, size_t n) {
    struct view *v = &views[view];
    if (n > v->len) { CHECK(iobuf_split_to(&view_at[view], n, &view_at[out]) == IOBUFS_OUT_OF_RANGE); return; }
    OK(iobuf_split_to(&view_at[view], n, &view_at[out]));
    if (n == 0) replace_view(out, no_bytes);
    else if (n == v->len) { replace_view(out, *v); *v = no_bytes; }
    else { replace_view(out, between(v, 0, n)); advanced(v, n); }
}
static void view_slice(int view, int out, size_t lo, size_t hi) {
    struct iobuf_at *at = &view_at[view], *to = &view_at[out];
    if (lo > hi || hi > views[view].len) {
        CHECK(iobuf_slice(at, IOBUFS_INCLUDED, lo, IOBUFS_EXCLUDED, hi, to) == IOBUFS_OUT_OF_RANGE);
        return;
    }
    OK(iobuf_slice(at, IOBUFS_INCLUDED, lo, IOBUFS_EXCLUDED, hi, to));
    replace_view(out, between(&views[view], lo, hi));
}
static void view_copy_out(int view, size_t n) {
    struct view *v = &views[view];
    if (n > v->len) { CHECK(iobuf_copy_to_slice(&view_at[view], some, in_some(n)) == IOBUFS_END_OF_BUFFER); return; }
    OK(iobuf_copy_to_slice(&view_at[view], some, n));
    CHECK(!memcmp(some, v->at, n));
    advanced(v, n);
}
static void view_get_u32(int view) {
    uint32_t four;
    if (views[view].len < 4) { CHECK(iobuf_get_u32(&view_at[view], &four) == IOBUFS_END_OF_BUFFER); return; }
    OK(iobuf_get_u32(&view_at[view], &four));
    CHECK(four == number_of(views[view].at, 4));
    advanced(&views[view], 4);
}
static void view_get_u64(int view) {
    uint64_t eight;
    if (views[view].len < 8) { CHECK(iobuf_get_u64(&view_at[view], &eight) == IOBUFS_END_OF_BUFFER); return; }
    OK(iobuf_get_u64(&view_at[view], &eight));
    CHECK(eight == number_of(views[view].at, 8));
    advanced(&views[view], 8);
}
/* A view is written again, if nobody shares its block. */
static void view_into_part(int view, int part) {
    struct view *v = &views[view];
    int can = v->block ? holders[v->block] == 1 : v->len == 0;
    CHECK(iobuf_try_into_mut(&view_at[view], &part_at[part]) == (can ? IOBUFS_OK : IOBUFS_DECLINED));
    if (!can) return;
    parts[part] = part_of(v->at, v->len, v->block ? v->room : 0);
    let_go(v);
    same_part(part);
}
static void view_eq(int view, int other) {
    const struct view *v = &views[view], *w = &views[other];
    CHECK(iobuf_eq(&view_at[view], &view_at[other]) == (v->len == w->len && !memcmp(v->at, w->at, v->len)));
}
static void view_drop(int view) {
    iobuf_drop(&view_at[view]);
    let_go(&views[view]);
}

enum {
    VIEW_COPY, VIEW_OF_STATIC, VIEW_CLONE, VIEW_ADVANCE, VIEW_SPLIT, VIEW_GET_U64, VIEW_COPY_OUT, VIEW_SLICE,
    VIEW_INTO_PART, VIEW_EQ, VIEW_GET_U32, VIEW_DROP, VIEW_CALLS
};

static void view_call(int view, int out) {
    size_t len = views[view].len, n = about(len);
    switch (below(VIEW_CALLS)) {
    case VIEW_COPY: view_copy(out); break;
    case VIEW_OF_STATIC: view_of_static(out); break;
    case VIEW_CLONE: view_clone(view, out); break;
    case VIEW_ADVANCE: view_advance(view, n); break;
    case VIEW_SPLIT: view_split(view, out, n); break;
    case VIEW_GET_U64: view_get_u64(view); break;
    case VIEW_COPY_OUT: view_copy_out(view, n); break;
    case VIEW_SLICE: view_slice(view, out, n, about(len)); break;
    case VIEW_INTO_PART: view_into_part(view, out); break;
    case VIEW_EQ: view_eq(view, out); break;
    case VIEW_GET_U32: view_get_u32(view); break;
    case VIEW_DROP: view_drop(view); break;
    }
    same_view(view);
    same_view(out);
}

static void part_new(int part) {
    size_t n = below(NEW_PART);
    OK(iobufmut_with_capacity(n, &part_at[part]));
    parts[part] = part_of(some, 0, n);
}
static void part_zeroed(int part) {
    size_t n = below(NEW_PART);
    OK(iobufmut_zeroed(n, &part_at[part]));
    parts[part] = part_of(some, 0, n);
    part_resize(&parts[part], n);
}
static void part_copy(int part) {
    size_t n = below(NEW_PART);
    any_bytes(n);
    OK(iobufmut_copy_from_slice(some, n, &part_at[part]));
    parts[part] = part_of(some, n, n);
}
/* A buffer of the bytes of a view: in its block, if nobody shares it, or copied. */
static void part_of_view(int part, int view) {
    struct view *v = &views[view];
    int can = v->block && holders[v->block] == 1;
    OK(iobufmut_from_view(&view_at[view], &part_at[part]));
    parts[part] = part_of(v->at, v->len, can ? v->room : v->len);
    let_go(v);
    same_view(view);
}
static void part_put_slice(int part, size_t n, size_t room) {
    if (n > room) { CHECK(iobufmut_put_slice(&part_at[part], some, n) == IOBUFS_OUT_OF_RANGE); return; }
    any_bytes(n);
    OK(iobufmut_put_slice(&part_at[part], some, n));
    part_put(&parts[part], some, n);
}
static void part_put_bytes(int part, size_t n, size_t room) {
    if (n > room) { CHECK(iobufmut_put_bytes(&part_at[part], 9, n) == IOBUFS_OUT_OF_RANGE); return; }
    OK(iobufmut_put_bytes(&part_at[part], 9, n));
    memset(some, 9, n);
    part_put(&parts[part], some, n);
}
static void part_put_u8(int part, size_t room) {
    CHECK(iobufmut_put_u8(&part_at[part], 8) == (room < 1 ? IOBUFS_OUT_OF_RANGE : IOBUFS_OK));
    if (room >= 1) part_put(&parts[part], number_bytes(8, 1), 1);
}
static void part_put_u16(int part, uint16_t two, size_t room) {
    CHECK(iobufmut_put_u16(&part_at[part], two) == (room < 2 ? IOBUFS_OUT_OF_RANGE : IOBUFS_OK));
    if (room >= 2) part_put(&parts[part], number_bytes(two, 2), 2);
}
static void part_put_u64(int part, uint64_t eight, size_t room) {
    CHECK(iobufmut_put_u64(&part_at[part], eight) == (room < 8 ? IOBUFS_OUT_OF_RANGE : IOBUFS_OK));
    if (room >= 8) part_put(&parts[part], number_bytes(eight, 8), 8);
}
static void part_set_len(int part, size_t n) {
    if (n > parts[part].capacity) { CHECK(iobufmut_set_len(&part_at[part], n) == IOBUFS_OUT_OF_RANGE); return; }
    OK(iobufmut_set_len(&part_at[part], n));
    part_resize(&parts[part], n);
}
static void part_truncate(int part, size_t n) {
    iobufmut_truncate(&part_at[part], n);
    if (n < parts[part].len) parts[part].len = n;
}
static void part_advance(int part, size_t n) {
    if (n > parts[part].len) { CHECK(iobufmut_advance(&part_at[part], n) == IOBUFS_OUT_OF_RANGE); return; }
    OK(iobufmut_advance(&part_at[part], n));
    part_drain(&parts[part], n);
}
static void part_copy_out(int part, size_t n) {
    struct part *p = &parts[part];
    if (n > p->len) { CHECK(iobufmut_copy_to_slice(&part_at[part], some, in_some(n)) == IOBUFS_END_OF_BUFFER); return; }
    OK(iobufmut_copy_to_slice(&part_at[part], some, n));
    CHECK(!memcmp(some, p->at, n));
    part_drain(p, n);
}
static void part_write_at(int part, size_t at) {
    size_t n = below(4), len = parts[part].len;
    any_bytes(n);
    if (at > len || n > len - at) {
        CHECK(iobufmut_write_at(&part_at[part], at, some, n) == IOBUFS_OUT_OF_RANGE);
        return;
    }
    OK(iobufmut_write_at(&part_at[part], at, some, n));
    memcpy(parts[part].at + at, some, n);
}
static void part_freeze(int part, int out) {
    OK(iobufmut_freeze(&part_at[part], &view_at[out]));
    replace_view(out, frozen(&parts[part]));
    same_view(out);
}

enum {
    PART_NEW, PART_ZEROED, PART_COPY, PART_OF_VIEW, PART_PUT_SLICE, PART_PUT_BYTES, PART_PUT_U8, PART_SET_LEN,
    PART_TRUNCATE, PART_PUT_U64, PART_ADVANCE, PART_COPY_OUT, PART_WRITE_AT, PART_FREEZE, PART_PUT_U16, PART_CALLS
};

static void part_call(int part, int view) {
    const size_t len = parts[part].len, capacity = parts[part].capacity, room = capacity - len;
    const size_t put = about(room), taken = about(len);
    const uint64_t eight = number();
    switch (below(PART_CALLS)) {
    case PART_NEW: part_new(part); break;
    case PART_ZEROED: part_zeroed(part); break;
    case PART_COPY: part_copy(part); break;
    case PART_OF_VIEW: part_of_view(part, view); break;
    case PART_PUT_SLICE: part_put_slice(part, put, room); break;
    case PART_PUT_BYTES: part_put_bytes(part, put, room); break;
    case PART_PUT_U8: part_put_u8(part, room); break;
    case PART_SET_LEN: part_set_len(part, about(capacity)); break;
    case PART_TRUNCATE: part_truncate(part, taken); break;
    case PART_PUT_U64: part_put_u64(part, eight, room); break;
    case PART_ADVANCE: part_advance(part, taken); break;
    case PART_COPY_OUT: part_copy_out(part, taken); break;
    case PART_WRITE_AT: part_write_at(part, taken); break;
    case PART_FREEZE: part_freeze(part, view); break;
    case PART_PUT_U16: part_put_u16(part, (uint16_t)eight, room); break;
    }
    same_part(part);
}

static void text_append(int text, int view) {
    OK(iobufs_append(&text_at[text], &view_at[view]));
    push(&texts[text], &views[view]);
    views[view] = no_bytes;
}
static void text_prepend(int text, int view) {
    struct text *t = &texts[text];
    struct view *v = &views[view];
    OK(iobufs_prepend(&text_at[text], &view_at[view]));
    if (v->len == 0) let_go(v);
    else if (text_len(t) == 0) { drop_text(t); t->piece[0] = *v; }
    else { memmove(t->piece + 1, t->piece, t->count++ * sizeof *t->piece); t->piece[0] = *v; }
    *v = no_bytes;
}
/* A text of a view alone, and no view is left. */
static void text_of_view(int text, int view) {
    iobufs_from_view(&view_at[view], &text_at[text]);
    drop_text(&texts[text]);
    texts[text].piece[0] = views[view];
    views[view] = no_bytes;
}
static void text_of_part(int text, int part, int view) {
    part_freeze(part, view);
    same_part(part);
    text_of_view(text, view);
}
static void text_split(int text, int out, size_t n) {
    struct text *t = &texts[text];
    if (n > text_len(t)) { CHECK(iobufs_split_to(&text_at[text], n, &text_at[out]) == IOBUFS_OUT_OF_RANGE); return; }
    OK(iobufs_split_to(&text_at[text], n, &text_at[out]));
    replace_text(out, split(t, n));
}
static void text_slice(int text, int out, size_t lo, size_t hi) {
    const struct text *t = &texts[text];
    if (lo > hi || hi > text_len(t)) {
        CHECK(iobufs_slice(&text_at[text], lo, hi, &text_at[out]) == IOBUFS_OUT_OF_RANGE);
        return;
    }
    OK(iobufs_slice(&text_at[text], lo, hi, &text_at[out]));
    replace_text(out, sliced(t, lo, hi));
}
static void text_clone(int text, int out) {
    OK(iobufs_clone(&text_at[text], &text_at[out]));
    replace_text(out, shared_text(&texts[text]));
}
static void text_truncate(int text, size_t n) {
    OK(iobufs_truncate(&text_at[text], n));
    if (n < text_len(&texts[text])) replace_text(text, sliced(&texts[text], 0, n));
}
static void text_advance(int text, size_t n) {
    struct text *t = &texts[text];
    if (n > text_len(t)) { CHECK(iobufs_advance(&text_at[text], n) == IOBUFS_OUT_OF_RANGE); return; }
    OK(iobufs_advance(&text_at[text], n));
    text_advanced(t, n);
}
static void text_copy_out(int text, size_t n) {
    struct text *t = &texts[text];
    uint8_t all[PIECES * MOST];
    if (n > text_len(t)) {
        CHECK(iobufs_copy_to_slice(&text_at[text], some, in_some(n)) == IOBUFS_END_OF_BUFFER);
        return;
    }
    bytes_of(t, all);
    OK(iobufs_copy_to_slice(&text_at[text], some, n));
    CHECK(!memcmp(some, all, n));
    text_advanced(t, n);
}
static void text_get_u32(int text) {
    struct text *t = &texts[text];
    uint8_t all[PIECES * MOST];
    uint32_t four;
    if (text_len(t) < 4) { CHECK(iobufs_get_u32(&text_at[text], &four) == IOBUFS_END_OF_BUFFER); return; }
    bytes_of(t, all);
    OK(iobufs_get_u32(&text_at[text], &four));
    CHECK(four == number_of(all, 4));
    text_advanced(t, 4);
}
static void text_take(int text, int view, size_t n) {
    struct text *t = &texts[text];
    if (n > text_len(t)) { CHECK(iobufs_take(&text_at[text], n, &view_at[view]) == IOBUFS_END_OF_BUFFER); return; }
    OK(iobufs_take(&text_at[text], n, &view_at[view]));
    replace_view(view, view_of_range(t, 0, n));
    text_rest(t, n);
}
static void text_take_after(int text, int view, size_t skip, size_t n) {
    struct text *t = &texts[text];
    size_t len = text_len(t);
    if (skip > len || n > len - skip) {
        CHECK(iobufs_take_after(&text_at[text], skip, n, &view_at[view]) == IOBUFS_END_OF_BUFFER);
        return;
    }
    OK(iobufs_take_after(&text_at[text], skip, n, &view_at[view]));
    replace_view(view, view_of_range(t, skip, n));
    text_rest(t, skip + n);
}
/* One piece moves into the view, several are copied. */
static void text_coalesce(int text, int view) {
    struct text *t = &texts[text];
    OK(iobufs_coalesce(&text_at[text], &view_at[view]));
    if (t->count == 1) { replace_view(view, t->piece[0]); no_text(t); }
    else { replace_view(view, view_of_range(t, 0, text_len(t))); drop_text(t); }
}
static void text_into_single(int text, int view) {
    struct text *t = &texts[text];
    const int can = t->count == 1;
    CHECK(iobufs_try_into_single(&text_at[text], &view_at[view]) == (can ? IOBUFS_OK : IOBUFS_DECLINED));
    if (can) { replace_view(view, t->piece[0]); no_text(t); }
}
/* The chunk that has byte n, and the byte. */
static void text_locate(int text, size_t n) {
    const struct text *t = &texts[text];
    size_t index, offset, start;
    uint8_t byte;
    const int has = n < text_len(t);
    CHECK(iobufs_locate(&text_at[text], n, &index, &offset) == (has ? IOBUFS_OK : IOBUFS_OUT_OF_RANGE));
    CHECK(iobufs_peek(&text_at[text], n, &byte, 1) == (has ? IOBUFS_OK : IOBUFS_END_OF_BUFFER));
    if (!has) return;
    CHECK(index == piece_at(t, n, &start));
    CHECK(offset == n - start);
    CHECK(byte == t->piece[index].at[offset]);
}
static void text_eq(int text, int other) {
    size_t len = text_len(&texts[text]), other_len = text_len(&texts[other]);
    uint8_t ours[PIECES * MOST], theirs[PIECES * MOST];
    bytes_of(&texts[text], ours);
    bytes_of(&texts[other], theirs);
    CHECK(iobufs_eq(&text_at[text], &text_at[other]) == (len == other_len && !memcmp(ours, theirs, len)));
}

/* Those before TEXT_SPLIT add to a text or replace it: a text that is full has only the others. */
enum {
    TEXT_APPEND, TEXT_PREPEND, TEXT_OF_VIEW, TEXT_OF_PART, TEXT_SPLIT, TEXT_ADVANCE, TEXT_COPY_OUT, TEXT_TAKE,
    TEXT_TAKE_AFTER, TEXT_CLONE, TEXT_COALESCE, TEXT_INTO_SINGLE, TEXT_LOCATE, TEXT_GET_U32, TEXT_SLICE, TEXT_TRUNCATE,
    TEXT_EQ, TEXT_CALLS
};

static void text_call(int text, int out, int view) {
    const size_t len = text_len(&texts[text]), n = about(len);
    const int full = texts[text].count > FULL_TEXT || len + views[view].len > MOST;
    switch (full ? TEXT_SPLIT + below(TEXT_CALLS - TEXT_SPLIT) : below(TEXT_CALLS)) {
    case TEXT_APPEND: text_append(text, view); break;
    case TEXT_PREPEND: text_prepend(text, view); break;
    case TEXT_OF_VIEW: text_of_view(text, view); break;
    case TEXT_OF_PART: text_of_part(text, view, view); break;
    case TEXT_SPLIT: text_split(text, out, n); break;
    case TEXT_ADVANCE: text_advance(text, n); break;
    case TEXT_COPY_OUT: text_copy_out(text, n); break;
    case TEXT_TAKE: text_take(text, view, n); break;
    case TEXT_TAKE_AFTER: text_take_after(text, view, about(len), n); break;
    case TEXT_CLONE: text_clone(text, out); break;
    case TEXT_COALESCE: text_coalesce(text, view); break;
    case TEXT_INTO_SINGLE: text_into_single(text, view); break;
    case TEXT_LOCATE: text_locate(text, n); break;
    case TEXT_GET_U32: text_get_u32(text); break;
    case TEXT_SLICE: text_slice(text, out, n, about(len)); break;
    case TEXT_TRUNCATE: text_truncate(text, n); break;
    case TEXT_EQ: text_eq(text, out); break;
    }
    same_text(text);
    same_text(out);
    same_view(view);
}

/* A row of some of the writable buffers, which are left empty. One that is too long is dropped. */
static void row_of_parts(int row) {
    struct row *r = &rows[row];
    struct iobufmut_at places[VIEWS];
    size_t count = below(VIEWS + 1);
    r->count = 0;
    for (size_t p = 0; p < count; p++) {
        places[p] = part_at[p];
        r->part[r->count++] = parts[p];
        parts[p] = no_part;
    }
    keep_parts(r);
    OK(iobufsmut_from_parts(places, count, &row_at[row]));
    for (size_t p = 0; p < count; p++) same_part((int)p);
    if (row_capacity(r) > MOST) { iobufsmut_drop(&row_at[row]); no_row(r); }
}
static void row_of_part(int row, int part) {
    iobufsmut_from_mut(&part_at[part], &row_at[row]);
    no_row(&rows[row]);
    rows[row].part[0] = parts[part];
    parts[part] = no_part;
    same_part(part);
}
static void row_put_slice(int row, size_t n, size_t room) {
    if (n > room) { CHECK(iobufsmut_put_slice(&row_at[row], some, n) == IOBUFS_OUT_OF_RANGE); return; }
    any_bytes(n);
    OK(iobufsmut_put_slice(&row_at[row], some, n));
    row_put(&rows[row], some, n);
}
static void row_put_bytes(int row, size_t n, size_t room) {
    if (n > room) { CHECK(iobufsmut_put_bytes(&row_at[row], 5, n) == IOBUFS_OUT_OF_RANGE); return; }
    OK(iobufsmut_put_bytes(&row_at[row], 5, n));
    memset(some, 5, n);
    row_put(&rows[row], some, n);
}
static void row_put_u64(int row, uint64_t eight, size_t room) {
    CHECK(iobufsmut_put_u64(&row_at[row], eight) == (room < 8 ? IOBUFS_OUT_OF_RANGE : IOBUFS_OK));
    if (room >= 8) row_put(&rows[row], number_bytes(eight, 8), 8);
}
static void row_set_len(int row, size_t n) {
    struct row *r = &rows[row];
    if (n > row_capacity(r)) { CHECK(iobufsmut_set_len(&row_at[row], n) == IOBUFS_OUT_OF_RANGE); return; }
    OK(iobufsmut_set_len(&row_at[row], n));
    row_resize(r, n);
}
static void row_advance(int row, size_t n) {
    struct row *r = &rows[row];
    if (n > row_len(r)) { CHECK(iobufsmut_advance(&row_at[row], n) == IOBUFS_OUT_OF_RANGE); return; }
    OK(iobufsmut_advance(&row_at[row], n));
    row_drain(r, n);
}
static void row_copy_out(int row, size_t n) {
    struct row *r = &rows[row];
    uint8_t all[ROW_PARTS * MOST];
    if (n > row_len(r)) {
        CHECK(iobufsmut_copy_to_slice(&row_at[row], some, in_some(n)) == IOBUFS_END_OF_BUFFER);
        return;
    }
    row_bytes(r, all);
    OK(iobufsmut_copy_to_slice(&row_at[row], some, n));
    CHECK(!memcmp(some, all, n));
    row_drain(r, n);
}
/* The views of the buffers are a text, and the empty row is left. */
static void row_freeze(int row, int text) {
    struct row *r = &rows[row];
    OK(iobufsmut_freeze(&row_at[row], &text_at[text]));
    drop_text(&texts[text]);
    for (size_t p = 0; p < r->count; p++) {
        struct view v = frozen(&r->part[p]);
        push(&texts[text], &v);
    }
    no_row(r);
    same_text(text);
}
/* One buffer moves, several are copied, and the empty row is left. */
static void row_coalesce(int row, int part) {
    struct row *r = &rows[row];
    uint8_t all[ROW_PARTS * MOST];
    OK(iobufsmut_coalesce(&row_at[row], &part_at[part]));
    row_bytes(r, all);
    parts[part] = r->count == 1 ? r->part[0] : part_of(all, row_len(r), row_len(r));
    no_row(r);
    same_part(part);
}

enum {
    ROW_OF_PARTS, ROW_OF_PART, ROW_PUT_SLICE, ROW_PUT_BYTES, ROW_SET_LEN, ROW_ADVANCE, ROW_COPY_OUT, ROW_PUT_U64,
    ROW_FREEZE, ROW_COALESCE, ROW_CALLS
};

static void row_call(int row, int text, int part) {
    const size_t len = row_len(&rows[row]), capacity = row_capacity(&rows[row]), room = capacity - len;
    const size_t put = about(room), taken = about(len);
    const uint64_t eight = number();
    switch (below(ROW_CALLS)) {
    case ROW_OF_PARTS: row_of_parts(row); break;
    case ROW_OF_PART: row_of_part(row, part); break;
    case ROW_PUT_SLICE: row_put_slice(row, put, room); break;
    case ROW_PUT_BYTES: row_put_bytes(row, put, room); break;
    case ROW_SET_LEN: row_set_len(row, about(capacity)); break;
    case ROW_ADVANCE: row_advance(row, taken); break;
    case ROW_COPY_OUT: row_copy_out(row, taken); break;
    case ROW_PUT_U64: row_put_u64(row, eight, room); break;
    case ROW_FREEZE: row_freeze(row, text); break;
    case ROW_COALESCE: row_coalesce(row, part); break;
    }
    same_row(row);
}

/* Bytes are written into the model: after the last ones, or, after a pushed view, into a new piece. */
static void builder_put(const uint8_t *at, size_t n) {
    struct view *last = builder.text.count ? &builder.text.piece[builder.text.count - 1] : NULL;
    builder.room -= n;
    if (n == 0) return;
    if (builder.inline_len == 0) {
        last = &builder.text.piece[builder.text.count++];
        *last = no_bytes;
        last->block = BUILDERS_BLOCK;
        last->room = builder.room + n;
    }
    memcpy(last->at + last->len, at, n);
    last->len += n;
    builder.inline_len += n;
}
static void builder_new(void) {
    if (builder.room || builder.text.count) return;
    size_t n = below(MOST_ROOM);
    OK(iobufs_builder_new(n, &builder_at));
    builder = no_builder;
    builder.room = n;
}
static void builder_put_slice(size_t n) {
    if (n > builder.room) { CHECK(iobufs_builder_put_slice(&builder_at, some, n) == IOBUFS_OUT_OF_RANGE); return; }
    any_bytes(n);
    OK(iobufs_builder_put_slice(&builder_at, some, n));
    builder_put(some, n);
}
static void builder_put_u32(uint32_t four) {
    const int fits = builder.room >= 4;
    CHECK(iobufs_builder_put_u32(&builder_at, four) == (fits ? IOBUFS_OK : IOBUFS_OUT_OF_RANGE));
    if (fits) builder_put(number_bytes(four, 4), 4);
}
/* A view is a piece of its own, and bytes that are put after it begin another. An empty view is dropped, and divides
 * nothing: bytes that are put after it continue the piece before it. */
static void builder_push(int view) {
    struct view *v = &views[view];
    if (builder.text.count > MOST_BUILT) return;
    OK(iobufs_builder_push(&builder_at, &view_at[view]));
    if (v->len == 0) { let_go(v); return; }
    builder.text.piece[builder.text.count++] = *v;
    builder.inline_len = 0;
    *v = no_bytes;
}
/* The builder's text: all that it wrote shares one block. */
static void builder_finish(int text) {
    int block = NO_BLOCK;
    OK(iobufs_builder_finish(&builder_at, &text_at[text]));
    drop_text(&texts[text]);
    for (size_t p = 0; p < builder.text.count; p++) {
        struct view v = builder.text.piece[p];
        if (v.block == BUILDERS_BLOCK) {
            if (block == NO_BLOCK) block = new_block();
            else holders[block]++;
            v.block = block;
        }
        push(&texts[text], &v);
    }
    builder = no_builder;
    if (text_len(&texts[text]) > MOST) { iobufs_drop(&text_at[text]); drop_text(&texts[text]); }
    same_text(text);
}

enum { BUILDER_NEW, BUILDER_PUT_SLICE, BUILDER_PUSH, BUILDER_FINISH, BUILDER_ROOM, BUILDER_PUT_U32, BUILDER_CALLS };

static void builder_call(int text, int view) {
    const size_t n = about(builder.room);
    const uint32_t four = (uint32_t)number();
    switch (below(BUILDER_CALLS)) {
    case BUILDER_NEW: builder_new(); break;
    case BUILDER_PUT_SLICE: builder_put_slice(n); break;
    case BUILDER_PUSH: builder_push(view); break;
    case BUILDER_FINISH: if (below(4) == 0) builder_finish(text); break; /* seldom, so that builders grow */
    case BUILDER_ROOM: CHECK(iobufs_builder_remaining_mut(&builder_at) == builder.room); break;
    case BUILDER_PUT_U32: builder_put_u32(four); break;
    }
    same_view(view);
}

/* The status of taking the first frame, of a body up to BODY bytes; of a whole one, where its body is, and its length.
 * The prefix is a varint: the last of several bytes isn't 0, and a tenth byte is 1. */
static iobufs_status front_of(const uint8_t *all, size_t len, size_t *at, size_t *body) {
    size_t i = 0, shift = 0, n = 0;
    for (; i < len && i < 9 && all[i] >= 128; i++, shift += 7) n += (size_t)(all[i] & 127) << shift;
    if (i == len) return IOBUFS_END_OF_BUFFER;
    if ((i == 9 && all[9] != 1) || (i && all[i] == 0)) return IOBUFS_INVALID_VARINT;
    n += (size_t)all[i] << shift;
    if (n > BODY) return IOBUFS_INVALID_LENGTH;
    *at = i + 1;
    *body = n;
    return len - i - 1 < n ? IOBUFS_END_OF_BUFFER : IOBUFS_OK;
}

/* Fills `some` with a frame, and answers where it is cut. */
static size_t any_front(void) {
    size_t n = below(NEW_BODY);
    any_bytes(n + 1);
    some[0] = (uint8_t)n;
    return below(n + 2);
}

/* Feeds the front of a frame, by way of a view that is empty then. */
static void frames_feed(int view) {
    struct view *v = &views[view];
    size_t n = any_front();
    OK(iobuf_copy_from_slice(some, n, &view_at[view]));
    OK(iobufs_frames_feed(&frames_at, &view_at[view]));
    let_go(v);
    *v = copied(some, n);
    push(&frames, v);
    *v = no_bytes;
    same_view(view);
    CHECK(iobufs_frames_len(&frames_at) == text_len(&frames));
}

static void frames_take(int view) {
    uint8_t all[PIECES * MOST];
    size_t at, body, wrong;
    bytes_of(&frames, all);
    iobufs_status status = iobufs_frames_next(&frames_at, 0, BODY, &view_at[view], &wrong);
    CHECK(status == front_of(all, text_len(&frames), &at, &body));
    if (status == IOBUFS_OK) {
        replace_view(view, view_of_range(&frames, at, body));
        text_rest(&frames, at + body);
    } else if (status != IOBUFS_END_OF_BUFFER) {
        /* No later bytes make such a frame whole: begin again. */
        iobufs_frames_drop(&frames_at);
        drop_text(&frames);
    }
    same_view(view);
    CHECK(iobufs_frames_len(&frames_at) == text_len(&frames));
}

/* The first frame with its header is the first bytes that were fed, in their chunks. */
static void frames_take_whole(int text) {
    uint8_t all[PIECES * MOST];
    size_t at, body, header, wrong;
    bytes_of(&frames, all);
    iobufs_status status = iobufs_frames_next_whole(&frames_at, 0, BODY, &text_at[text], &header, &wrong);
    CHECK(status == front_of(all, text_len(&frames), &at, &body));
    if (status == IOBUFS_OK) {
        CHECK(header == at);
        replace_text(text, split(&frames, at + body));
    }
    same_text(text);
    CHECK(iobufs_frames_len(&frames_at) == text_len(&frames));
}

static void frames_call(int view, int text) {
    if (below(2) && frames.count < MOST_FED) frames_feed(view);
    else if (below(2)) frames_take_whole(text);
    else frames_take(view);
}

/* A body that was taken is as it was. */
static void same_kept(int i) {
    const uint8_t *at;
    CHECK(iobuf_chunk(&kept_at[i], &at) == kept[i].len);
    CHECK(kept[i].len == 0 || !memcmp(at, kept[i].bytes, kept[i].len));
}

/* Receives the front of a frame, or less if the space is short. */
static void received_fill(void) {
    size_t space = 0;
    uint8_t *to = NULL;
    OK(iobufs_received_space(&received_at, &to, &space));
    CHECK(space > 0);
    size_t n = any_front();
    if (n > space) n = space;
    CHECK(iobufs_received_filled(&received_at, space + 1 + below(9)) == IOBUFS_OUT_OF_RANGE);
    memcpy(to, some, n);
    OK(iobufs_received_filled(&received_at, n));
    memcpy(came + came_len, some, n);
    came_len += n;
}

/* A frame is taken with its header or without. */
static void received_take(int i) {
    size_t at, body, header, wrong;
    const int whole = below(2) == 0;
    iobufs_status status = whole ? iobufs_received_next_whole(&received_at, 0, BODY, &kept_at[i], &header, &wrong)
                                 : iobufs_received_next(&received_at, 0, BODY, &kept_at[i], &wrong);
    CHECK(status == front_of(came, came_len, &at, &body));
    if (status == IOBUFS_OK) {
        const size_t from = whole ? 0 : at;
        CHECK(!whole || header == at);
        kept[i].len = at + body - from;
        memcpy(kept[i].bytes, came + from, kept[i].len);
        came_len -= at + body;
        memmove(came, came + at + body, came_len);
    } else if (status != IOBUFS_END_OF_BUFFER) {
        /* No later bytes make such a frame whole: begin again. */
        OK(iobufs_received_new(IOBUFS_VARINT, &received_at));
        came_len = 0;
    }
}

/* Bodies stay as they are while more is received. */
static void received_call(int i) {
    if (below(2) && came_len < MOST) received_fill();
    else received_take(i);
    same_kept((int)below(VIEWS));
    CHECK(iobufs_received_len(&received_at) == came_len);
}

/* Every handle gets its memory; each buffer is empty then, and so is its model. */
static void begin(void) {
    for (int i = 0; i < MOST; i++) fixed[i] = (uint8_t)(i * 7);
    for (int i = 0; i < VIEWS; i++) {
        view_at[i].at = &view_memory[i];
        iobuf_init(view_at[i].at);
        part_at[i].at = &part_memory[i];
        iobufmut_init(part_at[i].at);
        kept_at[i].at = &kept_memory[i];
        iobuf_init(kept_at[i].at);
    }
    for (int i = 0; i < TEXTS; i++) {
        text_at[i].at = &text_memory[i];
        iobufs_init(text_at[i].at);
        no_text(&texts[i]);
    }
    for (int i = 0; i < ROWS; i++) {
        row_at[i].at = &row_memory[i];
        iobufsmut_init(row_at[i].at);
        no_row(&rows[i]);
    }
    builder_at.at = &builder_memory;
    iobufs_builder_init(builder_at.at);
    frames_at.at = &frames_memory;
    iobufs_frames_init(frames_at.at);
    no_text(&frames);
    received_at.at = &received_memory;
    iobufs_received_init(received_at.at);
    OK(iobufs_received_new(IOBUFS_VARINT, &received_at));
}

/* A number below n, other than this one. */
static int other_than(int one, int n) { return (one + 1 + (int)below((size_t)n - 1)) % n; }

/* A call of any kind; those of one buffer or one text are three times as likely. */
static void any_call(void) {
    int i = (int)below(VIEWS), other = other_than(i, VIEWS), text = (int)below(TEXTS);
    switch (below(13)) {
    case 0: case 1: case 2: view_call(i, other); break;
    case 3: case 4: case 5: part_call(i, other); break;
    case 6: case 7: case 8: text_call(text, other_than(text, TEXTS), i); break;
    case 9: row_call((int)below(ROWS), text, i); break;
    case 10: builder_call(text, i); break;
    case 11: frames_call(i, text); break;
    case 12: received_call(i); break;
    }
}

static void end(void) {
    for (int i = 0; i < VIEWS; i++) {
        iobuf_drop(&view_at[i]);
        iobufmut_drop(&part_at[i]);
        iobuf_drop(&kept_at[i]);
    }
    for (int i = 0; i < TEXTS; i++) iobufs_drop(&text_at[i]);
    for (int i = 0; i < ROWS; i++) iobufsmut_drop(&row_at[i]);
    iobufs_builder_drop(&builder_at);
    iobufs_frames_drop(&frames_at);
    iobufs_received_drop(&received_at);
}

/* Ten thousand calls are made between two looks at the clock. */
int main(int argc, char **argv) {
    const long calls = argc > 1 ? atol(argv[1]) : 100000;
    const time_t began = time(NULL), seconds = argc > 2 ? (time_t)atol(argv[2]) : 1000000;
    long made = 0;
    begin();
    for (; made < calls && (made % 10000 || time(NULL) - began < seconds); made++) any_call();
    end();
    printf("%ld calls agree\n", made);
    return 0;
}
