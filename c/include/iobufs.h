/*
 * iobufs: the byte buffers of commonware-runtime (src/iobuf), proved in Rattle, for C99 and C++.
 *
 * A buffer is memory of the caller: a `struct iobuf`, `struct iobufs`, .. of the size and the alignment below.
 * `.._init` makes a buffer of such memory, and a handle (`struct iobuf_at`, ..) names it to every other call:
 *
 *     struct iobuf memory;
 *     struct iobuf_at view = { &memory };
 *     iobuf_init(&memory);            // these three lines are `struct iobuf_at view = IOBUF_INIT;` in C
 *     if (iobuf_copy_from_slice(bytes, n, &view) != IOBUFS_OK) ..
 *     iobuf_drop(&view);
 *
 * A call that can fail returns a status (`iobufs_status`, named by `iobufs_strerror`); GCC and clang warn if it isn't
 * looked at. A call that cannot fail returns its result or nothing. Ranges, offsets and space are tested: if they don't
 * fit, the status says so, and unless the comment says otherwise nothing has changed. A buffer that is moved into
 * another leaves its own handle empty; an empty handle may be used, and dropped, again. Each `out` handle names a
 * buffer: if the call succeeds, it is overwritten, and what it held is dropped.
 *
 * The caller's duties, which no exported call tests:
 *  1. A handle names memory that an `.._init` made a buffer of. Memory is freed only after a `.._drop` (or what the
 *     buffer holds is leaked). It may be moved (memcpy), and the buffer with it; never two copies may be used.
 *  2. The handles and other pointers of one call don't overlap: `iobuf_clone(&a, &a)` is not allowed.
 *  3. One call at a time uses a buffer. Another thread may use it after what orders the two (a lock, a thread's start
 *     or join, a SEQ_CST atomic). Several threads may use buffers that share a block at once, and one buffer by calls
 *     that only look (at a const handle, and `.._chunk` of a writable buffer): both are tested with eight threads
 *     (c/tests/threads.c), and neither is proved.
 *  4. No pointer is NULL, also for 0 bytes, except two of `iobufs_frames_header`; those to bytes outlive the call. The
 *     bytes of `iobuf_from_static` live, unchanged, until the last buffer made of them is dropped.
 *  5. The pointer of `.._chunk` and its like may be read until the next call that changes or drops that buffer. Only
 *     the bytes of a writable buffer (`iobufmut`, `iobufsmut`) may be overwritten there, and the space that
 *     `iobufs_received_space` lends.
 *  6. malloc, realloc and free are one allocator's; no call comes from a signal handler, or from the forked child of a
 *     process with threads.
 *
 * The comment of a call that returns a status ends with one line or two:
 *   Fails: the statuses other than IOBUFS_OK, with their causes. A call that has IOBUFS_MEMORY there may allocate,
 *     and returns it if that fails; no other call allocates. "(reserved)": this can't happen now, and may in a later
 *     version. The contract promises that it can't only for bytes of `iobuf_from_static`, for no bytes (except that
 *     `iobuf_clone` keeps the storage of an emptied view), for a split or a take of all bytes, and for a builder in
 *     which no bytes were put.
 *   Keeps: what is unchanged after a failure.
 * The name in brackets is the original's; "own" if it has none.
 */
#ifndef IOBUFS_H
#define IOBUFS_H

/* The version of this header, of the archive and of the Rust crate. It models commonware-runtime 2026.10.0. */
#define IOBUFS_VERSION "0.4.0"

#include <stdbool.h>
#include <stddef.h>
#include <stdint.h>

#ifdef __cplusplus
extern "C" {
#endif

/* Statuses. */
enum iobufs_code {
    IOBUFS_OK = 0,             /* done */
    IOBUFS_MEMORY = 1,         /* an allocation failed */
    IOBUFS_BAD_LAYOUT = 2,     /* the capacity would be above SSIZE_MAX */
    IOBUFS_TOO_LONG = 3,       /* a sum would pass SIZE_MAX, or a header can't have this length or these bytes */
    IOBUFS_OUT_OF_RANGE = 4,   /* a range or an offset is outside the bytes, or bytes don't fit */
    IOBUFS_END_OF_BUFFER = 5,  /* fewer bytes remain than the call needs */
    IOBUFS_INVALID_VARINT = 6, /* the bytes are an invalid varint */
    IOBUFS_INVALID_LENGTH = 7, /* the length is outside the range, or below `counts` */
    IOBUFS_DECLINED = 8,       /* the buffer can't be converted, or both are one; all stays */
    IOBUFS_BAD_KIND = 9       /* the kind of a bound, a prefix, or a number's size or order, is unknown */
};
typedef uint8_t iobufs_status;

/* What a status says, in English. Never NULL, also for a number that is no status. */
static inline const char *iobufs_strerror(iobufs_status status) {
    static const char *const texts[] = {
        "done", "an allocation failed", "capacity too large", "lengths or capacities add up to too much",
        "outside the bytes or the space", "fewer bytes remain", "invalid varint", "length outside the range",
        "the buffer can't be converted", "unknown kind, size or order",
    };
    return status < sizeof texts / sizeof *texts ? texts[status] : "no status";
}

/* Has GCC and clang warn of a caller that doesn't look at a status. */
#if defined(__GNUC__)
#define IOBUFS_CHECKED __attribute__((warn_unused_result))
#else
#define IOBUFS_CHECKED
#endif

/* Sizes and the alignment, of which a buffer's memory has to be. The library's own are at most these, and depend on how
 * it was built; `iobuf_size()` .. return the sizes. */
#define IOBUF_SIZE 48
#define IOBUFMUT_SIZE 56
#define IOBUFS_SIZE 56
#define IOBUFSMUT_SIZE 80
#define IOBUFS_BUILDER_SIZE 112
#define IOBUFS_FRAMES_SIZE 64
#define IOBUFS_RECEIVED_SIZE 112
#define IOBUFS_ALIGN 8

struct iobuf { uint64_t room[IOBUF_SIZE / 8]; };                   /* IoBuf: bytes to read, in one chunk */
struct iobufmut { uint64_t room[IOBUFMUT_SIZE / 8]; };             /* IoBufMut: a buffer to write */
struct iobufs { uint64_t room[IOBUFS_SIZE / 8]; };                 /* IoBufs: bytes in several chunks */
struct iobufsmut { uint64_t room[IOBUFSMUT_SIZE / 8]; };           /* IoBufsMut: parts to write */
struct iobufs_builder { uint64_t room[IOBUFS_BUILDER_SIZE / 8]; }; /* Builder: an iobufs in the making */
struct iobufs_frames { uint64_t room[IOBUFS_FRAMES_SIZE / 8]; };   /* Frames: frames of bytes that come in chunks */
struct iobufs_received { uint64_t room[IOBUFS_RECEIVED_SIZE / 8]; }; /* Received: frames read into one block */

/* Handles. */
struct iobuf_at { struct iobuf *at; };
struct iobufmut_at { struct iobufmut *at; };
struct iobufs_at { struct iobufs *at; };
struct iobufsmut_at { struct iobufsmut *at; };
struct iobufs_builder_at { struct iobufs_builder *at; };
struct iobufs_frames_at { struct iobufs_frames *at; };
struct iobufs_received_at { struct iobufs_received *at; };

/* `struct iobuf_at view = IOBUF_INIT;` makes an empty buffer, whose memory lives as long as the block around it (C
 * alone): one line in place of the memory, the handle and the call of `.._init`. IOBUFS_RECEIVED_INIT makes an empty
 * receive block of frames whose headers are varint lengths; `iobufs_received_new` makes one of other lengths. */
#ifndef __cplusplus
#define IOBUF_INIT iobuf_made(&(struct iobuf){{0}})
#define IOBUFMUT_INIT iobufmut_made(&(struct iobufmut){{0}})
#define IOBUFS_INIT iobufs_made(&(struct iobufs){{0}})
#define IOBUFSMUT_INIT iobufsmut_made(&(struct iobufsmut){{0}})
#define IOBUFS_BUILDER_INIT iobufs_builder_made(&(struct iobufs_builder){{0}})
#define IOBUFS_FRAMES_INIT iobufs_frames_made(&(struct iobufs_frames){{0}})
#define IOBUFS_RECEIVED_INIT iobufs_received_made(&(struct iobufs_received){{0}})
#endif

/* How the library was built, of the proved source: by the kit, or by cargo, without three of its files (docs/C.md). */
enum iobufs_build_kind { IOBUFS_BUILT_BY_KIT = 0, IOBUFS_BUILT_BY_CARGO = 1 };

/* As `struct iovec` of <sys/uio.h>, which may be cast to it. */
struct iobufs_iovec { const uint8_t *base; size_t len; };

/* The order of a number's bytes: the highest is the first (BE), or the last (LE). */
enum iobufs_order { IOBUFS_BE = 0, IOBUFS_LE = 1 };

/* The bounds of a range. */
enum iobufs_bound { IOBUFS_INCLUDED = 0, IOBUFS_EXCLUDED = 1, IOBUFS_UNBOUNDED = 2 };

/* How a frame's length is written, which comes before its body: a varint, or a number of one, two, three, four or eight
 * bytes, whose highest byte is the first (BE) or the last (LE). */
enum iobufs_prefix {
    IOBUFS_VARINT = 0,
    IOBUFS_U16_BE = 1, IOBUFS_U32_BE = 2, IOBUFS_U64_BE = 3,
    IOBUFS_U16_LE = 4, IOBUFS_U32_LE = 5, IOBUFS_U64_LE = 6,
    IOBUFS_U8 = 7, IOBUFS_U24_BE = 8, IOBUFS_U24_LE = 9
};

/* How a frame's header is laid out: `before` bytes, the length, written as an `enum iobufs_prefix`, and `after` bytes,
 * which the body follows. The length counts the bytes of the body and `counts` more: 0 if it counts the body alone, 4
 * if it is a number of four bytes that counts itself. A header that is its length alone is
 * `{ .prefix = IOBUFS_U32_BE }`. */
struct iobufs_layout { uint8_t before, prefix, after, counts; };

/* generated: exports */

/* ---- How the library was built ---- */

/* Returns how this library was built: an `enum iobufs_build_kind`. (own) */
uint32_t iobufs_build(void);

/* ---- iobuf (IoBuf): a view of bytes, which shares their storage with its clones and slices ---- */

/* Returns the library's size of a `struct iobuf`. (own) */
size_t iobuf_size(void);
/* Makes the empty view of memory. (IoBuf::default) */
void iobuf_init(struct iobuf *at);
/* Drops the bytes; the empty view is left. (Drop) */
void iobuf_drop(struct iobuf_at *src);
/* Makes a view of n bytes, which aren't copied. They have to live, unchanged, until the last buffer made of them is
 * dropped (duty 4). (From<&'static [u8]>) */
void iobuf_from_static(const uint8_t *text, size_t n, struct iobuf_at *out);
/* Makes a copy of n bytes. (IoBuf::copy_from_slice)
 * Fails: IOBUFS_MEMORY except for 0 bytes. */
IOBUFS_CHECKED iobufs_status iobuf_copy_from_slice(const uint8_t *src, size_t n, struct iobuf_at *out);
/* Returns the number of bytes. (IoBuf::len) */
size_t iobuf_len(const struct iobuf_at *src);
/* Writes a pointer to the bytes, and returns how many there are; of none it isn't NULL, and may not be read. (AsRef,
 * Buf::chunk) */
size_t iobuf_chunk(const struct iobuf_at *src, const uint8_t **out);
/* Returns whether two views hold the same bytes. (PartialEq) */
bool iobuf_eq(const struct iobuf_at *src, const struct iobuf_at *other);
/* Makes another view of the same bytes, in their storage: no byte is copied. (Clone)
 * Fails: IOBUFS_MEMORY (reserved). */
IOBUFS_CHECKED iobufs_status iobuf_clone(const struct iobuf_at *src, struct iobuf_at *out);
/* Drops the first n bytes. (Buf::advance)
 * Fails: IOBUFS_OUT_OF_RANGE if there are fewer. */
IOBUFS_CHECKED iobufs_status iobuf_advance(struct iobuf_at *src, size_t n);
/* Takes the first `at` bytes, in the same storage. (IoBuf::split_to)
 * Fails: IOBUFS_OUT_OF_RANGE if there are fewer; IOBUFS_MEMORY (reserved). */
IOBUFS_CHECKED iobufs_status iobuf_split_to(struct iobuf_at *src, size_t at, struct iobuf_at *out);
/* Copies the first n bytes out and drops them. (Buf::copy_to_slice)
 * Fails: IOBUFS_END_OF_BUFFER if there are fewer. */
IOBUFS_CHECKED iobufs_status iobuf_copy_to_slice(struct iobuf_at *src, uint8_t *dst, size_t n);
/* Makes a view of the bytes of a range, in the same storage; bounds are `enum iobufs_bound`. (IoBuf::slice)
 * Fails: IOBUFS_BAD_KIND if a kind is none of these; IOBUFS_OUT_OF_RANGE if the range isn't within the bytes;
 *   IOBUFS_MEMORY (reserved). */
IOBUFS_CHECKED iobufs_status iobuf_slice(const struct iobuf_at *src, uint8_t lo_kind, size_t lo, uint8_t hi_kind,
    size_t hi, struct iobuf_at *out);

/* ---- iobufmut (IoBufMut): a buffer to write, which never grows. The empty one has capacity 0 ---- */

/* Returns the library's size of a `struct iobufmut`. (own) */
size_t iobufmut_size(void);
/* Makes the empty buffer of memory. (IoBufMut::default) */
void iobufmut_init(struct iobufmut *at);
/* Drops the buffer; the empty one is left. (Drop) */
void iobufmut_drop(struct iobufmut_at *part);
/* Makes an empty buffer of capacity n. (IoBufMut::with_capacity)
 * Fails: IOBUFS_BAD_LAYOUT if n is above SSIZE_MAX; IOBUFS_MEMORY except for 0. */
IOBUFS_CHECKED iobufs_status iobufmut_with_capacity(size_t n, struct iobufmut_at *out);
/* Makes a buffer of n bytes, all zero. (IoBufMut::zeroed)
 * Fails: IOBUFS_BAD_LAYOUT if n is above SSIZE_MAX; IOBUFS_MEMORY except for 0. */
IOBUFS_CHECKED iobufs_status iobufmut_zeroed(size_t n, struct iobufmut_at *out);
/* Makes a copy of n bytes, without spare capacity. (From<&[u8]>)
 * Fails: IOBUFS_MEMORY except for 0 bytes. */
IOBUFS_CHECKED iobufs_status iobufmut_copy_from_slice(const uint8_t *src, size_t n, struct iobufmut_at *out);
/* Recovers the storage as a writable buffer, and leaves the empty view. It recovers native storage that no other view
 * shares: tested, not proved. (IoBuf::try_into_mut)
 * Fails: IOBUFS_DECLINED if the storage isn't recovered.
 * Keeps: the view. */
IOBUFS_CHECKED iobufs_status iobuf_try_into_mut(struct iobuf_at *src, struct iobufmut_at *out);
/* Makes a writable buffer of the bytes of a view: recovered as by iobuf_try_into_mut, else copied; the empty view is
 * left. (From<IoBuf>)
 * Fails: IOBUFS_MEMORY, for the copy.
 * Keeps: both. */
IOBUFS_CHECKED iobufs_status iobufmut_from_view(struct iobuf_at *src, struct iobufmut_at *out);
/* Returns the number of readable bytes. (len) */
size_t iobufmut_len(const struct iobufmut_at *part);
/* Returns how many bytes fit, counted from the first readable one. (capacity) */
size_t iobufmut_capacity(const struct iobufmut_at *part);
/* Returns how many bytes may still be put. (BufMut::remaining_mut) */
size_t iobufmut_remaining_mut(const struct iobufmut_at *part);
/* Writes a pointer to the readable bytes, as iobuf_chunk does, and returns how many there are. No other buffer shares
 * them: they may be overwritten there, and no contract says with which bytes. (AsRef, AsMut) */
size_t iobufmut_chunk(struct iobufmut_at *part, uint8_t **out);
/* Appends bytes. (BufMut::put_slice)
 * Fails: IOBUFS_OUT_OF_RANGE if they don't fit. */
IOBUFS_CHECKED iobufs_status iobufmut_put_slice(struct iobufmut_at *part, const uint8_t *src, size_t n);
/* Puts a byte n times. (BufMut::put_bytes)
 * Fails: IOBUFS_OUT_OF_RANGE if they don't fit. */
IOBUFS_CHECKED iobufs_status iobufmut_put_bytes(struct iobufmut_at *part, uint8_t value, size_t n);
/* Makes n bytes readable; those that were not are zero. (set_len)
 * Fails: IOBUFS_OUT_OF_RANGE if n is above the capacity. */
IOBUFS_CHECKED iobufs_status iobufmut_set_len(struct iobufmut_at *part, size_t n);
/* Keeps at most the first n bytes. (truncate) */
void iobufmut_truncate(struct iobufmut_at *part, size_t n);
/* Drops the first n readable bytes. (Buf::advance)
 * Fails: IOBUFS_OUT_OF_RANGE if there are fewer. */
IOBUFS_CHECKED iobufs_status iobufmut_advance(struct iobufmut_at *part, size_t n);
/* Copies the first n bytes out and drops them. (Buf::copy_to_slice)
 * Fails: IOBUFS_END_OF_BUFFER if there are fewer. */
IOBUFS_CHECKED iobufs_status iobufmut_copy_to_slice(struct iobufmut_at *part, uint8_t *dst, size_t n);
/* Writes over n readable bytes from `at` on. (AsMut)
 * Fails: IOBUFS_OUT_OF_RANGE if they pass the readable bytes. */
IOBUFS_CHECKED iobufs_status iobufmut_write_at(struct iobufmut_at *part, size_t at, const uint8_t *src, size_t n);
/* Makes a view of the bytes, not copied; the empty buffer is left. (freeze)
 * Fails: IOBUFS_MEMORY (reserved), and the buffer is dropped. */
IOBUFS_CHECKED iobufs_status iobufmut_freeze(struct iobufmut_at *part, struct iobuf_at *out);

/* ---- iobufs (IoBufs): bytes in several chunks, none of which is copied ---- */

/* Returns the library's size of a `struct iobufs`. (own) */
size_t iobufs_size(void);
/* Makes memory an empty iobufs. (IoBufs::default) */
void iobufs_init(struct iobufs *at);
/* Drops the bytes; the empty iobufs is left. (Drop) */
void iobufs_drop(struct iobufs_at *bufs);
/* Makes an iobufs of one view, which is left empty. (From<IoBuf>) */
void iobufs_from_view(struct iobuf_at *src, struct iobufs_at *out);
/* Returns whether both hold the same bytes, for every chunking. (==) */
bool iobufs_eq(const struct iobufs_at *bufs, const struct iobufs_at *other);
/* Makes another iobufs of the same bytes, in their storage. (Clone)
 * Fails: IOBUFS_MEMORY, for the deque of chunks. */
IOBUFS_CHECKED iobufs_status iobufs_clone(const struct iobufs_at *bufs, struct iobufs_at *out);
/* Returns the number of bytes. (IoBufs::len) */
size_t iobufs_len(const struct iobufs_at *bufs);
/* Returns the number of chunks that hold bytes. (chunk_count) */
size_t iobufs_chunk_count(const struct iobufs_at *bufs);
/* Writes a pointer to the first chunk, as iobuf_chunk does, and returns its length. (Buf::chunk) */
size_t iobufs_chunk(const struct iobufs_at *bufs, const uint8_t **out);
/* Writes the index of the chunk that contains an offset, and the distance from its start. (own)
 * Fails: IOBUFS_OUT_OF_RANGE if the offset is at the end, or after it. */
IOBUFS_CHECKED iobufs_status iobufs_locate(const struct iobufs_at *bufs, size_t at, size_t *index, size_t *offset);
/* Adds a view at the end, and leaves its handle empty. (append)
 * Fails: IOBUFS_TOO_LONG if the length would pass SIZE_MAX; IOBUFS_MEMORY if the list of chunks has to grow.
 * Keeps: both. */
IOBUFS_CHECKED iobufs_status iobufs_append(struct iobufs_at *bufs, struct iobuf_at *view);
/* Adds a view at the start, and leaves its handle empty. (prepend)
 * Fails: IOBUFS_TOO_LONG if the length would pass SIZE_MAX; IOBUFS_MEMORY if the list of chunks has to grow.
 * Keeps: both. */
IOBUFS_CHECKED iobufs_status iobufs_prepend(struct iobufs_at *bufs, struct iobuf_at *view);
/* Takes the first `at` bytes. (IoBufs::split_to)
 * Fails: IOBUFS_OUT_OF_RANGE if there are fewer; IOBUFS_MEMORY if the smaller side has several chunks. */
IOBUFS_CHECKED iobufs_status iobufs_split_to(struct iobufs_at *bufs, size_t at, struct iobufs_at *out);
/* Makes an iobufs of the bytes from offset lo to hi, in their storage. It costs the chunks of that range alone. (own)
 * Fails: IOBUFS_OUT_OF_RANGE if lo is above hi, or hi above the length; IOBUFS_MEMORY. */
IOBUFS_CHECKED iobufs_status iobufs_slice(const struct iobufs_at *bufs, size_t lo, size_t hi, struct iobufs_at *out);
/* Keeps at most the first n bytes. (own)
 * Fails: IOBUFS_MEMORY, unless n is 0 or there are no more.
 * Keeps: all bytes. */
IOBUFS_CHECKED iobufs_status iobufs_truncate(struct iobufs_at *bufs, size_t n);
/* Drops the first n bytes. (Buf::advance)
 * Fails: IOBUFS_OUT_OF_RANGE if there are fewer. */
IOBUFS_CHECKED iobufs_status iobufs_advance(struct iobufs_at *bufs, size_t n);
/* Copies the first n bytes out and drops them. (Buf::copy_to_slice)
 * Fails: IOBUFS_END_OF_BUFFER if there are fewer. */
IOBUFS_CHECKED iobufs_status iobufs_copy_to_slice(struct iobufs_at *bufs, uint8_t *dst, size_t n);
/* Copies the n bytes after the first `skip` out, of which none is dropped. With 0 and iobufs_len it copies all. (own)
 * Fails: IOBUFS_END_OF_BUFFER if there are fewer, and nothing is written. */
IOBUFS_CHECKED iobufs_status iobufs_peek(const struct iobufs_at *bufs, size_t skip, uint8_t *dst, size_t n);
/* Takes the first n bytes as one view: shared within a chunk, a copy across chunks. (take_owned, Buf::copy_to_bytes)
 * Fails: IOBUFS_END_OF_BUFFER if there are fewer; IOBUFS_MEMORY, for the copy. */
IOBUFS_CHECKED iobufs_status iobufs_take(struct iobufs_at *bufs, size_t n, struct iobuf_at *out);
/* Takes the n bytes after the first `skip`, which are dropped too, as one view, as iobufs_take does. (own)
 * Fails: IOBUFS_END_OF_BUFFER if there are fewer; IOBUFS_MEMORY, for the copy. */
IOBUFS_CHECKED iobufs_status iobufs_take_after(struct iobufs_at *bufs, size_t skip, size_t n, struct iobuf_at *out);
/* Makes one view of all bytes, with a copy of several chunks. `bufs` is left empty, also after an error: clone `bufs`
 * first to keep the bytes. (coalesce)
 * Fails: IOBUFS_BAD_LAYOUT if several chunks have more than SSIZE_MAX bytes; IOBUFS_MEMORY, for the copy. */
IOBUFS_CHECKED iobufs_status iobufs_coalesce(struct iobufs_at *bufs, struct iobuf_at *out);
/* Takes the only chunk as a view; `bufs` is left empty. (try_into_single)
 * Fails: IOBUFS_DECLINED if there are more.
 * Keeps: the chunks. */
IOBUFS_CHECKED iobufs_status iobufs_try_into_single(struct iobufs_at *bufs, struct iobuf_at *out);
/* Fills a list of n with the chunks from chunk first on, counted from 0, and returns how many it filled; 0 if there
 * are none. So a loop takes many chunks at a time. (own) */
size_t iobufs_chunks_from(const struct iobufs_at *bufs, size_t first, struct iobufs_iovec *out, size_t n);

/* ---- iobufsmut (IoBufsMut): writable buffers (parts) as one. The empty one has one part, of capacity 0 ---- */

/* Returns the library's size of a `struct iobufsmut`. (own) */
size_t iobufsmut_size(void);
/* Makes the empty iobufsmut of memory. (IoBufsMut::default) */
void iobufsmut_init(struct iobufsmut *at);
/* Drops the buffers; the empty iobufsmut is left. (Drop) */
void iobufsmut_drop(struct iobufsmut_at *parts);
/* Makes an iobufsmut of one buffer, whose handle is left empty. (From<IoBufMut>) */
void iobufsmut_from_mut(struct iobufmut_at *part, struct iobufsmut_at *out);
/* Makes an iobufsmut of the buffers of n handles in order, without those that can hold no byte; the handles are left
 * empty. (FromIterator)
 * Fails: IOBUFS_TOO_LONG if the capacities would pass SIZE_MAX; IOBUFS_MEMORY. After both the buffers may be dropped:
 *   all of them, or none. */
IOBUFS_CHECKED iobufs_status iobufsmut_from_parts(struct iobufmut_at *buffers, size_t n, struct iobufsmut_at *out);
/* Returns the number of readable bytes. (len) */
size_t iobufsmut_len(const struct iobufsmut_at *parts);
/* Returns the sum of the parts' capacities; a drained part counts with its spare capacity. (capacity) */
size_t iobufsmut_capacity(const struct iobufsmut_at *parts);
/* Returns how many bytes may still be put. (BufMut::remaining_mut) */
size_t iobufsmut_remaining_mut(const struct iobufsmut_at *parts);
/* Returns the number of parts. (own) */
size_t iobufsmut_part_count(const struct iobufsmut_at *parts);
/* Writes a pointer to the first chunk of the readable bytes, as iobuf_chunk does, and returns the chunk's length. No
 * other buffer shares its bytes: they may be overwritten there, and no contract says with which bytes. (Buf::chunk) */
size_t iobufsmut_chunk(struct iobufsmut_at *parts, uint8_t **out);
/* Fills a list of n for readv (or writev) with the first chunks of the readable bytes, and returns how many it filled.
 * To read into parts, set their length first. (Buf::chunks_vectored) */
size_t iobufsmut_chunks(const struct iobufsmut_at *parts, struct iobufs_iovec *out, size_t n);
/* Puts bytes, part after part. (BufMut::put_slice)
 * Fails: IOBUFS_OUT_OF_RANGE if they don't fit. */
IOBUFS_CHECKED iobufs_status iobufsmut_put_slice(struct iobufsmut_at *parts, const uint8_t *src, size_t n);
/* Puts a byte n times. (BufMut::put_bytes)
 * Fails: IOBUFS_OUT_OF_RANGE if they don't fit. */
IOBUFS_CHECKED iobufs_status iobufsmut_put_bytes(struct iobufsmut_at *parts, uint8_t value, size_t n);
/* Makes n bytes readable, the parts filled in order; those that were not are zero. A part loses readable bytes that
 * are above its share of the n. (set_len)
 * Fails: IOBUFS_OUT_OF_RANGE if n is above the capacity. */
IOBUFS_CHECKED iobufs_status iobufsmut_set_len(struct iobufsmut_at *parts, size_t n);
/* Drops the first n readable bytes; a drained part keeps its spare capacity. (Buf::advance)
 * Fails: IOBUFS_OUT_OF_RANGE if there are fewer. */
IOBUFS_CHECKED iobufs_status iobufsmut_advance(struct iobufsmut_at *parts, size_t n);
/* Copies the first n bytes out and drops them. (Buf::copy_to_slice)
 * Fails: IOBUFS_END_OF_BUFFER if there are fewer. */
IOBUFS_CHECKED iobufs_status iobufsmut_copy_to_slice(struct iobufsmut_at *parts, uint8_t *dst, size_t n);
/* Makes the parts that hold bytes the chunks of one iobufs, not copied; the empty iobufsmut is left. (freeze)
 * Fails: IOBUFS_MEMORY, for the deque, and the parts are dropped. */
IOBUFS_CHECKED iobufs_status iobufsmut_freeze(struct iobufsmut_at *parts, struct iobufs_at *out);
/* Makes one buffer of the parts; the bytes of several are copied, perhaps into the first one's storage. The empty
 * iobufsmut is left, also after an error. (coalesce)
 * Fails: IOBUFS_BAD_LAYOUT if several have more than SSIZE_MAX bytes; IOBUFS_MEMORY, for the copy. */
IOBUFS_CHECKED iobufs_status iobufsmut_coalesce(struct iobufsmut_at *parts, struct iobufmut_at *out);

/* ---- iobufs_builder (Builder): bytes that are put, and views that are pushed, as one iobufs. The empty one
 * takes views alone ---- */

/* Returns the library's size of a `struct iobufs_builder`. (own) */
size_t iobufs_builder_size(void);
/* Makes the empty builder of memory. (own) */
void iobufs_builder_init(struct iobufs_builder *at);
/* Drops the builder; the empty one is left. (Drop) */
void iobufs_builder_drop(struct iobufs_builder_at *builder);
/* Makes a builder for this many bytes that are put. (Builder::new)
 * Fails: IOBUFS_BAD_LAYOUT if they are above SSIZE_MAX; IOBUFS_MEMORY except for 0. */
IOBUFS_CHECKED iobufs_status iobufs_builder_new(size_t capacity, struct iobufs_builder_at *out);
/* Returns how many bytes may still be put. (BufMut::remaining_mut) */
size_t iobufs_builder_remaining_mut(const struct iobufs_builder_at *builder);
/* Puts bytes. (BufMut::put_slice)
 * Fails: IOBUFS_OUT_OF_RANGE if they don't fit. */
IOBUFS_CHECKED iobufs_status iobufs_builder_put_slice(struct iobufs_builder_at *builder, const uint8_t *src, size_t n);
/* Puts a byte n times. (BufMut::put_bytes)
 * Fails: IOBUFS_OUT_OF_RANGE if they don't fit. */
IOBUFS_CHECKED iobufs_status iobufs_builder_put_bytes(struct iobufs_builder_at *builder, uint8_t value, size_t n);
/* Pushes a view, not copied, and leaves its handle empty. (Builder::push)
 * Fails: IOBUFS_TOO_LONG if the capacity and all pushed bytes would pass SIZE_MAX; IOBUFS_MEMORY, for the deque.
 * Keeps: both. */
IOBUFS_CHECKED iobufs_status iobufs_builder_push(struct iobufs_builder_at *builder, struct iobuf_at *view);
/* Makes an iobufs of all that was put and pushed; the empty builder is left, also after an error. (Builder::finish)
 * Fails: IOBUFS_MEMORY (reserved). */
IOBUFS_CHECKED iobufs_status iobufs_builder_finish(struct iobufs_builder_at *builder, struct iobufs_at *out);

/* ---- Varint lengths: seven bits a byte, lowest first, in the shortest form ---- */

/* Returns the number of bytes of a varint length: at most ten. (usize::encode_size) */
size_t iobufs_length_size(size_t n);
/* Appends a varint length (see iobufs_length_size). (usize::write)
 * Fails: IOBUFS_OUT_OF_RANGE if it doesn't fit. */
IOBUFS_CHECKED iobufs_status iobufmut_put_length(struct iobufmut_at *part, size_t n);
/* Puts a varint length, part after part. (usize::write)
 * Fails: IOBUFS_OUT_OF_RANGE if it doesn't fit. */
IOBUFS_CHECKED iobufs_status iobufsmut_put_length(struct iobufsmut_at *parts, size_t n);
/* Appends a varint length. (usize::write)
 * Fails: IOBUFS_OUT_OF_RANGE if it doesn't fit. */
IOBUFS_CHECKED iobufs_status iobufs_builder_put_length(struct iobufs_builder_at *builder, size_t n);
/* Reads the length at the front, from lo to hi, and drops it. (usize::read_cfg)
 * Fails: IOBUFS_END_OF_BUFFER if the length may continue after the end; IOBUFS_INVALID_VARINT if the length is
 *   invalid; IOBUFS_INVALID_LENGTH if the length is outside: it is written to `out` then.
 * Keeps: the bytes. */
IOBUFS_CHECKED iobufs_status iobufs_read_length(struct iobufs_at *bufs, size_t lo, size_t hi, size_t *out);
/* Reads the length at the front of a view, as iobufs_read_length does. (Read)
 * Fails: IOBUFS_END_OF_BUFFER if the length may continue after the end; IOBUFS_INVALID_VARINT if the length is
 *   invalid; IOBUFS_INVALID_LENGTH if the length is outside: it is written to `out` then.
 * Keeps: the bytes. */
IOBUFS_CHECKED iobufs_status iobuf_read_length(struct iobuf_at *src, size_t lo, size_t hi, size_t *out);
/* Reads a length from lo to hi and the bytes after it, as one view: shared within a chunk, a copy across chunks.
 * (IoBuf::read_cfg)
 * Fails: IOBUFS_END_OF_BUFFER if the length may continue after the end, or fewer bytes follow; IOBUFS_INVALID_VARINT
 *   if it is invalid; IOBUFS_INVALID_LENGTH if it is outside; IOBUFS_MEMORY, for the copy.
 * Keeps: both. */
IOBUFS_CHECKED iobufs_status iobufs_read_view(struct iobufs_at *bufs, size_t lo, size_t hi, struct iobuf_at *out);
/* Reads a length and the bytes after it from a view, in its storage, as iobufs_read_view does. (IoBuf::read_cfg)
 * Fails: IOBUFS_END_OF_BUFFER if the length may continue after the end, or fewer bytes follow; IOBUFS_INVALID_VARINT
 *   if it is invalid; IOBUFS_INVALID_LENGTH if it is outside; IOBUFS_MEMORY (reserved).
 * Keeps: both. */
IOBUFS_CHECKED iobufs_status iobuf_read_view(struct iobuf_at *src, size_t lo, size_t hi, struct iobuf_at *out);

/* ---- Numbers of one, two, four or eight bytes, in either order ---- */

/* Puts the lowest `size` bytes of a number, in an `enum iobufs_order`. (own)
 * Fails: IOBUFS_BAD_KIND if `size` isn't 1, 2, 4 or 8, or the order is unknown; IOBUFS_OUT_OF_RANGE if the bytes don't
 *   fit. */
IOBUFS_CHECKED iobufs_status iobufmut_put_number(struct iobufmut_at *part, uint64_t n, uint8_t size, uint8_t order);
/* Puts a number as iobufmut_put_number does, part after part. (own)
 * Fails: IOBUFS_BAD_KIND if `size` isn't 1, 2, 4 or 8, or the order is unknown; IOBUFS_OUT_OF_RANGE if the bytes don't
 *   fit. */
IOBUFS_CHECKED iobufs_status iobufsmut_put_number(struct iobufsmut_at *parts, uint64_t n, uint8_t size, uint8_t order);
/* Puts a number as iobufmut_put_number does. (own)
 * Fails: IOBUFS_BAD_KIND if `size` isn't 1, 2, 4 or 8, or the order is unknown; IOBUFS_OUT_OF_RANGE if the bytes don't
 *   fit. */
IOBUFS_CHECKED iobufs_status iobufs_builder_put_number(struct iobufs_builder_at *builder, uint64_t n, uint8_t size,
    uint8_t order);
/* Reads the number of `size` bytes at the front, and drops it. (own)
 * Fails: IOBUFS_BAD_KIND if `size` isn't 1, 2, 4 or 8, or the order is unknown; IOBUFS_END_OF_BUFFER if there are
 *   fewer bytes.
 * Keeps: both. */
IOBUFS_CHECKED iobufs_status iobuf_get_number(struct iobuf_at *src, uint8_t size, uint8_t order, uint64_t *out);
/* Reads the number of `size` bytes at the front, as iobuf_get_number does. (own)
 * Fails: IOBUFS_BAD_KIND if `size` isn't 1, 2, 4 or 8, or the order is unknown; IOBUFS_END_OF_BUFFER if there are
 *   fewer bytes.
 * Keeps: both. */
IOBUFS_CHECKED iobufs_status iobufs_get_number(struct iobufs_at *bufs, uint8_t size, uint8_t order, uint64_t *out);

/* ---- iobufs_frames (Frames): frames, each a header and a body, of bytes that come in chunks. The header is a
 * length, unless iobufs_frames_set_layout says otherwise ---- */

/* Returns the library's size of a `struct iobufs_frames`. (own) */
size_t iobufs_frames_size(void);
/* Makes frames of memory, to which nothing was fed, with varint lengths. (own) */
void iobufs_frames_init(struct iobufs_frames *at);
/* Drops what was fed; nothing is left, and lengths are varints. (Drop) */
void iobufs_frames_drop(struct iobufs_frames_at *frames);
/* Returns how many bytes were fed and not taken. (own) */
size_t iobufs_frames_len(const struct iobufs_frames_at *frames);
/* Makes an iobufs of the bytes that were fed and not taken, in their storage. (own)
 * Fails: IOBUFS_MEMORY, for the deque. */
IOBUFS_CHECKED iobufs_status iobufs_frames_rest(const struct iobufs_frames_at *frames, struct iobufs_at *out);
/* Adds a view at the end, and leaves its handle empty. Each view that is held takes 40 to 120 bytes besides its
 * storage, even if it has one byte: bound the number of views too, or read into a struct iobufs_received, which has
 * one block. (own)
 * Fails: IOBUFS_TOO_LONG if the length would pass SIZE_MAX; IOBUFS_MEMORY if the list of chunks has to grow.
 * Keeps: both. */
IOBUFS_CHECKED iobufs_status iobufs_frames_feed(struct iobufs_frames_at *frames, struct iobuf_at *view);
/* Sets the layout of the headers, from the next frame on. (own)
 * Fails: IOBUFS_BAD_KIND if `layout->prefix` is no `enum iobufs_prefix`. */
IOBUFS_CHECKED iobufs_status iobufs_frames_set_layout(struct iobufs_frames_at *frames,
    const struct iobufs_layout *layout);
/* Writes a body's length n, which is sent before the body, as an `enum iobufs_prefix` to `out`, and its size to `len`:
 * at most ten bytes. (own)
 * Fails: IOBUFS_BAD_KIND if the prefix is unknown; IOBUFS_TOO_LONG if no length of this form is n; IOBUFS_OUT_OF_RANGE
 *   if the length doesn't fit into `room` bytes.
 * Keeps: `out` and `len`. */
IOBUFS_CHECKED iobufs_status iobufs_frames_length(uint8_t prefix, size_t n, uint8_t *out, size_t room, size_t *len);
/* Takes the body of the first frame, which has from lo to hi bytes: shared within a chunk, a copy across chunks.
 * Writes the number in the header to `wrong` if the body would be outside, or the number is below `counts`. No further
 * bytes make a frame whole after IOBUFS_INVALID_VARINT or IOBUFS_INVALID_LENGTH. A loop of iobufs_frames_feed and this
 * call is `Frames::run`. (own)
 * Fails: IOBUFS_END_OF_BUFFER if it is not whole yet; IOBUFS_INVALID_VARINT if its length is invalid;
 *   IOBUFS_INVALID_LENGTH if the body's length is outside, or the number below `counts`; IOBUFS_MEMORY, for the copy.
 * Keeps: both. */
IOBUFS_CHECKED iobufs_status iobufs_frames_next(struct iobufs_frames_at *frames, size_t lo, size_t hi,
    struct iobuf_at *out, size_t *wrong);
/* Takes the first frame with its header, as iobufs_frames_next takes its body, and writes how many bytes the header
 * has to `header`. Its chunks share their storage: no byte is copied. (own)
 * Fails: IOBUFS_END_OF_BUFFER if it is not whole yet; IOBUFS_INVALID_VARINT if its length is invalid;
 *   IOBUFS_INVALID_LENGTH if the body's length is outside, or the number below `counts`; IOBUFS_MEMORY, for the deque.
 * Keeps: both, and `header`. */
IOBUFS_CHECKED iobufs_status iobufs_frames_next_whole(struct iobufs_frames_at *frames, size_t lo, size_t hi,
    struct iobufs_at *out, size_t *header, size_t *wrong);

/* ---- How the headers of frames are laid out ---- */

/* Writes the header of a body of n bytes, which is sent before it, to `out`, and its size to `len`: at most 32 bytes.
 * The `count` bytes of `around` are those around its length: the first `layout->before` come before it, the others
 * after. (own)
 * Fails: IOBUFS_BAD_KIND if `layout->prefix` is unknown; IOBUFS_TOO_LONG if `count` isn't `before` and `after`
 *   together, or is above 22, if no length of this form is n with `counts`, or if header and body would pass SIZE_MAX;
 *   IOBUFS_OUT_OF_RANGE if the header doesn't fit into `room` bytes.
 * Keeps: `out` and `len`. */
IOBUFS_CHECKED iobufs_status iobufs_layout_header(const struct iobufs_layout *layout, const uint8_t *around,
    size_t count, size_t n, uint8_t *out, size_t room, size_t *len);

/* ---- iobufs_received (Received): frames of bytes that are read into one block ---- */

/* Returns the library's size of a `struct iobufs_received`. (own) */
size_t iobufs_received_size(void);
/* Makes an empty receive block of memory, of frames whose headers are varint lengths. (own) */
void iobufs_received_init(struct iobufs_received *at);
/* Drops what came and was not taken; what iobufs_received_init makes is left. (Drop) */
void iobufs_received_drop(struct iobufs_received_at *received);
/* Makes an empty receive block of frames with this layout. (own)
 * Fails: IOBUFS_BAD_KIND if `layout->prefix` is no `enum iobufs_prefix`. */
IOBUFS_CHECKED iobufs_status iobufs_received_with_layout(const struct iobufs_layout *layout,
    struct iobufs_received_at *out);
/* Sets the layout of the headers, from the next frame on. (own)
 * Fails: IOBUFS_BAD_KIND if `layout->prefix` is no `enum iobufs_prefix`. */
IOBUFS_CHECKED iobufs_status iobufs_received_set_layout(struct iobufs_received_at *received,
    const struct iobufs_layout *layout);
/* Returns how many bytes came and were not taken. (own) */
size_t iobufs_received_len(const struct iobufs_received_at *received);
/* Lends the space for a read: writes its address to `out`, and to `n` how many bytes it has, at least one. They are
 * zeros, or what the block held before. If there is no space, it uses the block again if no body shares it and the
 * block is large enough, else it allocates, as after a frame above 64 KiB, which has a block of its own. (own)
 * Fails: IOBUFS_MEMORY if it allocates.
 * Keeps: what came, and `n`. */
IOBUFS_CHECKED iobufs_status iobufs_received_space(struct iobufs_received_at *received, uint8_t **out, size_t *n);
/* Counts the first n bytes of the space as received, after they were written there; the space is what is after them.
 * (own)
 * Fails: IOBUFS_OUT_OF_RANGE if it has fewer.
 * Keeps: the block. */
IOBUFS_CHECKED iobufs_status iobufs_received_filled(struct iobufs_received_at *received, size_t n);
/* Takes the body of the first frame, which has from lo to hi bytes. It shares the block, and keeps at most its own
 * frame or 64 KiB, whichever is more. It is copied only out of a block above 64 KiB of another size than its frame:
 * read only after IOBUFS_END_OF_BUFFER, and none is copied. Writes to `wrong` what iobufs_frames_next does. (own)
 * Fails: IOBUFS_END_OF_BUFFER if it is not whole yet; IOBUFS_INVALID_VARINT if its length is invalid;
 *   IOBUFS_INVALID_LENGTH if the body's length is outside, or the number below `counts`; IOBUFS_MEMORY, for the copy,
 *   and in the kit's build for a count.
 * Keeps: both. */
IOBUFS_CHECKED iobufs_status iobufs_received_next(struct iobufs_received_at *received, size_t lo, size_t hi,
    struct iobuf_at *out, size_t *wrong);
/* Takes the first frame with its header, as iobufs_received_next takes its body, and writes how many bytes the header
 * has to `header`. (own)
 * Fails: IOBUFS_END_OF_BUFFER if it is not whole yet; IOBUFS_INVALID_VARINT if its length is invalid;
 *   IOBUFS_INVALID_LENGTH if the body's length is outside, or the number below `counts`; IOBUFS_MEMORY, for the copy,
 *   and in the kit's build for a count.
 * Keeps: both, and `header`. */
IOBUFS_CHECKED iobufs_status iobufs_received_next_whole(struct iobufs_received_at *received, size_t lo, size_t hi,
    struct iobuf_at *out, size_t *header, size_t *wrong);

/* end */

/* ---- the calls below are inline: the library has no symbols for them. Each fails as the call that it makes, unless
 * its comment says otherwise ---- */

/* ---- big-endian numbers of a fixed size. For little-endian ones pass IOBUFS_LE to iobufmut_put_number and its like,
 * or put what iobufs_swap32 returns, and swap what was read ---- */

/* Puts one byte. (BufMut::put_u8) */
static inline IOBUFS_CHECKED iobufs_status iobufmut_put_u8(struct iobufmut_at *part, uint8_t n) {
    return iobufmut_put_slice(part, &n, 1);
}
/* Puts a big-endian number of two bytes. (BufMut::put_u16) */
static inline IOBUFS_CHECKED iobufs_status iobufmut_put_u16(struct iobufmut_at *part, uint16_t n) {
    return iobufmut_put_number(part, n, 2, IOBUFS_BE);
}
/* Puts a big-endian number of four bytes. (BufMut::put_u32) */
static inline IOBUFS_CHECKED iobufs_status iobufmut_put_u32(struct iobufmut_at *part, uint32_t n) {
    return iobufmut_put_number(part, n, 4, IOBUFS_BE);
}
/* Puts a big-endian number of eight bytes. (BufMut::put_u64) */
static inline IOBUFS_CHECKED iobufs_status iobufmut_put_u64(struct iobufmut_at *part, uint64_t n) {
    return iobufmut_put_number(part, n, 8, IOBUFS_BE);
}
/* Puts one byte. (BufMut::put_u8) */
static inline IOBUFS_CHECKED iobufs_status iobufsmut_put_u8(struct iobufsmut_at *parts, uint8_t n) {
    return iobufsmut_put_slice(parts, &n, 1);
}
/* Puts a big-endian number of two bytes. (BufMut::put_u16) */
static inline IOBUFS_CHECKED iobufs_status iobufsmut_put_u16(struct iobufsmut_at *parts, uint16_t n) {
    return iobufsmut_put_number(parts, n, 2, IOBUFS_BE);
}
/* Puts a big-endian number of four bytes. (BufMut::put_u32) */
static inline IOBUFS_CHECKED iobufs_status iobufsmut_put_u32(struct iobufsmut_at *parts, uint32_t n) {
    return iobufsmut_put_number(parts, n, 4, IOBUFS_BE);
}
/* Puts a big-endian number of eight bytes. (BufMut::put_u64) */
static inline IOBUFS_CHECKED iobufs_status iobufsmut_put_u64(struct iobufsmut_at *parts, uint64_t n) {
    return iobufsmut_put_number(parts, n, 8, IOBUFS_BE);
}
/* Puts one byte. (BufMut::put_u8) */
static inline IOBUFS_CHECKED iobufs_status iobufs_builder_put_u8(struct iobufs_builder_at *builder, uint8_t n) {
    return iobufs_builder_put_slice(builder, &n, 1);
}
/* Puts a big-endian number of two bytes. (BufMut::put_u16) */
static inline IOBUFS_CHECKED iobufs_status iobufs_builder_put_u16(struct iobufs_builder_at *builder, uint16_t n) {
    return iobufs_builder_put_number(builder, n, 2, IOBUFS_BE);
}
/* Puts a big-endian number of four bytes. (BufMut::put_u32) */
static inline IOBUFS_CHECKED iobufs_status iobufs_builder_put_u32(struct iobufs_builder_at *builder, uint32_t n) {
    return iobufs_builder_put_number(builder, n, 4, IOBUFS_BE);
}
/* Puts a big-endian number of eight bytes. (BufMut::put_u64) */
static inline IOBUFS_CHECKED iobufs_status iobufs_builder_put_u64(struct iobufs_builder_at *builder, uint64_t n) {
    return iobufs_builder_put_number(builder, n, 8, IOBUFS_BE);
}
/* Reads the byte at the front, and drops it. (u8::read_cfg, Buf::get_u8) */
static inline IOBUFS_CHECKED iobufs_status iobuf_get_u8(struct iobuf_at *src, uint8_t *out) {
    return iobuf_copy_to_slice(src, out, 1);
}
/* Reads a big-endian number of two bytes, and drops it. (u16::read_cfg, Buf::get_u16) */
static inline IOBUFS_CHECKED iobufs_status iobuf_get_u16(struct iobuf_at *src, uint16_t *out) {
    uint64_t n = 0;
    iobufs_status status = iobuf_get_number(src, 2, IOBUFS_BE, &n);
    if (status == IOBUFS_OK) *out = n & UINT16_MAX;
    return status;
}
/* Reads a big-endian number of four bytes, and drops it. (u32::read_cfg, Buf::get_u32) */
static inline IOBUFS_CHECKED iobufs_status iobuf_get_u32(struct iobuf_at *src, uint32_t *out) {
    uint64_t n = 0;
    iobufs_status status = iobuf_get_number(src, 4, IOBUFS_BE, &n);
    if (status == IOBUFS_OK) *out = n & UINT32_MAX;
    return status;
}
/* Reads a big-endian number of eight bytes, and drops it. (u64::read_cfg, Buf::get_u64) */
static inline IOBUFS_CHECKED iobufs_status iobuf_get_u64(struct iobuf_at *src, uint64_t *out) {
    return iobuf_get_number(src, 8, IOBUFS_BE, out);
}
/* Reads the byte at the front, and drops it. (u8::read_cfg, Buf::get_u8) */
static inline IOBUFS_CHECKED iobufs_status iobufs_get_u8(struct iobufs_at *bufs, uint8_t *out) {
    return iobufs_copy_to_slice(bufs, out, 1);
}
/* Reads a big-endian number of two bytes, and drops it. (u16::read_cfg, Buf::get_u16) */
static inline IOBUFS_CHECKED iobufs_status iobufs_get_u16(struct iobufs_at *bufs, uint16_t *out) {
    uint64_t n = 0;
    iobufs_status status = iobufs_get_number(bufs, 2, IOBUFS_BE, &n);
    if (status == IOBUFS_OK) *out = n & UINT16_MAX;
    return status;
}
/* Reads a big-endian number of four bytes, and drops it. (u32::read_cfg, Buf::get_u32) */
static inline IOBUFS_CHECKED iobufs_status iobufs_get_u32(struct iobufs_at *bufs, uint32_t *out) {
    uint64_t n = 0;
    iobufs_status status = iobufs_get_number(bufs, 4, IOBUFS_BE, &n);
    if (status == IOBUFS_OK) *out = n & UINT32_MAX;
    return status;
}
/* Reads a big-endian number of eight bytes, and drops it. (u64::read_cfg, Buf::get_u64) */
static inline IOBUFS_CHECKED iobufs_status iobufs_get_u64(struct iobufs_at *bufs, uint64_t *out) {
    return iobufs_get_number(bufs, 8, IOBUFS_BE, out);
}
static inline uint16_t iobufs_swap16(uint16_t n) {
    return __builtin_bswap16(n);
}
static inline uint32_t iobufs_swap32(uint32_t n) {
    return __builtin_bswap32(n);
}
static inline uint64_t iobufs_swap64(uint64_t n) {
    return __builtin_bswap64(n);
}

/* ---- the first chunks, by iobufs_chunks_from ---- */

/* Fills a list of n for writev with the first chunks, and returns how many it filled. iobufs_advance then takes the
 * count that writev returns. (Buf::chunks_vectored) */
static inline size_t iobufs_chunks(const struct iobufs_at *bufs, struct iobufs_iovec *out, size_t n) {
    return iobufs_chunks_from(bufs, 0, out, n);
}

/* ---- frames whose headers are their lengths, by the calls for layouts ---- */

/* Says how lengths are written from the next frame on, by an `enum iobufs_prefix`. Headers have nothing else then.
 * (own)
 * Fails: IOBUFS_BAD_KIND if it is none. */
static inline IOBUFS_CHECKED iobufs_status iobufs_frames_set_prefix(struct iobufs_frames_at *frames, uint8_t prefix) {
    struct iobufs_layout layout = { 0, 0, 0, 0 };
    layout.prefix = prefix;
    return iobufs_frames_set_layout(frames, &layout);
}
/* An empty receive block of frames whose lengths are written as an `enum iobufs_prefix`: of varints, what
 * iobufs_received_init makes. (own)
 * Fails: IOBUFS_BAD_KIND if it is none. */
static inline IOBUFS_CHECKED iobufs_status iobufs_received_new(uint8_t prefix, struct iobufs_received_at *out) {
    struct iobufs_layout layout = { 0, 0, 0, 0 };
    layout.prefix = prefix;
    return iobufs_received_with_layout(&layout, out);
}

/* ---- a frame's header, by iobufs_layout_header ---- */

/* Writes a frame's header, as iobufs_layout_header does. `around` may be NULL if `count` is 0, and `out` if `room` is.
 * (own) */
static inline IOBUFS_CHECKED iobufs_status iobufs_frames_header(const struct iobufs_layout *layout,
    const uint8_t *around, size_t count, size_t n, uint8_t *out, size_t room, size_t *len) {
    uint8_t none = 0;
    return iobufs_layout_header(layout, count ? around : &none, count, n, room ? out : &none, room, len);
}

/* ---- one iobufs at the end of another ---- */

/* Moves the chunks of `other` to the end of `bufs`, and leaves `other` empty. This function is made of calls above: the
 * chunks share their storage until they leave `other`. (own)
 * Fails: IOBUFS_TOO_LONG if the length would pass SIZE_MAX; IOBUFS_DECLINED if both are one buffer; IOBUFS_MEMORY,
 *   after which some of the first chunks have moved, and the others stay.
 * Keeps: both, except after IOBUFS_MEMORY. */
static inline IOBUFS_CHECKED iobufs_status iobufs_append_all(struct iobufs_at *bufs, struct iobufs_at *other) {
    struct iobufs front_memory;
    struct iobuf view_memory;
    struct iobufs_at front = { &front_memory };
    struct iobuf_at view = { &view_memory };
    const uint8_t *at = NULL;
    iobufs_status status = IOBUFS_OK;
    if (bufs->at == other->at) return IOBUFS_DECLINED;
    if (iobufs_len(bufs) > SIZE_MAX - iobufs_len(other)) return IOBUFS_TOO_LONG;
    iobufs_init(front.at);
    iobuf_init(view.at);
    for (size_t n; status == IOBUFS_OK && (n = iobufs_chunk(other, &at)) > 0;) {
        status = iobufs_slice(other, 0, n, &front);
        if (status == IOBUFS_OK) status = iobufs_try_into_single(&front, &view);
        if (status == IOBUFS_OK) status = iobufs_append(bufs, &view);
        if (status == IOBUFS_OK) status = iobufs_advance(other, n);
    }
    if (status == IOBUFS_OK) iobufs_drop(other);
    iobufs_drop(&front);
    iobuf_drop(&view);
    return status;
}

/* ---- handles of memory that is made a buffer at once ---- */

static inline struct iobuf_at iobuf_made(struct iobuf *memory) {
    struct iobuf_at at = { memory };
    iobuf_init(memory);
    return at;
}
static inline struct iobufmut_at iobufmut_made(struct iobufmut *memory) {
    struct iobufmut_at at = { memory };
    iobufmut_init(memory);
    return at;
}
static inline struct iobufs_at iobufs_made(struct iobufs *memory) {
    struct iobufs_at at = { memory };
    iobufs_init(memory);
    return at;
}
static inline struct iobufsmut_at iobufsmut_made(struct iobufsmut *memory) {
    struct iobufsmut_at at = { memory };
    iobufsmut_init(memory);
    return at;
}
static inline struct iobufs_builder_at iobufs_builder_made(struct iobufs_builder *memory) {
    struct iobufs_builder_at at = { memory };
    iobufs_builder_init(memory);
    return at;
}
static inline struct iobufs_frames_at iobufs_frames_made(struct iobufs_frames *memory) {
    struct iobufs_frames_at at = { memory };
    iobufs_frames_init(memory);
    return at;
}
static inline struct iobufs_received_at iobufs_received_made(struct iobufs_received *memory) {
    struct iobufs_received_at at = { memory };
    iobufs_received_init(memory);
    return at;
}

#ifdef __cplusplus
}
#endif

#endif
