/*
 * Eight threads at once, twice. First each clones, reads, slices and drops views of one block, and the last view
 * recovers it. Then each makes all calls that only look (at a const handle, and `.._chunk` of writable bytes) on the same
 * buffers, of each type, and compares what they give. Blocks are counted (as in refused.c): each is given back once. Run
 * under valgrind's helgrind too. The argument is the number of turns.
 */
#define _POSIX_C_SOURCE 200809L
#include "test.h"
#include <pthread.h>
#include <stdatomic.h>

void *__real_malloc(size_t);
void *__real_calloc(size_t, size_t);
void *__real_realloc(void *, size_t);
void __real_free(void *);
void *__wrap_malloc(size_t);
void *__wrap_calloc(size_t, size_t);
void *__wrap_realloc(void *, size_t);
void __wrap_free(void *);

static atomic_long blocks;
void *__wrap_malloc(size_t n) { blocks++; return __real_malloc(n); }
void *__wrap_calloc(size_t n, size_t size) { blocks++; return __real_calloc(n, size); }
void *__wrap_realloc(void *old, size_t n) { blocks += old == NULL; return __real_realloc(old, n); }
void __wrap_free(void *old) { blocks -= old != NULL; __real_free(old); }

/* The threads, the bytes of the block, how many of these a turn splits off and doesn't read, the value of each, and
 * after how many turns a thread drops the views that it has appended. */
enum { THREADS = 8, LEN = 64, CUT = 10, VALUE = 2, TURNS_KEPT = 16 };

static int turns = 5000;
static pthread_barrier_t begin;

/* A thread's view of the block, and the sum of the bytes that it has read. */
struct job { struct iobuf mine; size_t sum; };

/* A thread's turns. */
static void *work(void *data) {
    struct job *job = (struct job *)data;
    struct iobuf_at mine = { &job->mine };
    VIEW(other); VIEW(part); TEXT(text);
    pthread_barrier_wait(&begin);
    for (int i = 0; i < turns; i++) {
        const uint8_t *at;
        OK(iobuf_clone(&mine, &other));
        OK(iobuf_slice(&other, IOBUFS_INCLUDED, 3, IOBUFS_EXCLUDED, LEN - 4, &part));
        OK(iobuf_split_to(&other, CUT, &part));
        OK(iobufs_append(&text, &part));
        size_t n = iobuf_chunk(&other, &at);
        for (size_t k = 0; k < n; k++) job->sum += at[k];
        if ((i + 1) % TURNS_KEPT == 0) iobufs_drop(&text);
        iobuf_drop(&other);
    }
    iobufs_drop(&text); iobuf_drop(&part); iobuf_drop(&mine);
    return NULL;
}

/* The buffers that all threads look at. */
struct all {
    struct iobuf_at view, same;
    struct iobufmut_at part;
    struct iobufs_at text, same_text;
    struct iobufsmut_at parts;
    struct iobufs_builder_at builder;
    struct iobufs_frames_at frames;
    struct iobufs_received_at received;
};

/* A thread's turns, of all calls that only look. What it makes are buffers of its own. */
static void *look(void *data) {
    struct all *all = (struct all *)data;
    VIEW(view); TEXT(text);
    pthread_barrier_wait(&begin);
    for (int i = 0; i < turns; i++) {
        struct iobufs_iovec list[4];
        uint8_t *at, copied[4];
        size_t index, offset;
        CHECK(view_is(&all->view, "hello world") && iobuf_eq(&all->view, &all->same));
        OK(iobuf_clone(&all->view, &view));
        CHECK(view_is(&view, "hello world"));
        OK(iobuf_slice(&all->view, IOBUFS_INCLUDED, 2, IOBUFS_EXCLUDED, 7, &view));
        CHECK(view_is(&view, "llo w"));

        CHECK(text_is(&all->text, "worldhello world!") && iobufs_eq(&all->text, &all->same_text));
        CHECK(iobufs_chunk(&all->text, (const uint8_t **)&at) == 5 && !memcmp(at, "world", 5));
        CHECK(iobufs_chunks(&all->text, list, 4) == 3 && list[1].len == 11 && !memcmp(list[2].base, "!", 1));
        OK(iobufs_locate(&all->text, 9, &index, &offset));
        CHECK(index == 1 && offset == 4);
        OK(iobufs_peek(&all->text, 3, copied, 4));
        CHECK(!memcmp(copied, "ldhe", 4));
        OK(iobufs_clone(&all->text, &text));
        CHECK(text_is(&text, "worldhello world!"));
        OK(iobufs_slice(&all->text, 2, 8, &text));
        CHECK(text_is(&text, "rldhel"));

        CHECK(part_is(&all->part, "part") && iobufmut_capacity(&all->part) == 6);
        CHECK(iobufmut_remaining_mut(&all->part) == 2);
        CHECK(parts_are(&all->parts, "several") && iobufsmut_capacity(&all->parts) == 9);
        CHECK(iobufsmut_remaining_mut(&all->parts) == 2 && iobufsmut_part_count(&all->parts) == 2);
        CHECK(iobufsmut_chunk(&all->parts, &at) == 4 && !memcmp(at, "seve", 4));

        CHECK(iobufs_builder_remaining_mut(&all->builder) == 3 && iobufs_frames_len(&all->frames) == 3);
        OK(iobufs_frames_rest(&all->frames, &text));
        CHECK(text_is(&text, "\5wo") && iobufs_received_len(&all->received) == 3);
    }
    iobuf_drop(&view); iobufs_drop(&text);
    return NULL;
}

/* Runs a function in each thread, each with its own of the jobs, or all with the same one if `size` is 0. */
static void run(void *(*function)(void *), void *jobs, size_t size) {
    pthread_t threads[THREADS];
    CHECK(!pthread_barrier_init(&begin, NULL, THREADS));
    for (size_t i = 0; i < THREADS; i++) CHECK(!pthread_create(&threads[i], NULL, function, (char *)jobs + i * size));
    for (int i = 0; i < THREADS; i++) CHECK(!pthread_join(threads[i], NULL));
    CHECK(!pthread_barrier_destroy(&begin));
}

/* Views of one block, a view for each thread. */
static void work_at_once(void) {
    PART(whole); VIEW(first);
    static struct job jobs[THREADS];
    size_t sum = 0;
    OK(iobufmut_with_capacity(LEN, &whole));
    OK(iobufmut_put_bytes(&whole, VALUE, LEN));
    OK(iobufmut_freeze(&whole, &first));
    for (int i = 0; i < THREADS; i++) {
        struct iobuf_at mine = { &jobs[i].mine };
        iobuf_init(mine.at);
        OK(iobuf_clone(&first, &mine));
    }
    run(work, jobs, sizeof *jobs);
    for (int i = 0; i < THREADS; i++) sum += jobs[i].sum;
    CHECK(sum == (size_t)THREADS * (size_t)turns * (LEN - CUT) * VALUE);
    OK(iobuf_try_into_mut(&first, &whole)); /* the last view recovers the block */
    CHECK(iobufmut_len(&whole) == LEN);
    iobufmut_drop(&whole); iobuf_drop(&first);
}

/* The same buffers for all threads. */
static void look_at_once(void) {
    VIEW(view); VIEW(same); VIEW(front); PART(part); TEXT(text); TEXT(same_text);
    PARTS(parts); BUILDER(builder); FRAMES(frames); RECEIVED(received);
    struct iobufmut one, two;
    struct iobufmut_at both[2] = { { &one }, { &two } };
    OK(iobuf_copy_from_slice(bytes("hello world"), 11, &view));
    OK(iobuf_copy_from_slice(bytes("hello world"), 11, &same));

    OK(iobuf_slice(&view, IOBUFS_INCLUDED, 6, IOBUFS_UNBOUNDED, 0, &front));
    OK(iobufs_append(&text, &front));
    OK(iobuf_clone(&view, &front));
    OK(iobufs_append(&text, &front));
    iobuf_from_static(bytes("!"), 1, &front);
    OK(iobufs_append(&text, &front));
    OK(iobuf_copy_from_slice(bytes("worldhello world!"), 17, &front));
    iobufs_from_view(&front, &same_text);

    OK(iobufmut_with_capacity(6, &part));
    OK(iobufmut_put_slice(&part, bytes("part"), 4));
    iobufmut_init(&one); iobufmut_init(&two);
    OK(iobufmut_with_capacity(4, &both[0]));
    OK(iobufmut_with_capacity(5, &both[1]));
    OK(iobufsmut_from_parts(both, 2, &parts));
    OK(iobufsmut_put_slice(&parts, bytes("several"), 7));

    OK(iobufs_builder_new(4, &builder));
    OK(iobufs_builder_put_u8(&builder, 1));
    OK(iobuf_copy_from_slice(bytes("\5wo"), 3, &front));
    OK(iobufs_frames_feed(&frames, &front));
    OK(iobufs_received_new(IOBUFS_VARINT, &received));
    receive(&received, "\5wo", 3);

    struct all all = { view, same, part, text, same_text, parts, builder, frames, received };
    run(look, &all, 0);
    CHECK(text_is(&text, "worldhello world!"));
    iobuf_drop(&view); iobuf_drop(&same); iobuf_drop(&front); iobufmut_drop(&part); iobufs_drop(&text);
    iobufs_drop(&same_text); iobufsmut_drop(&parts); iobufs_builder_drop(&builder); iobufs_frames_drop(&frames);
    iobufs_received_drop(&received);
}

int main(int argc, char **argv) {
    if (argc > 1) turns = atoi(argv[1]);
    work_at_once();
    look_at_once();
    CHECK(blocks == 0);
    return 0;
}
