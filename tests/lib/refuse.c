// Loaded before the program: refuses one request for memory. REFUSE says which, from 1; 0 refuses none. The number of
// requests goes to the file that REQUESTS names, if it does, when the program ends. If COSTS is set, each write begins with
// the number of requests since the write before it, and the number of their bytes, and REFUSE counts from each line `call`
// to the next write. If HELD is set, each write begins with the most bytes that were allocated and not freed since the write
// before it, less those at the last line `call`.
#define _GNU_SOURCE
#include <errno.h>
#include <malloc.h>
#include <stdio.h>
#include <stdlib.h>
#include <string.h>
#include <sys/syscall.h>
#include <unistd.h>

static unsigned long requests = 0, told = 0, bytes = 0;
static long number = -1, refused = 0, held = 0, most = 0, before = 0;
static int counts = 0, holds = 0;
extern void __libc_free(void *);
extern void *__libc_malloc(size_t);
extern void *__libc_calloc(size_t, size_t);
extern void *__libc_realloc(void *, size_t);
extern void *__libc_memalign(size_t, size_t);

static void prepare(void) {
    if (number >= 0) return;
    const char *text = getenv("REFUSE");
    number = text ? atol(text) : 0;
    counts = getenv("COSTS") != NULL;
    holds = getenv("HELD") != NULL;
    refused = counts ? 0 : number;
}

static int refuse(size_t n) {
    prepare();
    requests++;
    bytes += n;
    if ((long)requests != refused) return 0;
    errno = ENOMEM;
    return 1;
}

static void *hold(void *p) {
    held += malloc_usable_size(p);
    if (held > most) most = held;
    return p;
}

void *malloc(size_t n) { return refuse(n) ? NULL : hold(__libc_malloc(n)); }
void *calloc(size_t a, size_t b) { return refuse(a * b) ? NULL : hold(__libc_calloc(a, b)); }
void *realloc(void *p, size_t n) {
    if (refuse(n)) return NULL;
    size_t old = malloc_usable_size(p);
    void *q = __libc_realloc(p, n);
    if (q) held -= old, hold(q);
    return q;
}
void *aligned_alloc(size_t a, size_t n) { return refuse(n) ? NULL : hold(__libc_memalign(a, n)); }
int posix_memalign(void **p, size_t a, size_t n) {
    if (refuse(n)) return ENOMEM;
    *p = hold(__libc_memalign(a, n));
    return *p ? 0 : ENOMEM;
}
void free(void *p) {
    held -= malloc_usable_size(p);
    __libc_free(p);
}

ssize_t write(int to, const void *from, size_t n) {
    prepare();
    char text[64];
    if (holds) {
        if (n == 5 && !memcmp(from, "call\n", n)) before = most = held;
        syscall(SYS_write, to, text, snprintf(text, sizeof text, "%ld ", most - before));
        most = held;
    }
    if (counts) {
        syscall(SYS_write, to, text, snprintf(text, sizeof text, "%lu %lu ", requests - told, bytes));
        told = requests, bytes = 0;
        refused = number > 0 && n == 5 && !memcmp(from, "call\n", n) ? (long)requests + number : 0;
    }
    return syscall(SYS_write, to, from, n);
}

__attribute__((destructor)) static void tell(void) {
    const char *name = getenv("REQUESTS");
    if (!name) return;
    unsigned long all = requests;
    refused = 0;
    FILE *file = fopen(name, "w");
    if (!file) return;
    fprintf(file, "%lu\n", all);
    fclose(file);
}
