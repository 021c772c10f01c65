// Loaded before the program: each read and write of it is interrupted INTERRUPT times before it is done, and then takes at
// most AT_MOST bytes. How often it was interrupted goes to the file that INTERRUPTED names, if it does, when the program
// ends.
#define _GNU_SOURCE
#include <errno.h>
#include <stdio.h>
#include <stdlib.h>
#include <sys/syscall.h>
#include <sys/uio.h>
#include <unistd.h>

static unsigned long interruptions = 0;
static int is_ending = 0;

static unsigned long number(const char *name, unsigned long otherwise) {
    const char *text = getenv(name);
    return text ? strtoul(text, NULL, 10) : otherwise;
}

static size_t at_most(size_t n) {
    size_t most = number("AT_MOST", n);
    return n < most ? n : most;
}

// Whether this call is interrupted; each kind of call counts by itself.
static int interrupted(unsigned long *left) {
    if (is_ending) return 0;
    if (*left == 0) *left = number("INTERRUPT", 0) + 1;
    if (--*left == 0) return 0;
    interruptions++;
    errno = EINTR;
    return 1;
}

ssize_t read(int from, void *to, size_t n) {
    static unsigned long left = 0;
    return interrupted(&left) ? -1 : syscall(SYS_read, from, to, at_most(n));
}

ssize_t write(int to, const void *from, size_t n) {
    static unsigned long left = 0;
    return interrupted(&left) ? -1 : syscall(SYS_write, to, from, at_most(n));
}

ssize_t writev(int to, const struct iovec *from, int n) {
    static unsigned long left = 0;
    if (interrupted(&left)) return -1;
    // Of several pieces the first that isn't empty.
    for (int i = 0; getenv("AT_MOST") && i < n; i++)
        if (from[i].iov_len) return syscall(SYS_write, to, from[i].iov_base, at_most(from[i].iov_len));
    return syscall(SYS_writev, to, from, n);
}

__attribute__((destructor)) static void tell(void) {
    const char *name = getenv("INTERRUPTED");
    FILE *file = name ? fopen(name, "w") : NULL;
    if (!file) return;
    is_ending = 1;
    fprintf(file, "%lu\n", interruptions);
    fclose(file);
}
