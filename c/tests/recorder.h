/* Included before a test, after the names of the calls that return a status: what they return is recorded, and goes to
 * the file that STATUSES names when the test ends. */
#include "iobufs.h"
#include <stdio.h>
#include <stdlib.h>

enum { CALLS = sizeof names / sizeof *names, STATUS_COUNT = 10 };

static unsigned char met[CALLS][STATUS_COUNT];

static inline iobufs_status meet(int call, iobufs_status status) {
    met[call][status] = 1;
    return status;
}

static __attribute__((destructor)) void tell_met(void) {
    FILE *file = fopen(getenv("STATUSES"), "a");
    for (int call = 0; file && call < CALLS; call++)
        for (int status = 0; status < STATUS_COUNT; status++)
            if (met[call][status]) fprintf(file, "%s %d\n", names[call], status);
    if (file) fclose(file);
}
