/* Shared by the measuring programs: a side makes calls on two copies of a file's bytes in turn, and
 * its CPU time is taken. The including program defines LONGEST, the maximum size of a file. */
#include <stdint.h>
#include <stdio.h>
#include <stdlib.h>
#include <string.h>
#include <time.h>

typedef uint64_t (*side)(const uint8_t *, size_t, size_t);

/* The CPU time of this process. */
static double seconds(void) {
    struct timespec t;
    clock_gettime(CLOCK_PROCESS_CPUTIME_ID, &t);
    return (double)t.tv_sec + (double)t.tv_nsec * 1e-9;
}

static double time_of(side call, const uint8_t *bytes, size_t count, size_t rounds) {
    volatile uint64_t kept;
    double begin = seconds();
    kept = call(bytes, count, rounds);
    (void)kept;
    return (seconds() - begin) / (double)rounds;
}

static int rises(const void *a, const void *b) {
    double x = *(const double *)a, y = *(const double *)b;
    return (x > y) - (x < y);
}

/* Reads a file twice into the buffer. Returns the length of both copies, 0 if it can't be read. */
static size_t two_copies(const char *path, uint8_t *bytes) {
    FILE *file = fopen(path, "rb");
    size_t count = file == NULL ? 0 : fread(bytes, 1, LONGEST, file);
    if (file != NULL) {
        fclose(file);
    }
    memcpy(bytes + count, bytes, count);
    return 2 * count;
}
