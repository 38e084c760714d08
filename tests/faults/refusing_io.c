// Reads and writes that fail. LD_PRELOAD puts them in place of the C library's.
//
// REFUSED: the number of the read or write that fails, counted from 1; 0 lets none fail.
// SHORT: if it is set, each of them moves one byte at most.
// COUNT_FILE: a file that gets the number of reads and writes when the program ends.

#include <errno.h>
#include <fcntl.h>
#include <stdlib.h>
#include <sys/syscall.h>
#include <unistd.h>

static unsigned long made;
static unsigned long refused;
static int is_short;

static ssize_t moved(long call, int file, const void *bytes, size_t count) {
    made++;
    if (made == refused) {
        errno = EIO;
        return -1;
    }
    return syscall(call, file, bytes, is_short && count > 1 ? 1 : count);
}

ssize_t read(int file, void *bytes, size_t count) {
    return moved(SYS_read, file, bytes, count);
}

ssize_t write(int file, const void *bytes, size_t count) {
    return moved(SYS_write, file, bytes, count);
}

__attribute__((constructor)) static void begin(void) {
    const char *number = getenv("REFUSED");
    refused = number ? strtoul(number, NULL, 10) : 0;
    is_short = getenv("SHORT") != NULL;
    made = 0;
}

__attribute__((destructor)) static void end(void) {
    const char *place = getenv("COUNT_FILE");
    int file = place ? open(place, O_WRONLY | O_CREAT | O_TRUNC, 0600) : -1;
    if (file >= 0) {
        // The reader of the file reports one that is too short.
        ssize_t written = syscall(SYS_write, file, &made, sizeof made);
        (void)written;
        close(file);
    }
}
