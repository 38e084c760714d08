// A heap that refuses one request for memory. LD_PRELOAD puts it in place of malloc and realloc; it
// takes the memory of all other requests from the C library.
//
// REFUSED: the number of the request to refuse, counted from 1; 0 refuses none.
// COUNT_FILE: a file that gets the number of requests when the program ends.

#include <errno.h>
#include <fcntl.h>
#include <stdlib.h>
#include <unistd.h>

void *__libc_malloc(size_t size);
void *__libc_realloc(void *block, size_t size);

static unsigned long made;
static unsigned long refused;

static int is_refused(void) {
    made++;
    if (made != refused) {
        return 0;
    }
    errno = ENOMEM;
    return 1;
}

void *malloc(size_t size) {
    return is_refused() ? NULL : __libc_malloc(size);
}

void *realloc(void *block, size_t size) {
    return is_refused() ? NULL : __libc_realloc(block, size);
}

__attribute__((constructor)) static void begin(void) {
    const char *number = getenv("REFUSED");
    refused = number ? strtoul(number, NULL, 10) : 0;
    made = 0;
}

__attribute__((destructor)) static void end(void) {
    const char *place = getenv("COUNT_FILE");
    int file = place ? open(place, O_WRONLY | O_CREAT | O_TRUNC, 0600) : -1;
    if (file >= 0) {
        // The reader of the file reports one that is too short.
        ssize_t written = write(file, &made, sizeof made);
        (void)written;
        close(file);
    }
}
