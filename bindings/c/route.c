/* Prints the backend for a connection, by the host that its client asks for:
 *
 *     route NAME=PLACE.. < STREAM
 *
 * It prints the PLACE of the NAME, or `-` if none matches, and reads only the first ClientHello. */
#include "wispuddera.h"

#include <stdio.h>
#include <string.h>

/* Finds the host name in the first ClientHello of the bytes so far. The hello is joined from its
 * records in `room`, which is as long as `bytes`; `name` is a place in `room`. */
static uint32_t find_name(const uint8_t *bytes, size_t count, uint8_t *room, wispuddera_found *name) {
    wispuddera_record r = WISPUDDERA_EMPTY;
    size_t joined = 0, at = 0;
    for (;; at = r.next) {
        wispuddera_part hello = WISPUDDERA_EMPTY;
        uint32_t status = wispuddera_read_record(bytes, count, at, &r);
        if (status != WISPUDDERA_READ) {
            return status;
        }
        if (r.content_type != 22) {
            return WISPUDDERA_NONE;
        }
        memcpy(room + joined, bytes + r.fragment.offset, r.fragment.length);
        joined += r.fragment.length;
        status = wispuddera_read_message(room, joined, 0, &hello);
        if (status == WISPUDDERA_READ) {
            status = wispuddera_find_server_name_in_hello(room + hello.content.offset, hello.content.length, name);
            name->place.offset += hello.content.offset;
            return hello.kind != 1 ? (uint32_t)WISPUDDERA_NONE : status == WISPUDDERA_INCOMPLETE ? (uint32_t)WISPUDDERA_COMPLETE : status;
        }
        if (status != WISPUDDERA_INCOMPLETE) {
            return status;
        }
    }
}

int main(int argc, char **argv) {
    static uint8_t bytes[65536], room[65536];
    wispuddera_found name = WISPUDDERA_EMPTY;
    size_t count = 0;
    uint32_t status = WISPUDDERA_INCOMPLETE;
    int c, i;
    while (status == WISPUDDERA_INCOMPLETE && count < sizeof bytes && (c = getchar()) != EOF) {
        bytes[count++] = (uint8_t)c;
        status = find_name(bytes, count, room, &name);
    }
    if (status != WISPUDDERA_READ && status != WISPUDDERA_NONE) {
        printf("refused: %s\n", wispuddera_status_text(status));
        return 1;
    }
    for (i = 1; status == WISPUDDERA_READ && i < argc; i++) {
        const char *place = strchr(argv[i], '=');
        if (place != NULL && (size_t)(place - argv[i]) == name.place.length && memcmp(argv[i], room + name.place.offset, name.place.length) == 0) {
            printf("%s\n", place + 1);
            return 0;
        }
    }
    printf("-\n");
    return 0;
}
