/* Relays two sockets that it inherits, and follows the handshake:
 *
 *     relay CLIENT SERVER
 *
 * CLIENT and SERVER are file descriptors. It prints the number of the outcome, whether the handshake
 * is established, and whether it resumed a session. */
#include "wispuddera.h"

#include <poll.h>
#include <stdio.h>
#include <stdlib.h>
#include <unistd.h>

enum { PIECE = 16384, ROOM = 4 + WISPUDDERA_CONVERSATION_LIMIT + 18437 + PIECE };

static bool write_all(int end, const uint8_t *bytes, size_t count) {
    while (count > 0) {
        const ssize_t written = write(end, bytes, count);
        if (written <= 0) {
            return false;
        }
        bytes += written;
        count -= (size_t)written;
    }
    return true;
}

/* Relays two sockets until one is closed; false if a call fails. */
static bool relay(int client, int server, wispuddera_conversation *conversation) {
    static uint8_t held[2][ROOM], piece[PIECE];
    const int sockets[] = {client, server};
    wispuddera_conversation_start(conversation, WISPUDDERA_CONVERSATION_LIMIT);
    for (;;) {
        struct pollfd ends[] = {{client, POLLIN, 0}, {server, POLLIN, 0}};
        int from;
        if (poll(ends, 2, -1) < 0) {
            return false;
        }
        for (from = 0; from < 2; from++) {
            wispuddera_event_content event = WISPUDDERA_EMPTY;
            const ssize_t count = ends[from].revents == 0 ? -1 : read(sockets[from], piece, PIECE);
            if (ends[from].revents == 0) {
                continue;
            }
            if (count <= 0) {
                return count == 0;
            }
            uint32_t status = wispuddera_conversation_feed(held[from], ROOM, conversation, from == 0,
                                                           piece, (size_t)count);
            if (status != WISPUDDERA_READ) {
                return false;
            }
            while (wispuddera_conversation_next(held[from], ROOM, conversation, from == 0, &event) == WISPUDDERA_READ) {
                /* `event.kind` is its kind; its bytes begin at held[from] + event.content.offset. */
            }
            if (!write_all(sockets[1 - from], piece, (size_t)count)) {
                return false;
            }
        }
    }
}

int main(int argc, char **argv) {
    wispuddera_conversation conversation = WISPUDDERA_EMPTY;
    if (argc != 3 || !relay(atoi(argv[1]), atoi(argv[2]), &conversation)) {
        return 1;
    }
    printf("%u %d %d\n", (unsigned)wispuddera_conversation_outcome(&conversation),
           wispuddera_conversation_established(&conversation),
           wispuddera_conversation_resumed(&conversation));
    return 0;
}
