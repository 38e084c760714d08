/* Prints the host name of each ClientHello in a client's stream of records: names < STREAM
 *
 * The stream may arrive in pieces of any length, and a ClientHello may span records. */
#include "wispuddera.h"

#include <stdio.h>

/* The buffers of one direction. A record has at most 5 + 16640 bytes. Here a message may have at
 * most 65540. */
typedef struct {
    uint8_t records[16645];
    uint8_t messages[65540];
    wispuddera_place records_held;
    wispuddera_place messages_held;
} direction;

static void show_name(const uint8_t *body, size_t count) {
    wispuddera_found found = WISPUDDERA_EMPTY;
    uint32_t status = wispuddera_find_server_name_in_hello(body, count, &found);
    if (status == WISPUDDERA_READ) {
        printf("%.*s\n", (int)found.place.length, (const char *)body + found.place.offset);
    } else if (status == WISPUDDERA_NONE) {
        printf("-\n");
    } else {
        printf("refused: %s\n", wispuddera_status_text(status));
    }
}

/* Appends a fragment to the messages, and prints the host name of each complete ClientHello.
 * Returns why it stopped: WISPUDDERA_INCOMPLETE if the next message is incomplete. */
static uint32_t take_fragment(direction *d, const uint8_t *fragment, size_t count) {
    wispuddera_part message = WISPUDDERA_EMPTY;
    size_t taken = 0;
    uint32_t status = wispuddera_feed(d->messages, sizeof d->messages, &d->messages_held, fragment, count, &taken);
    if (status != WISPUDDERA_READ || taken < count) {
        return WISPUDDERA_TOO_LARGE;
    }
    while ((status = wispuddera_next_message(d->messages, sizeof d->messages, &d->messages_held, &message)) == WISPUDDERA_READ) {
        if (message.kind == 1) {
            show_name(d->messages + message.content.offset, message.content.length);
        }
    }
    return status;
}

/* Appends a piece, and reads the records that it completes. Returns WISPUDDERA_NONE at the first
 * ChangeCipherSpec, after which handshakes are encrypted. */
static uint32_t take_piece(direction *d, const uint8_t *piece, size_t count) {
    while (count > 0) {
        wispuddera_record r = WISPUDDERA_EMPTY;
        size_t taken = 0;
        uint32_t status = wispuddera_feed(d->records, sizeof d->records, &d->records_held, piece, count, &taken);
        if (status != WISPUDDERA_READ) {
            return status;
        }
        piece += taken;
        count -= taken;
        while ((status = wispuddera_next_record(d->records, sizeof d->records, &d->records_held, &r)) == WISPUDDERA_READ) {
            if (r.content_type == 20) {
                return WISPUDDERA_NONE;
            }
            if (r.content_type == 22) {
                status = take_fragment(d, d->records + r.fragment.offset, r.fragment.length);
                if (status != WISPUDDERA_INCOMPLETE) {
                    return status;
                }
            }
        }
        if (status != WISPUDDERA_INCOMPLETE) {
            return status;
        }
    }
    return WISPUDDERA_READ;
}

int main(void) {
    static direction client;
    uint8_t piece[700];
    size_t count;
    while ((count = fread(piece, 1, sizeof piece, stdin)) > 0) {
        uint32_t status = take_piece(&client, piece, count);
        if (status == WISPUDDERA_NONE) {
            return 0;
        }
        if (status != WISPUDDERA_READ) {
            printf("refused: %s\n", wispuddera_status_text(status));
            return 1;
        }
    }
    return 0;
}
