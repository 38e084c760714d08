/* Calls on mutated bytes, in blocks of exactly as many bytes as are passed: mutated [CALLS]
 *
 * Each call's answer is a status, and each place of what was read lies within the bytes. Under valgrind it is seen that no byte
 * outside of the block is read; the sanitizers don't see into the library. At least CALLS calls (10000, if left out) are made that
 * are given a block in which a byte was changed, and read from it: steps of a flow, and calls whose offset lies outside, don't count. */
#include "wispuddera.h"

#include <stdio.h>
#include <stdlib.h>
#include <string.h>

static const uint8_t hello[] = {0x16, 0x03, 0x01, 0x00, 0x61, 0x01, 0x00, 0x00, 0x5d, 0x03, 0x03, 1,    2,    3,    4,    5,    6,
                                7,    8,    9,    10,   11,   12,   13,   14,   15,   16,   17,   18,   19,   20,   21,   22,   23,
                                24,   25,   26,   27,   28,   29,   30,   31,   32,   0x02, 0xa1, 0xa2, 0x00, 0x06, 0x13, 0x01, 0x13,
                                0x02, 0xc0, 0x2f, 0x01, 0x00, 0x00, 0x2a, 0x00, 0x00, 0x00, 0x08, 0x00, 0x06, 0x00, 0x00, 0x03, 'a',
                                '.',  'b',  0x00, 0x10, 0x00, 0x05, 0x00, 0x03, 0x02, 'h',  '2',  0x00, 0x2b, 0x00, 0x05, 0x04, 0x03,
                                0x04, 0x03, 0x03, 0x00, 0x33, 0x00, 0x08, 0x00, 0x06, 0x00, 0x1d, 0x00, 0x02, 0xb1, 0xb2};

/* The certificate of calls.c. */
static const uint8_t certificate[] = {
    0x30, 0x81, 0x8a, 0x30, 0x7c, 0xa0, 0x03, 0x02, 0x01, 0x02, 0x02, 0x02, 0x01, 0x05, 0x30, 0x05, 0x06, 0x03, 0x2b, 0x65,
    0x70, 0x30, 0x0c, 0x31, 0x0a, 0x30, 0x08, 0x06, 0x03, 0x55, 0x04, 0x03, 0x0c, 0x01, 0x61, 0x30, 0x1e, 0x17, 0x0d, 0x37,
    0x30, 0x30, 0x31, 0x30, 0x31, 0x30, 0x30, 0x30, 0x30, 0x30, 0x31, 0x5a, 0x17, 0x0d, 0x37, 0x30, 0x30, 0x31, 0x30, 0x32,
    0x30, 0x30, 0x30, 0x30, 0x30, 0x30, 0x5a, 0x30, 0x0c, 0x31, 0x0a, 0x30, 0x08, 0x06, 0x03, 0x55, 0x04, 0x03, 0x0c, 0x01,
    0x62, 0x30, 0x17, 0x30, 0x10, 0x06, 0x07, 0x2a, 0x86, 0x48, 0xce, 0x3d, 0x02, 0x01, 0x06, 0x05, 0x2b, 0x81, 0x04, 0x00,
    0x22, 0x03, 0x03, 0x00, 0x04, 0x05, 0xa3, 0x15, 0x30, 0x13, 0x30, 0x11, 0x06, 0x03, 0x55, 0x1d, 0x11, 0x01, 0x01, 0xff,
    0x04, 0x07, 0x30, 0x05, 0x82, 0x03, 0x61, 0x2e, 0x62, 0x30, 0x05, 0x06, 0x03, 0x2b, 0x65, 0x70, 0x03, 0x03, 0x00, 0xb1,
    0xb2,
};

static uint32_t seed = 1;
/* Whether a byte of the block was changed, and how many calls read from such a block. */
static int is_mutated = 0;
static long calls = 0;

static uint32_t next_random(void) {
    seed = seed * 1664525u + 1013904223u;
    return seed >> 8;
}

static void lies(size_t count, wispuddera_place p) {
    if (p.offset > count || p.length > count - p.offset) {
        printf("mutated: a place lies outside: %zu and %zu in %zu\n", p.offset, p.length, count);
        exit(1);
    }
}

/* What follows begins within the bytes, or at their end. */
static void follows(size_t count, size_t next) {
    const wispuddera_place rest = {next, 0};
    lies(count, rest);
}

/* `missing` is read after the call. */
static int is_read(uint32_t status, const size_t *missing) {
    calls += is_mutated && status != WISPUDDERA_OUTSIDE;
    if (status > WISPUDDERA_NO_ROOM || (status == WISPUDDERA_INCOMPLETE) != (*missing > 0)) {
        printf("mutated: status %u with %zu missing\n", (unsigned)status, *missing);
        exit(1);
    }
    return status == WISPUDDERA_READ;
}

typedef uint32_t (*part_reader)(const uint8_t *, size_t, size_t, wispuddera_part *);
typedef uint32_t (*finder)(const uint8_t *, size_t, wispuddera_found *);
typedef uint32_t (*number_reader)(const uint8_t *, size_t, size_t, wispuddera_number *);

static void call_parts(const uint8_t *b, size_t n, size_t at) {
    static const part_reader readers[] = {wispuddera_read_message, wispuddera_read_extension, wispuddera_read_key_share,
                                          wispuddera_read_protocol, wispuddera_read_certificate};
    static const finder finders[] = {wispuddera_find_server_name_in_record, wispuddera_find_server_name_in_hello,
                                     wispuddera_find_server_name_in_extensions, wispuddera_find_protocols, wispuddera_find_key_shares,
                                     wispuddera_find_certificates};
    static const number_reader numbers[] = {wispuddera_number_at, wispuddera_cipher_suite_at, wispuddera_dtls_cipher_suite_at,
                                            wispuddera_version_at, wispuddera_group_at, wispuddera_signature_scheme_at};
    size_t i;
    for (i = 0; i < sizeof readers / sizeof *readers; i++) {
        wispuddera_part p = WISPUDDERA_EMPTY;
        if (is_read(readers[i](b, n, at, &p), &p.missing)) {
            lies(n, p.content);
            follows(n, p.next);
        }
    }
    for (i = 0; i < sizeof finders / sizeof *finders; i++) {
        wispuddera_found f = WISPUDDERA_EMPTY;
        if (is_read(finders[i](b, n, &f), &f.missing)) {
            lies(n, f.place);
        }
    }
    for (i = 0; i < sizeof numbers / sizeof *numbers; i++) {
        wispuddera_number v = WISPUDDERA_EMPTY;
        is_read(numbers[i](b, n, at, &v), &v.missing);
    }
}

static void call_others(const uint8_t *b, size_t n, size_t at) {
    wispuddera_record r = WISPUDDERA_EMPTY;
    wispuddera_dtls_record d = WISPUDDERA_EMPTY;
    wispuddera_dtls_message m = WISPUDDERA_EMPTY;
    wispuddera_client_hello c = WISPUDDERA_EMPTY;
    wispuddera_server_hello s = WISPUDDERA_EMPTY;
    wispuddera_dtls_client_hello h = WISPUDDERA_EMPTY;
    wispuddera_found f = WISPUDDERA_EMPTY;
    wispuddera_number v = WISPUDDERA_EMPTY;
    if (is_read(wispuddera_read_record(b, n, at, &r), &r.missing)) {
        lies(n, r.fragment);
        follows(n, r.next);
    }
    if (is_read(wispuddera_read_dtls_record(b, n, at, &d), &d.missing)) {
        lies(n, d.fragment);
        follows(n, d.next);
    }
    if (is_read(wispuddera_read_dtls_message(b, n, at, &m), &m.missing)) {
        lies(n, m.body);
        follows(n, m.next);
    }
    if (is_read(wispuddera_read_client_hello(b, n, &c), &c.missing)) {
        lies(n, c.random);
        lies(n, c.session_id);
        lies(n, c.cipher_suites);
        lies(n, c.compression_methods);
        lies(n, c.extensions);
        follows(n, c.next);
    }
    if (is_read(wispuddera_read_server_hello(b, n, &s), &s.missing)) {
        lies(n, s.random);
        lies(n, s.session_id);
        lies(n, s.extensions);
        follows(n, s.next);
    }
    if (is_read(wispuddera_read_dtls_server_hello(b, n, &s), &s.missing)) {
        lies(n, s.random);
        lies(n, s.session_id);
        lies(n, s.extensions);
        follows(n, s.next);
    }
    if (is_read(wispuddera_read_dtls_client_hello(b, n, &h), &h.missing)) {
        lies(n, h.random);
        lies(n, h.session_id);
        lies(n, h.cookie);
        lies(n, h.cipher_suites);
        lies(n, h.compression_methods);
        lies(n, h.extensions);
        follows(n, h.next);
    }
    if (is_read(wispuddera_find_extension(b, n, (uint16_t)at, &f), &f.missing)) {
        lies(n, f.place);
    }
    if (is_read(wispuddera_find_body(b, n, (uint8_t)at, &f), &f.missing)) {
        lies(n, f.place);
    }
    /* Of a ServerHello it reads the body; of another message it doesn't. */
    if (wispuddera_event_of_message(b, n, 2) > WISPUDDERA_EVENT_UNKNOWN ||
        wispuddera_event_of_message(b, n, (uint8_t)at) > WISPUDDERA_EVENT_UNKNOWN) {
        printf("mutated: no kind of event\n");
        exit(1);
    }
    if (wispuddera_looks_like_tls(b, n) > WISPUDDERA_NONE) {
        printf("mutated: no answer whether it is TLS\n");
        exit(1);
    }
    calls += 2 * is_mutated;
    is_read(wispuddera_best_version(b, n, (uint16_t)at, &v), &v.missing);
}

typedef uint32_t (*teller)(const uint8_t *, size_t, uint8_t *, size_t, size_t *);

/* Fingerprints, each in a buffer of exactly its size. The buffer doesn't change if there is none. */
static void call_fingerprints(const uint8_t *b, size_t n) {
    static const teller tellers[] = {wispuddera_ja3, wispuddera_dtls_ja3, wispuddera_ja3s, wispuddera_dtls_ja3s,
                                     wispuddera_ja4, wispuddera_quic_ja4, wispuddera_dtls_ja4};
    size_t i, j;
    for (i = 0; i < sizeof tellers / sizeof *tellers; i++) {
        const size_t room = i < 4 ? WISPUDDERA_JA3_ROOM : WISPUDDERA_JA4_ROOM;
        uint8_t *text = (uint8_t *)malloc(room);
        size_t missing = 0;
        int told;
        if (text == NULL) {
            exit(2);
        }
        memset(text, '!', room);
        told = is_read(tellers[i](b, n, text, room, &missing), &missing);
        for (j = 0; j < room; j++) {
            if ((text[j] == '!') == told) {
                printf("mutated: a fingerprint without one of its characters, or one that was refused\n");
                exit(1);
            }
        }
        free(text);
    }
}

static void call_certificates(const uint8_t *b, size_t n, size_t at) {
    wispuddera_x509 c = WISPUDDERA_EMPTY;
    wispuddera_x509_extension e = WISPUDDERA_EMPTY;
    wispuddera_found f = WISPUDDERA_EMPTY;
    wispuddera_part p = WISPUDDERA_EMPTY;
    if (is_read(wispuddera_read_x509(b, n, &c), &c.missing)) {
        const wispuddera_place places[] = {c.signed_bytes, c.serial_number, c.signature_algorithm, c.issuer, c.subject,
                                           c.key_algorithm, c.key_parameters, c.public_key, c.extensions, c.signature};
        size_t i;
        for (i = 0; i < sizeof places / sizeof *places; i++) {
            lies(n, places[i]);
        }
        follows(n, c.next);
    }
    if (is_read(wispuddera_read_x509_extension(b, n, at, &e), &e.missing)) {
        lies(n, e.oid);
        lies(n, e.value);
        follows(n, e.next);
    }
    if (is_read(wispuddera_find_x509_names(b, n, &f), &f.missing)) {
        lies(n, f.place);
    }
    if (is_read(wispuddera_read_x509_name(b, n, at, &p), &p.missing)) {
        lies(n, p.content);
        follows(n, p.next);
    }
}

static void call_flow(const uint8_t *b, size_t n, size_t at) {
    wispuddera_flow flow = {(uint32_t)(at == 0 ? 0 : n % 40)};
    wispuddera_event *events = n == 0 ? NULL : (wispuddera_event *)malloc(n * sizeof *events);
    size_t i;
    if (events == NULL && n != 0) {
        exit(2);
    }
    for (i = 0; i < n; i++) {
        wispuddera_event event = {b[i], (b[i] & 32) != 0};
        events[i] = event;
        wispuddera_flow_step(&flow, &event);
        if (wispuddera_flow_outcome(&flow) > WISPUDDERA_TLS13_RETRIED_EARLY) {
            printf("mutated: no outcome\n");
            exit(1);
        }
    }
    if (at == 0 && wispuddera_outcome(events, n) != wispuddera_flow_outcome(&flow)) {
        printf("mutated: another outcome, step by step\n");
        exit(1);
    }
    free(events);
}

static void call_streams(const uint8_t *b, size_t n, size_t at) {
    uint8_t *buffer = (uint8_t *)malloc(n + 1);
    wispuddera_place held = {at, n / 2};
    wispuddera_record r = WISPUDDERA_EMPTY;
    wispuddera_part p = WISPUDDERA_EMPTY;
    const size_t none = 0;
    size_t taken = 0;
    if (buffer == NULL) {
        exit(2);
    }
    memset(buffer, 0x16, n + 1);
    is_read(wispuddera_feed(buffer, n + 1, &held, b, n, &taken), &none);
    if (is_read(wispuddera_next_record(buffer, n + 1, &held, &r), &r.missing)) {
        lies(n + 1, r.fragment);
        lies(n + 1, held);
    }
    if (is_read(wispuddera_next_message(buffer, n + 1, &held, &p), &p.missing)) {
        lies(n + 1, p.content);
        lies(n + 1, held);
    }
    free(buffer);
}

/* A conversation whose client sends these bytes in two pieces, cut at `at`, with a buffer of exactly their size. */
static void call_conversation(const uint8_t *b, size_t n, size_t at) {
    uint8_t *buffer = n == 0 ? NULL : (uint8_t *)malloc(n);
    const size_t cut = at < n ? at : n, none = 0;
    wispuddera_conversation it = WISPUDDERA_EMPTY;
    wispuddera_event_content event = WISPUDDERA_EMPTY;
    wispuddera_stop stop = WISPUDDERA_EMPTY;
    size_t i;
    if (buffer == NULL && n != 0) {
        exit(2);
    }
    wispuddera_conversation_start(&it, n);
    for (i = 0; i < 2; i++) {
        is_read(wispuddera_conversation_feed(buffer, n, &it, true, i == 0 || n == 0 ? b : b + cut, i == 0 ? cut : n - cut), &none);
        while (is_read(wispuddera_conversation_next(buffer, n, &it, true, &event), &none)) {
            lies(n, event.content);
            if (event.form > WISPUDDERA_CONTENT_FAULT || event.kind > WISPUDDERA_EVENT_UNKNOWN ||
                (event.form == WISPUDDERA_CONTENT_FAULT) != (event.fault != 0)) {
                printf("mutated: an event that is none\n");
                exit(1);
            }
        }
    }
    if ((wispuddera_conversation_stop(&it, &stop) == WISPUDDERA_READ) !=
        (wispuddera_conversation_outcome(&it) >= WISPUDDERA_BROKEN_OFF && wispuddera_conversation_outcome(&it) <= WISPUDDERA_NO_HANDSHAKE)) {
        printf("mutated: a stop without an outcome\n");
        exit(1);
    }
    free(buffer);
    /* Random offsets: what is read lies in the buffer, or nothing is read. */
    for (i = 0; i < n; i++) {
        ((uint8_t *)&it)[i % sizeof it] = b[i] % 2 == 0 ? 0 : b[i];
    }
    it.client.is_over = it.client.has_changed = it.server.is_over = it.server.has_changed = it.is_tls13 = it.has_session = it.course.stop.is_alert =
        it.course.stop.event.to_server = false;
    if (n > 0) {
        it.client.part = at;
        it.client.part_end = at + b[0] % 8;
        it.client.unread = it.client.part_end + b[n - 1] % 8;
        it.client.end = it.client.unread + b[n / 2];
    }
    buffer = (uint8_t *)malloc(n + 40);
    if (buffer == NULL) {
        exit(2);
    }
    memset(buffer, 0x16, n + 40);
    while (is_read(wispuddera_conversation_next(buffer, n + 40, &it, true, &event), &none)) {
        lies(n + 40, event.content);
    }
    is_read(wispuddera_conversation_feed(buffer, n + 40, &it, true, b, n), &none);
    is_read(wispuddera_conversation_feed(buffer, n + 40, &it, false, b, n), &none);
    free(buffer);
}

int main(int argc, char **argv) {
    const long wanted = argc > 1 ? atol(argv[1]) : 10000;
    static const size_t begins[] = {0, 5, 9, 58, 92};
    static const size_t parts[] = {0, 0, 5, 110, 122, 124};
    while (calls < wanted) {
        const int is_hello = next_random() % 4 != 0;
        const uint8_t *text = is_hello ? hello : certificate;
        const size_t size = is_hello ? sizeof hello : sizeof certificate;
        const size_t begin = is_hello ? begins[next_random() % 5] : parts[next_random() % 6];
        /* A truncated certificate is incomplete, and nothing else is read. */
        const size_t count = !is_hello && next_random() % 2 == 0 ? size - begin : next_random() % (size - begin + 1);
        const size_t at = next_random() % 4 == 0 ? next_random() % (count + 3) : 0;
        uint32_t changes = 1 + next_random() % 4;
        uint8_t *block = count == 0 ? NULL : (uint8_t *)malloc(count);
        if (block != NULL) {
            memcpy(block, text + begin, count);
        } else if (count != 0) {
            return 2;
        }
        for (; changes > 0 && count > 0; changes--) {
            block[next_random() % count] = (uint8_t)next_random();
        }
        is_mutated = count > 0 && memcmp(block, text + begin, count) != 0;
        call_parts(block, count, at);
        call_others(block, count, at);
        call_certificates(block, count, at);
        call_streams(block, count, at);
        call_conversation(block, count, at);
        call_flow(block, count, at);
        call_fingerprints(block, count);
        free(block);
    }
    printf("mutated: %ld calls on mutated bytes, each with a status and its places within the bytes\n", calls);
    return 0;
}
