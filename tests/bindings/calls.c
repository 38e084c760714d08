/* Calls each function once, on bytes whose offsets were counted by hand. Each field of a struct has a different value here, so a
 * field at another offset in the library's struct fails the test. The bytes follow the structs of RFC 8446 and RFC 6347. */
#include "wispuddera.h"

#include <stddef.h>
#include <stdio.h>
#include <string.h>

static int failures = 0;

static void is(int line, unsigned long long found, unsigned long long wanted) {
    if (found != wanted) {
        printf("calls.c:%d: %llu in place of %llu\n", line, found, wanted);
        failures++;
    }
}

#define IS(found, wanted) is(__LINE__, (unsigned long long)(found), (unsigned long long)(wanted))
#define PLACE(found, begin, count) (IS((found).offset, begin), IS((found).length, count))

/* A record of 102 bytes: 5 of header, 4 of the message's header, and the body of a ClientHello. */
static const uint8_t record[] = {
    0x16, 0x03, 0x01, 0x00, 0x61,                                                             /* 0: the header */
    0x01, 0x00, 0x00, 0x5d,                                                                   /* 5: the message's */
    0x03, 0x03,                                                                               /* 9: the version */
    1, 2, 3, 4, 5, 6, 7, 8, 9, 10, 11, 12, 13, 14, 15, 16, 17, 18, 19, 20, 21, 22, 23, 24, 25, 26, 27, 28, 29, 30, 31, 32, /* 11 */
    0x02, 0xa1, 0xa2,                                                                         /* 43: the session id */
    0x00, 0x06, 0x13, 0x01, 0x13, 0x02, 0xc0, 0x2f,                                           /* 46: suites */
    0x01, 0x00,                                                                               /* 54: methods */
    0x00, 0x2c,                                                                               /* 56: extensions */
    0x00, 0x00, 0x00, 0x08, 0x00, 0x06, 0x00, 0x00, 0x03, 'a', '.', 'b',                      /* 58: server_name */
    0x00, 0x10, 0x00, 0x05, 0x00, 0x03, 0x02, 'h', '2',                                       /* 70: protocols */
    0x00, 0x2b, 0x00, 0x05, 0x04, 0x03, 0x04, 0x03, 0x03,                                     /* 79: versions */
    0x00, 0x33, 0x00, 0x08, 0x00, 0x06, 0x00, 0x1d, 0x00, 0x02, 0xb1, 0xb2,                   /* 88: key shares */
    0x00, 0x15,                                                                               /* 100: cut off below */
};

enum { WHOLE = 102, BODY = 9, BODY_LENGTH = 93, BLOCK = 58, BLOCK_LENGTH = 44 };

/* Where each field of a struct begins, and after them its size. */
static void is_laid_out(int line, size_t index, const size_t *offsets, size_t fields, size_t size) {
    size_t i;
    for (i = 0; i < fields; i++) {
        is(line, wispuddera_field_offset(index, i), offsets[i]);
    }
    is(line, wispuddera_field_offset(index, fields), size);
    is(line, wispuddera_struct_size(index), size);
}

#define IS_LAID_OUT(index, type) is_laid_out(__LINE__, index, offsets, sizeof offsets / sizeof *offsets, sizeof(wispuddera_##type))

static void test_layout(void) {
    {
        static const size_t offsets[] = {offsetof(wispuddera_place, offset), offsetof(wispuddera_place, length)};
        IS_LAID_OUT(0, place);
    }
    {
        static const size_t offsets[] = {offsetof(wispuddera_record, missing), offsetof(wispuddera_record, fragment),
                                         offsetof(wispuddera_record, next), offsetof(wispuddera_record, version),
                                         offsetof(wispuddera_record, length), offsetof(wispuddera_record, content_type)};
        IS_LAID_OUT(1, record);
    }
    {
        static const size_t offsets[] = {offsetof(wispuddera_part, missing), offsetof(wispuddera_part, content),
                                         offsetof(wispuddera_part, next), offsetof(wispuddera_part, kind)};
        IS_LAID_OUT(2, part);
    }
    {
        static const size_t offsets[] = {offsetof(wispuddera_client_hello, missing), offsetof(wispuddera_client_hello, random),
                                         offsetof(wispuddera_client_hello, session_id),
                                         offsetof(wispuddera_client_hello, cipher_suites),
                                         offsetof(wispuddera_client_hello, compression_methods),
                                         offsetof(wispuddera_client_hello, extensions),
                                         offsetof(wispuddera_client_hello, next), offsetof(wispuddera_client_hello, version),
                                         offsetof(wispuddera_client_hello, has_extensions)};
        IS_LAID_OUT(3, client_hello);
    }
    {
        static const size_t offsets[] = {offsetof(wispuddera_server_hello, missing), offsetof(wispuddera_server_hello, random),
                                         offsetof(wispuddera_server_hello, session_id),
                                         offsetof(wispuddera_server_hello, extensions),
                                         offsetof(wispuddera_server_hello, next), offsetof(wispuddera_server_hello, version),
                                         offsetof(wispuddera_server_hello, cipher_suite),
                                         offsetof(wispuddera_server_hello, compression_method),
                                         offsetof(wispuddera_server_hello, has_extensions)};
        IS_LAID_OUT(4, server_hello);
    }
    {
        static const size_t offsets[] = {offsetof(wispuddera_found, missing), offsetof(wispuddera_found, place)};
        IS_LAID_OUT(5, found);
    }
    {
        static const size_t offsets[] = {offsetof(wispuddera_number, missing), offsetof(wispuddera_number, count),
                                         offsetof(wispuddera_number, value)};
        IS_LAID_OUT(6, number);
    }
    {
        static const size_t offsets[] = {offsetof(wispuddera_dtls_record, missing), offsetof(wispuddera_dtls_record, fragment),
                                         offsetof(wispuddera_dtls_record, next),
                                         offsetof(wispuddera_dtls_record, sequence_number),
                                         offsetof(wispuddera_dtls_record, version), offsetof(wispuddera_dtls_record, epoch),
                                         offsetof(wispuddera_dtls_record, length),
                                         offsetof(wispuddera_dtls_record, content_type)};
        IS_LAID_OUT(7, dtls_record);
    }
    {
        static const size_t offsets[] = {offsetof(wispuddera_dtls_message, missing), offsetof(wispuddera_dtls_message, body),
                                         offsetof(wispuddera_dtls_message, next), offsetof(wispuddera_dtls_message, length),
                                         offsetof(wispuddera_dtls_message, fragment_offset),
                                         offsetof(wispuddera_dtls_message, fragment_length),
                                         offsetof(wispuddera_dtls_message, message_seq),
                                         offsetof(wispuddera_dtls_message, kind), offsetof(wispuddera_dtls_message, is_part)};
        IS_LAID_OUT(8, dtls_message);
    }
    {
        static const size_t offsets[] = {offsetof(wispuddera_dtls_client_hello, missing),
                                         offsetof(wispuddera_dtls_client_hello, random),
                                         offsetof(wispuddera_dtls_client_hello, session_id),
                                         offsetof(wispuddera_dtls_client_hello, cookie),
                                         offsetof(wispuddera_dtls_client_hello, cipher_suites),
                                         offsetof(wispuddera_dtls_client_hello, compression_methods),
                                         offsetof(wispuddera_dtls_client_hello, extensions),
                                         offsetof(wispuddera_dtls_client_hello, next),
                                         offsetof(wispuddera_dtls_client_hello, version),
                                         offsetof(wispuddera_dtls_client_hello, has_extensions)};
        IS_LAID_OUT(9, dtls_client_hello);
    }
    {
        static const size_t offsets[] = {offsetof(wispuddera_event, kind), offsetof(wispuddera_event, to_server)};
        IS_LAID_OUT(10, event);
    }
    {
        static const size_t offsets[] = {offsetof(wispuddera_flow, state)};
        IS_LAID_OUT(11, flow);
    }
    {
        static const size_t offsets[] = {offsetof(wispuddera_x509, missing), offsetof(wispuddera_x509, signed_bytes),
                                         offsetof(wispuddera_x509, serial_number),
                                         offsetof(wispuddera_x509, signature_algorithm), offsetof(wispuddera_x509, issuer),
                                         offsetof(wispuddera_x509, subject), offsetof(wispuddera_x509, key_algorithm),
                                         offsetof(wispuddera_x509, key_parameters), offsetof(wispuddera_x509, public_key),
                                         offsetof(wispuddera_x509, extensions), offsetof(wispuddera_x509, signature),
                                         offsetof(wispuddera_x509, not_before), offsetof(wispuddera_x509, not_after),
                                         offsetof(wispuddera_x509, next), offsetof(wispuddera_x509, key_bits),
                                         offsetof(wispuddera_x509, key_kind), offsetof(wispuddera_x509, version)};
        IS_LAID_OUT(12, x509);
    }
    {
        static const size_t offsets[] = {offsetof(wispuddera_x509_extension, missing), offsetof(wispuddera_x509_extension, oid),
                                         offsetof(wispuddera_x509_extension, value), offsetof(wispuddera_x509_extension, next),
                                         offsetof(wispuddera_x509_extension, critical)};
        IS_LAID_OUT(13, x509_extension);
    }
    {
        static const size_t offsets[] = {offsetof(wispuddera_event_content, content), offsetof(wispuddera_event_content, fault),
                                         offsetof(wispuddera_event_content, form), offsetof(wispuddera_event_content, kind)};
        IS_LAID_OUT(14, event_content);
    }
    {
        static const size_t offsets[] = {offsetof(wispuddera_stop, events_before), offsetof(wispuddera_stop, event),
                                         offsetof(wispuddera_stop, is_alert), offsetof(wispuddera_stop, alert)};
        IS_LAID_OUT(15, stop);
    }
    {
        static const size_t offsets[] = {offsetof(wispuddera_side, part), offsetof(wispuddera_side, part_end),
                                         offsetof(wispuddera_side, unread), offsetof(wispuddera_side, end),
                                         offsetof(wispuddera_side, kind), offsetof(wispuddera_side, has_changed),
                                         offsetof(wispuddera_side, is_over)};
        IS_LAID_OUT(16, side);
    }
    {
        static const size_t offsets[] = {offsetof(wispuddera_course, events), offsetof(wispuddera_course, stop),
                                         offsetof(wispuddera_course, flow)};
        IS_LAID_OUT(17, course);
    }
    {
        static const size_t offsets[] = {offsetof(wispuddera_conversation, client), offsetof(wispuddera_conversation, server),
                                         offsetof(wispuddera_conversation, limit), offsetof(wispuddera_conversation, course),
                                         offsetof(wispuddera_conversation, is_tls13),
                                         offsetof(wispuddera_conversation, has_session)};
        IS_LAID_OUT(18, conversation);
    }
    IS(wispuddera_struct_size(19), 0);
    IS(wispuddera_field_offset(19, 0), 0);
}

static void test_record(void) {
    wispuddera_record r = WISPUDDERA_EMPTY;
    IS(wispuddera_read_record(record, WHOLE, 0, &r), WISPUDDERA_READ);
    IS(r.missing, 0);
    PLACE(r.fragment, 5, 97);
    IS(r.next, 102);
    IS(r.version, 0x0301);
    IS(r.length, 97);
    IS(r.content_type, 22);
    IS(wispuddera_read_record(record, 60, 0, &r), WISPUDDERA_INCOMPLETE);
    IS(r.missing, 42);
    IS(wispuddera_read_record(record, WHOLE, 102, &r), WISPUDDERA_INCOMPLETE);
    IS(r.missing, 1);
    IS(wispuddera_read_record(record, WHOLE, 103, &r), WISPUDDERA_OUTSIDE);
    IS(r.missing, 0);
    IS(wispuddera_read_record(NULL, 0, 0, &r), WISPUDDERA_INCOMPLETE);
    IS(wispuddera_read_record((const uint8_t *)"\x16\x03\x01\x41\x01", 5, 0, &r), WISPUDDERA_TOO_LARGE);
}

static void test_parts(void) {
    wispuddera_part p = WISPUDDERA_EMPTY;
    IS(wispuddera_read_message(record, WHOLE, 5, &p), WISPUDDERA_READ);
    PLACE(p.content, BODY, BODY_LENGTH);
    IS(p.next, 102);
    IS(p.kind, 1);
    IS(wispuddera_read_extension(record, WHOLE, 70, &p), WISPUDDERA_READ);
    PLACE(p.content, 74, 5);
    IS(p.next, 79);
    IS(p.kind, 16);
    IS(wispuddera_read_key_share(record, WHOLE, 94, &p), WISPUDDERA_READ);
    PLACE(p.content, 98, 2);
    IS(p.next, 100);
    IS(p.kind, 29);
    IS(wispuddera_read_protocol(record, WHOLE, 76, &p), WISPUDDERA_READ);
    PLACE(p.content, 77, 2);
    IS(p.next, 79);
    IS(p.kind, 0);
    IS(wispuddera_read_certificate((const uint8_t *)"\xff\x00\x00\x02\x30\x00", 6, 1, &p), WISPUDDERA_READ);
    PLACE(p.content, 4, 2);
    IS(p.next, 6);
    IS(wispuddera_read_extension(record, WHOLE, 100, &p), WISPUDDERA_INCOMPLETE);
    IS(p.missing, 2);
}

static void test_client_hello(void) {
    wispuddera_client_hello h = WISPUDDERA_EMPTY;
    IS(wispuddera_read_client_hello(record + BODY, BODY_LENGTH, &h), WISPUDDERA_READ);
    IS(h.missing, 0);
    IS(h.version, 0x0303);
    PLACE(h.random, 2, 32);
    PLACE(h.session_id, 35, 2);
    PLACE(h.cipher_suites, 39, 6);
    PLACE(h.compression_methods, 46, 1);
    PLACE(h.extensions, 49, BLOCK_LENGTH);
    IS(h.has_extensions, 1);
    IS(h.next, BODY_LENGTH);
    /* Without its last byte the block of extensions isn't whole, and is none. */
    IS(wispuddera_read_client_hello(record + BODY, BODY_LENGTH - 1, &h), WISPUDDERA_READ);
    IS(h.has_extensions, 0);
    IS(h.extensions.length, 0);
    IS(h.next, 47);
    IS(wispuddera_read_client_hello(record + BODY, 33, &h), WISPUDDERA_INCOMPLETE);
    IS(h.missing, 1);
}

static void test_server_hello(void) {
    uint8_t body[48] = {0x03, 0x03};
    wispuddera_server_hello h = WISPUDDERA_EMPTY;
    const uint8_t tail[] = {0x01, 0xc1, 0x13, 0x02, 0x01, 0x00, 0x04, 0x00, 0x17, 0x00, 0x00};
    memcpy(body + 34, tail, sizeof tail);
    IS(wispuddera_read_server_hello(body, sizeof body, &h), WISPUDDERA_READ);
    PLACE(h.random, 2, 32);
    PLACE(h.session_id, 35, 1);
    PLACE(h.extensions, 41, 4);
    IS(h.next, 45);
    IS(h.version, 0x0303);
    IS(h.cipher_suite, 0x1302);
    IS(h.compression_method, 1);
    IS(h.has_extensions, 1);
    body[34] = 33;
    IS(wispuddera_read_server_hello(body, sizeof body, &h), WISPUDDERA_VERIFY);
    body[0] = 9;
    IS(wispuddera_read_server_hello(body, sizeof body, &h), WISPUDDERA_TAG);
}

static void test_found(void) {
    wispuddera_found f = WISPUDDERA_EMPTY;
    IS(wispuddera_find_server_name_in_record(record, WHOLE, &f), WISPUDDERA_READ);
    PLACE(f.place, 67, 3);
    IS(wispuddera_find_server_name_in_hello(record + BODY, BODY_LENGTH, &f), WISPUDDERA_READ);
    PLACE(f.place, 58, 3);
    IS(wispuddera_find_server_name_in_extensions(record + BLOCK, BLOCK_LENGTH, &f), WISPUDDERA_READ);
    PLACE(f.place, 9, 3);
/* The older name stays. */
#if defined(__GNUC__) || defined(__clang__)
#pragma GCC diagnostic push
#pragma GCC diagnostic ignored "-Wdeprecated-declarations"
#endif
    IS(wispuddera_find_server_name(record + BLOCK, BLOCK_LENGTH, &f), WISPUDDERA_READ);
    PLACE(f.place, 9, 3);
#if defined(__GNUC__) || defined(__clang__)
#pragma GCC diagnostic pop
#endif
    IS(wispuddera_find_server_name_in_extensions(record + 70, 30, &f), WISPUDDERA_NONE);
    IS(wispuddera_find_server_name_in_extensions(record + 70, 29, &f), WISPUDDERA_INCOMPLETE);
    IS(f.missing, 1);
    IS(wispuddera_find_protocols(record + BLOCK, BLOCK_LENGTH, &f), WISPUDDERA_READ);
    PLACE(f.place, 18, 3);
    IS(wispuddera_find_extension(record + BLOCK, BLOCK_LENGTH, 43, &f), WISPUDDERA_READ);
    PLACE(f.place, 25, 5);
    IS(wispuddera_find_extension(record + BLOCK, 42, 44, &f), WISPUDDERA_NONE);
    IS(wispuddera_find_body(record + 5, 97, 1, &f), WISPUDDERA_READ);
    PLACE(f.place, 4, BODY_LENGTH);
    IS(wispuddera_find_key_shares(record + 92, 8, &f), WISPUDDERA_READ);
    PLACE(f.place, 2, 6);
    IS(wispuddera_find_certificates((const uint8_t *)"\x00\x00\x05\x00\x00\x02\x30\x00", 8, &f), WISPUDDERA_READ);
    PLACE(f.place, 3, 5);
}

static void test_numbers(void) {
    wispuddera_number n = WISPUDDERA_EMPTY;
    IS(wispuddera_cipher_suite_at(record + BODY, BODY_LENGTH, 2, &n), WISPUDDERA_READ);
    IS(n.value, 0xc02f);
    IS(n.count, 3);
    IS(wispuddera_cipher_suite_at(record + BODY, BODY_LENGTH, 3, &n), WISPUDDERA_NONE);
    IS(n.count, 3);
    IS(wispuddera_cipher_suite_at(record + BODY, 40, 0, &n), WISPUDDERA_LENGTH_VALUE);
    IS(wispuddera_number_at(record + 48, 6, 2, &n), WISPUDDERA_READ);
    IS(n.value, 0xc02f);
    IS(n.count, 3);
    IS(wispuddera_number_at(record + 48, 6, 3, &n), WISPUDDERA_NONE);
    IS(wispuddera_version_at(record + 83, 5, 1, &n), WISPUDDERA_READ);
    IS(n.value, 0x0303);
    IS(n.count, 2);
    IS(wispuddera_version_at(record + 83, 4, 1, &n), WISPUDDERA_LENGTH_VALUE);
    IS(wispuddera_group_at((const uint8_t *)"\x00\x04\x00\x1d\x00\x17", 6, 1, &n), WISPUDDERA_READ);
    IS(n.value, 23);
    IS(wispuddera_group_at((const uint8_t *)"\x00\x04\x00\x1d\x00\x17", 5, 1, &n), WISPUDDERA_INCOMPLETE);
    IS(n.missing, 1);
    IS(wispuddera_signature_scheme_at((const uint8_t *)"\x00\x05\x04\x03\x08\x04\x08", 7, 1, &n), WISPUDDERA_READ);
    IS(n.value, 0x0804);
    IS(n.count, 2);
    IS(wispuddera_signature_scheme_at((const uint8_t *)"\x00\x05\x04\x03\x08\x04\x08", 7, 2, &n), WISPUDDERA_NONE);
    IS(wispuddera_signature_scheme_at((const uint8_t *)"\x00\x05\x04\x03\x08\x04\x08", 6, 1, &n), WISPUDDERA_INCOMPLETE);
    IS(n.missing, 1);
    IS(wispuddera_best_version(record + BLOCK, 42, 0x0303, &n), WISPUDDERA_READ);
    IS(n.value, 0x0304);
    IS(wispuddera_best_version(NULL, 0, 0x0302, &n), WISPUDDERA_READ);
    IS(n.value, 0x0302);
}

static void test_dtls(void) {
    /* A record with a fragment of a message, and the body of a ClientHello. */
    static const uint8_t datagram[] = {0x16, 0xfe, 0xfd, 0x00, 0x01, 0x00, 0x00, 0x00, 0x00, 0x12, 0x34, 0x00, 0x0e, /* 0 */
                                       0x0b, 0x00, 0x00, 0x09, 0x00, 0x05, 0x00, 0x00, 0x03, 0x00, 0x00, 0x02, 0xd1, 0xd2};
    uint8_t body[48] = {0xfe, 0xfd};
    const uint8_t tail[] = {0x00, 0x02, 0xe1, 0xe2, 0x00, 0x04, 0xc0, 0x2f, 0x13, 0x01, 0x01, 0x00, 0x00, 0x00};
    wispuddera_number n = WISPUDDERA_EMPTY;
    wispuddera_dtls_record r = WISPUDDERA_EMPTY;
    wispuddera_dtls_message m = WISPUDDERA_EMPTY;
    wispuddera_dtls_client_hello h = WISPUDDERA_EMPTY;
    IS(wispuddera_read_dtls_record(datagram, sizeof datagram, 0, &r), WISPUDDERA_READ);
    PLACE(r.fragment, 13, 14);
    IS(r.next, 27);
    IS(r.sequence_number, 0x1234);
    IS(r.version, 0xfefd);
    IS(r.epoch, 1);
    IS(r.length, 14);
    IS(r.content_type, 22);
    IS(wispuddera_read_dtls_message(datagram, sizeof datagram, 13, &m), WISPUDDERA_READ);
    PLACE(m.body, 25, 2);
    IS(m.next, 27);
    IS(m.length, 9);
    IS(m.fragment_offset, 3);
    IS(m.fragment_length, 2);
    IS(m.message_seq, 5);
    IS(m.kind, 11);
    IS(m.is_part, 1);
    IS(wispuddera_read_dtls_message(datagram, 26, 13, &m), WISPUDDERA_INCOMPLETE);
    IS(m.missing, 1);
    memcpy(body + 34, tail, sizeof tail);
    IS(wispuddera_read_dtls_client_hello(body, 48, &h), WISPUDDERA_READ);
    PLACE(h.random, 2, 32);
    IS(h.session_id.length, 0);
    PLACE(h.cookie, 36, 2);
    PLACE(h.cipher_suites, 40, 4);
    PLACE(h.compression_methods, 45, 1);
    PLACE(h.extensions, 48, 0);
    IS(h.next, 48);
    IS(h.version, 0xfefd);
    IS(h.has_extensions, 1);
    IS(wispuddera_dtls_cipher_suite_at(body, 48, 1, &n), WISPUDDERA_READ);
    IS(n.value, 0x1301);
    IS(n.count, 2);
    IS(wispuddera_dtls_cipher_suite_at(body, 48, 2, &n), WISPUDDERA_NONE);
    IS(wispuddera_dtls_cipher_suite_at(body, 43, 0, &n), WISPUDDERA_LENGTH_VALUE);
    IS(wispuddera_dtls_cipher_suite_at(body, 33, 0, &n), WISPUDDERA_INCOMPLETE);
    IS(n.missing, 1);
}

static void test_dtls_server_hello(void) {
    uint8_t body[46] = {0xfe, 0xfd};
    const uint8_t tail[] = {0x02, 0xc1, 0xc2, 0xc0, 0x2f, 0x01, 0x00, 0x04, 0x00, 0x17, 0x00, 0x00};
    wispuddera_server_hello h = WISPUDDERA_EMPTY;
    memcpy(body + 34, tail, sizeof tail);
    IS(wispuddera_read_dtls_server_hello(body, sizeof body, &h), WISPUDDERA_READ);
    PLACE(h.random, 2, 32);
    PLACE(h.session_id, 35, 2);
    PLACE(h.extensions, 42, 4);
    IS(h.next, 46);
    IS(h.version, 0xfefd);
    IS(h.cipher_suite, 0xc02f);
    IS(h.compression_method, 1);
    IS(h.has_extensions, 1);
    IS(wispuddera_read_server_hello(body, sizeof body, &h), WISPUDDERA_TAG);
    IS(wispuddera_read_dtls_server_hello(body, 38, &h), WISPUDDERA_INCOMPLETE);
    IS(h.missing, 1);
    body[34] = 33;
    IS(wispuddera_read_dtls_server_hello(body, sizeof body, &h), WISPUDDERA_VERIFY);
}

static void test_stream(void) {
    static uint8_t buffer[110], joined[97];
    wispuddera_place held = WISPUDDERA_EMPTY, messages = WISPUDDERA_EMPTY;
    wispuddera_record r = WISPUDDERA_EMPTY;
    wispuddera_part m = WISPUDDERA_EMPTY;
    size_t taken = 0, i, fed = 0;
    for (i = 0; i < 2 * WHOLE; i++) {
        uint32_t status = WISPUDDERA_READ;
        IS(wispuddera_feed(buffer, sizeof buffer, &held, record + i % WHOLE, 1, &taken), WISPUDDERA_READ);
        IS(taken, 1);
        status = wispuddera_next_record(buffer, sizeof buffer, &held, &r);
        IS(status, i % WHOLE == WHOLE - 1 ? WISPUDDERA_READ : WISPUDDERA_INCOMPLETE);
        if (status == WISPUDDERA_READ) {
            PLACE(r.fragment, 5, 97);
            IS(memcmp(buffer, record, WHOLE), 0);
            PLACE(held, 102, 0);
            fed++;
        }
    }
    IS(fed, 2);
    IS(wispuddera_feed(joined, sizeof joined, &messages, record + 5, 97, &taken), WISPUDDERA_READ);
    IS(wispuddera_feed(joined, sizeof joined, &messages, record, 1, &taken), WISPUDDERA_READ);
    IS(taken, 0);
    IS(wispuddera_next_message(joined, sizeof joined, &messages, &m), WISPUDDERA_READ);
    PLACE(m.content, 4, BODY_LENGTH);
    IS(m.kind, 1);
    PLACE(messages, 97, 0);
    messages.length = 1;
    IS(wispuddera_next_message(joined, sizeof joined, &messages, &m), WISPUDDERA_OUTSIDE);
    IS(wispuddera_feed(joined, sizeof joined, &messages, record, 1, &taken), WISPUDDERA_OUTSIDE);
    PLACE(messages, 97, 1);
}

/* A list of events, and each prefix of it, has the same outcome as single steps. */
static uint32_t outcome_of(const wispuddera_event *events, size_t count) {
    wispuddera_flow flow = WISPUDDERA_EMPTY;
    size_t i;
    wispuddera_flow_start(&flow);
    for (i = 0; i < count; i++) {
        IS(wispuddera_flow_outcome(&flow), wispuddera_outcome(events, i));
        wispuddera_flow_step(&flow, &events[i]);
    }
    IS(wispuddera_flow_outcome(&flow), wispuddera_outcome(events, count));
    return wispuddera_flow_outcome(&flow);
}

static void test_no_state(void) {
    static const wispuddera_event hello = {WISPUDDERA_EVENT_CLIENT_HELLO, true};
    wispuddera_flow flow = {1000};
    wispuddera_flow_step(&flow, &hello);
    IS(flow.state, 1000);
    IS(wispuddera_flow_outcome(&flow), WISPUDDERA_NO_HANDSHAKE);
    wispuddera_flow_start(&flow);
    IS(wispuddera_flow_outcome(&flow), WISPUDDERA_WAITING);
}

/* Handshakes as RFC 5246 (section 7.3) and RFC 8446 (section 2) draw them. */
static void test_outcome(void) {
    static const uint8_t messages[] = {1, 2, 11, 12, 14, 16};
    static const bool to_server[] = {true, false, false, false, false, true};
    uint8_t hello[46] = {0x03, 0x03};
    const uint8_t versions[] = {0x00, 0x13, 0x01, 0x00, 0x00, 0x06, 0x00, 0x2b, 0x00, 0x02, 0x03, 0x04};
    wispuddera_event events[10];
    size_t i;
    IS(outcome_of(NULL, 0), WISPUDDERA_WAITING);
    for (i = 0; i < 6; i++) {
        const uint8_t *body = messages[i] == 2 ? hello : record + BODY;
        events[i].kind = wispuddera_event_of_message(body, messages[i] == 2 ? 38 : BODY_LENGTH, messages[i]);
        events[i].to_server = to_server[i];
        IS(events[i].kind != WISPUDDERA_EVENT_UNKNOWN, 1);
        IS(outcome_of(events, i + 1), WISPUDDERA_WAITING);
    }
    IS(events[1].kind, WISPUDDERA_EVENT_SERVER_HELLO);
    for (; i < 10; i++) {
        events[i].kind = i % 2 == 0 ? WISPUDDERA_EVENT_CHANGE_CIPHER_SPEC : WISPUDDERA_EVENT_ENCRYPTED;
        events[i].to_server = i < 8;
    }
    IS(outcome_of(events, 7), WISPUDDERA_WAITING);
    IS(outcome_of(events, 10), WISPUDDERA_FULL);
    events[2].kind = wispuddera_event_of_alert(2, 40);
    IS(events[2].kind, WISPUDDERA_EVENT_FATAL);
    IS(outcome_of(events, 10), WISPUDDERA_BROKEN_OFF);
    events[2].kind = 200;
    IS(outcome_of(events, 10), WISPUDDERA_UNKNOWN);
    events[2].kind = WISPUDDERA_EVENT_CLIENT_HELLO;
    IS(outcome_of(events, 10), WISPUDDERA_NO_HANDSHAKE);
    memcpy(hello + 34, versions, sizeof versions);
    events[1].kind = wispuddera_event_of_message(hello, sizeof hello, 2);
    IS(events[1].kind, WISPUDDERA_EVENT_SERVER_HELLO_13);
    IS(outcome_of(events, 2), WISPUDDERA_TLS13);
    IS(wispuddera_event_of_dtls_message(3), WISPUDDERA_EVENT_HELLO_VERIFY_REQUEST);
    IS(wispuddera_event_of_alert(1, 90), WISPUDDERA_EVENT_WARNING);
}

/* The refusals of each call, as wispuddera.h documents them. */
#define BYTES(text) (const uint8_t *)(text), sizeof(text) - 1

/* A ServerHello of TLS 1.3 with pre_shared_key, in two records. */
static const uint8_t server_records[] = {
    0x16, 0x03, 0x03, 0x00, 0x08, 0x02, 0x00, 0x00, 0x34, 0x03, 0x03, 1, 2,                 /* 0: the message's header, and 4 bytes of the body */
    0x16, 0x03, 0x03, 0x00, 0x30,                                                           /* 13: the second record */
    3, 4, 5, 6, 7, 8, 9, 10, 11, 12, 13, 14, 15, 16, 17, 18, 19, 20, 21, 22, 23, 24, 25, 26, 27, 28, 29, 30, 31, 32, /* 18 */
    0x00, 0x13, 0x01, 0x00,                                                                 /* 48: no session id, suite and method */
    0x00, 0x0c, 0x00, 0x2b, 0x00, 0x02, 0x03, 0x04,                                         /* 52: supported_versions */
    0x00, 0x29, 0x00, 0x02, 0x00, 0x00,                                                     /* 60: pre_shared_key */
    0x17, 0x03, 0x03, 0x00, 0x02, 0xe1, 0xe2,                                               /* 66: an encrypted record */
};

enum { SERVER_HELLO_END = 66, SERVER_RECORDS = 73 };

/* Checks an event: its form, its kind, and that its bytes are in the buffer, with this content. */
static void is_event(int line, const uint8_t *buffer, const wispuddera_event_content *event, int form, int kind, const uint8_t *bytes,
                     size_t count) {
    is(line, event->form, (unsigned long long)form);
    is(line, event->kind, (unsigned long long)kind);
    is(line, event->fault, 0);
    is(line, event->content.length, count);
    if (event->content.length == count) {
        is(line, (unsigned long long)memcmp(buffer + event->content.offset, bytes, count), 0);
    }
}

#define IS_EVENT(form, kind, bytes, count) is_event(__LINE__, buffer, &event, form, kind, bytes, count)

static void test_conversation(void) {
    static uint8_t buffer[120], server_buffer[70];
    wispuddera_conversation it = WISPUDDERA_EMPTY;
    wispuddera_event_content event = WISPUDDERA_EMPTY;
    wispuddera_stop stop = WISPUDDERA_EMPTY;
    uint8_t hello[56];
    size_t i;
    wispuddera_conversation_start(&it, 93);
    IS(wispuddera_conversation_outcome(&it), WISPUDDERA_WAITING);
    for (i = 0; i < WHOLE; i++) {
        IS(wispuddera_conversation_next(buffer, sizeof buffer, &it, true, &event), WISPUDDERA_NONE);
        IS(wispuddera_conversation_feed(buffer, sizeof buffer, &it, true, record + i, 1), WISPUDDERA_READ);
    }
    IS(wispuddera_conversation_next(buffer, sizeof buffer, &it, true, &event), WISPUDDERA_READ);
    IS_EVENT(WISPUDDERA_CONTENT_MESSAGE, WISPUDDERA_EVENT_CLIENT_HELLO, record + 5, 97);
    IS(wispuddera_conversation_next(buffer, sizeof buffer, &it, true, &event), WISPUDDERA_NONE);
    IS(wispuddera_conversation_established(&it), false);
    /* What doesn't fit is not held, and what is held lies in its side's buffer alone. */
    IS(wispuddera_conversation_feed(server_buffer, sizeof server_buffer, &it, false, server_records, SERVER_RECORDS), WISPUDDERA_NO_ROOM);
    IS(it.server.end, 0);
    IS(wispuddera_conversation_feed(server_buffer, sizeof server_buffer, &it, false, server_records, SERVER_HELLO_END), WISPUDDERA_READ);
    IS(wispuddera_conversation_next(server_buffer, SERVER_HELLO_END - 1, &it, false, &event), WISPUDDERA_OUTSIDE);
    IS(wispuddera_conversation_feed(server_buffer, SERVER_HELLO_END - 1, &it, false, NULL, 0), WISPUDDERA_OUTSIDE);
    IS(wispuddera_conversation_next(server_buffer, sizeof server_buffer, &it, false, &event), WISPUDDERA_READ);
    memcpy(hello, server_records + 5, 8);
    memcpy(hello + 8, server_records + 18, 48);
    is_event(__LINE__, server_buffer, &event, WISPUDDERA_CONTENT_MESSAGE, WISPUDDERA_EVENT_SERVER_HELLO_13, hello, sizeof hello);
    IS(wispuddera_conversation_outcome(&it), WISPUDDERA_TLS13);
    IS(wispuddera_conversation_established(&it), true);
    IS(wispuddera_conversation_resumed(&it), true);
    IS(wispuddera_conversation_stop(&it, &stop), WISPUDDERA_NONE);
    /* The buffer is full again, after the last event. */
    IS(wispuddera_conversation_feed(server_buffer, sizeof server_buffer, &it, false, server_records + SERVER_HELLO_END, 7), WISPUDDERA_READ);
    IS(wispuddera_conversation_next(server_buffer, sizeof server_buffer, &it, false, &event), WISPUDDERA_READ);
    is_event(__LINE__, server_buffer, &event, WISPUDDERA_CONTENT_ENCRYPTED, WISPUDDERA_EVENT_ENCRYPTED, server_records + SERVER_HELLO_END,
             7);
    IS(it.course.events, 3);
    IS(wispuddera_conversation_resumed(&it), true);
}

/* Bytes after a ClientHello that stop the conversation, and why. */
static void test_conversation_stops(void) {
    static const struct {
        const char *bytes;
        size_t count;
        uint32_t fault;
        uint8_t kind, form;
    } tries[] = {
        {"GET /", 5, WISPUDDERA_SWITCH, WISPUDDERA_EVENT_UNKNOWN, WISPUDDERA_CONTENT_FAULT},
        {"\x16\x03\x01\x41\x01", 5, WISPUDDERA_TOO_LARGE, WISPUDDERA_EVENT_UNKNOWN, WISPUDDERA_CONTENT_FAULT},
        {"\x14\x03\x01\x00\x01\x02", 6, WISPUDDERA_VERIFY, WISPUDDERA_EVENT_UNKNOWN, WISPUDDERA_CONTENT_FAULT},
        {"\x16\x03\x01\x00\x04\x01\x00\x00\x5e", 9, WISPUDDERA_ABOVE_LIMIT, WISPUDDERA_EVENT_UNKNOWN, WISPUDDERA_CONTENT_FAULT},
        {"\x16\x03\x01\x00\x02\x01\x00\x15\x03\x01\x00\x02\x02\x28", 14, WISPUDDERA_INTERRUPTED, WISPUDDERA_EVENT_UNKNOWN,
         WISPUDDERA_CONTENT_FAULT},
        {"\x15\x03\x01\x00\x02\x02\x28", 7, 0, WISPUDDERA_EVENT_FATAL, WISPUDDERA_CONTENT_ALERT},
        {"\x14\x03\x01\x00\x01\x01", 6, 0, WISPUDDERA_EVENT_CHANGE_CIPHER_SPEC, WISPUDDERA_CONTENT_CHANGE_CIPHER_SPEC},
        {"\x18\x03\x01\x00\x01\x07", 6, 0, WISPUDDERA_EVENT_HEARTBEAT, WISPUDDERA_CONTENT_HEARTBEAT},
        {"\x17\x03\x01\x00\x01\x07", 6, 0, WISPUDDERA_EVENT_ENCRYPTED, WISPUDDERA_CONTENT_APPLICATION_DATA},
        {"\x15\x03\x01\x00\x02\x03\x28", 7, 0, WISPUDDERA_EVENT_ENCRYPTED, WISPUDDERA_CONTENT_ENCRYPTED},
    };
    /* There a server may send a ChangeCipherSpec (RFC 8446, section D.4) and noise, but nothing encrypted. */
    static const uint32_t outcomes[] = {WISPUDDERA_UNKNOWN, WISPUDDERA_UNKNOWN, WISPUDDERA_UNKNOWN, WISPUDDERA_UNKNOWN, WISPUDDERA_UNKNOWN,
                                        WISPUDDERA_BROKEN_OFF, WISPUDDERA_WAITING, WISPUDDERA_WAITING, WISPUDDERA_NO_HANDSHAKE,
                                        WISPUDDERA_NO_HANDSHAKE};
    static uint8_t buffer[WHOLE], server_buffer[20];
    size_t i;
    for (i = 0; i < sizeof tries / sizeof *tries; i++) {
        wispuddera_conversation it = WISPUDDERA_EMPTY;
        wispuddera_event_content event = WISPUDDERA_EMPTY;
        wispuddera_stop stop = WISPUDDERA_EMPTY;
        const uint8_t *bytes = (const uint8_t *)tries[i].bytes;
        wispuddera_conversation_start(&it, 93);
        IS(wispuddera_conversation_feed(buffer, sizeof buffer, &it, true, record, WHOLE), WISPUDDERA_READ);
        IS(wispuddera_conversation_next(buffer, sizeof buffer, &it, true, &event), WISPUDDERA_READ);
        IS(wispuddera_conversation_feed(server_buffer, sizeof server_buffer, &it, false, bytes, tries[i].count), WISPUDDERA_READ);
        IS(wispuddera_conversation_next(server_buffer, sizeof server_buffer, &it, false, &event), WISPUDDERA_READ);
        IS(event.fault, tries[i].fault);
        IS(event.kind, tries[i].kind);
        IS(event.form, tries[i].form);
        if (event.form == WISPUDDERA_CONTENT_FAULT) {
            IS(event.content.length, 0);
        } else if (event.form == WISPUDDERA_CONTENT_ALERT) {
            IS(event.content.length, 2);
            IS(memcmp(server_buffer + event.content.offset, bytes + 5, 2), 0);
        } else {
            IS(event.content.length, tries[i].count);
            IS(memcmp(server_buffer + event.content.offset, bytes, tries[i].count), 0);
        }
        IS(wispuddera_conversation_next(server_buffer, sizeof server_buffer, &it, false, &event), WISPUDDERA_NONE);
        /* After a fault nothing is held. */
        IS(wispuddera_conversation_feed(server_buffer, sizeof server_buffer, &it, false, record, WHOLE),
           event.form == WISPUDDERA_CONTENT_FAULT ? WISPUDDERA_READ : WISPUDDERA_NO_ROOM);
        IS(wispuddera_conversation_outcome(&it), outcomes[i]);
        IS(wispuddera_conversation_established(&it), false);
        IS(wispuddera_conversation_resumed(&it), false);
        if (outcomes[i] == WISPUDDERA_WAITING) {
            IS(wispuddera_conversation_stop(&it, &stop), WISPUDDERA_NONE);
        } else {
            IS(wispuddera_conversation_stop(&it, &stop), WISPUDDERA_READ);
            IS(stop.events_before, 1);
            IS(stop.event.kind, tries[i].kind);
            IS(stop.event.to_server, false);
            IS(stop.is_alert, tries[i].form == WISPUDDERA_CONTENT_ALERT);
            IS(stop.alert, stop.is_alert ? 40 : 0);
        }
    }
}

static void test_refusals_of_finds(void) {
    wispuddera_found f = WISPUDDERA_EMPTY;
    /* A list without a name, one whose first name isn't whole, a name of another type, no content, and a content that isn't whole. */
    IS(wispuddera_find_server_name_in_extensions(BYTES("\x00\x00\x00\x02\x00\x00"), &f), WISPUDDERA_NONE);
    IS(wispuddera_find_server_name_in_extensions(BYTES("\x00\x00\x00\x06\x00\x04\x00\x00\x09\x61"), &f), WISPUDDERA_NONE);
    IS(wispuddera_find_server_name_in_extensions(BYTES("\x00\x00\x00\x06\x00\x04\x07\x00\x01\x61"), &f), WISPUDDERA_READ);
    PLACE(f.place, 9, 1);
    IS(wispuddera_find_server_name_in_extensions(BYTES("\x00\x00\x00\x00"), &f), WISPUDDERA_NONE);
    IS(wispuddera_find_server_name_in_extensions(BYTES("\x00\x00\x00\x03\x00\x04\x00"), &f), WISPUDDERA_INCOMPLETE);
    IS(f.missing, 3);
    IS(wispuddera_find_server_name_in_extensions(NULL, 0, &f), WISPUDDERA_NONE);
    IS(f.missing, 0);
    /* An incomplete extension is noticed if nothing was found before it. */
    IS(wispuddera_find_extension(BYTES("\x00\x17\x00\x00\x00\x0a\x00"), 10, &f), WISPUDDERA_INCOMPLETE);
    IS(f.missing, 1);
    IS(wispuddera_find_extension(BYTES("\x00\x17\x00\x00\x00\x0a\x00"), 23, &f), WISPUDDERA_READ);
    PLACE(f.place, 4, 0);
    IS(wispuddera_find_protocols(BYTES("\x00\x10\x00\x02\x00\x03"), &f), WISPUDDERA_INCOMPLETE);
    IS(f.missing, 3);
    IS(wispuddera_find_body(BYTES("\x00\x00\x00\x00\x0e\x00\x00\x02\x00"), 14, &f), WISPUDDERA_INCOMPLETE);
    IS(f.missing, 1);
    IS(wispuddera_find_body(BYTES("\x00\x00\x00\x00"), 14, &f), WISPUDDERA_NONE);
    IS(wispuddera_find_key_shares(BYTES("\x00\x03\x00"), &f), WISPUDDERA_INCOMPLETE);
    IS(f.missing, 2);
    IS(wispuddera_find_key_shares(BYTES("\x00\x00"), &f), WISPUDDERA_READ);
    PLACE(f.place, 2, 0);
    IS(wispuddera_find_certificates(BYTES("\x00\x00\x03\x00"), &f), WISPUDDERA_INCOMPLETE);
    IS(f.missing, 2);
    IS(wispuddera_find_certificates(BYTES("\x00\x00\x00"), &f), WISPUDDERA_READ);
    PLACE(f.place, 3, 0);
    /* TLS has types 20 to 24, major version 3 and lengths up to 16640. With less than a header there is no answer yet. */
    IS(wispuddera_looks_like_tls(BYTES("\x14\x03\x00\x00\x00")), WISPUDDERA_READ);
    IS(wispuddera_looks_like_tls(BYTES("\x18\x03\x04\x41\x00")), WISPUDDERA_READ);
    IS(wispuddera_looks_like_tls(BYTES("\x18\x03\x04\x41\x01")), WISPUDDERA_NONE);
    IS(wispuddera_looks_like_tls(BYTES("\x13\x03\x03\x00\x01")), WISPUDDERA_NONE);
    IS(wispuddera_looks_like_tls(BYTES("\x19\x03\x03\x00\x01")), WISPUDDERA_NONE);
    IS(wispuddera_looks_like_tls(BYTES("\x16\x03\xff\x00\x01")), WISPUDDERA_READ);
    IS(wispuddera_looks_like_tls(BYTES("\x16\x04\x00\x00\x01")), WISPUDDERA_NONE);
    IS(wispuddera_looks_like_tls(BYTES("GET / HTTP/1.0\r\n\r\n")), WISPUDDERA_NONE);
    IS(wispuddera_looks_like_tls(BYTES("\x16\x03\x01\x00")), WISPUDDERA_INCOMPLETE);
    IS(wispuddera_looks_like_tls(NULL, 0), WISPUDDERA_INCOMPLETE);
    /* A record that is none of handshakes, one that is too large, a hello that goes on in another record, and one that is refused. */
    IS(wispuddera_find_server_name_in_record(BYTES("\x15\x03\x03\x00\x02\x02\x28"), &f), WISPUDDERA_NONE);
    IS(wispuddera_find_server_name_in_record(BYTES("\x16\x03\x03\x41\x01"), &f), WISPUDDERA_TOO_LARGE);
    IS(wispuddera_find_server_name_in_record(BYTES("\x16\x03\x03\x00\x06\x01\x00\x00\x2a\x03\x03"), &f), WISPUDDERA_INCOMPLETE);
    IS(f.missing, 40);
    IS(wispuddera_find_server_name_in_record(BYTES("\x16\x03\x03\x00\x04\x0e\x00\x00\x00"), &f), WISPUDDERA_NONE);
    IS(wispuddera_find_server_name_in_hello(record + BODY, 20, &f), WISPUDDERA_INCOMPLETE);
    IS(f.missing, 14);
    IS(wispuddera_find_server_name_in_hello(record + BODY, 40, &f), WISPUDDERA_LENGTH_VALUE);
    /* A block of extensions that isn't whole is none. */
    IS(wispuddera_find_server_name_in_hello(record + BODY, BODY_LENGTH - 1, &f), WISPUDDERA_NONE);
    {
        uint8_t body[40] = {0x03, 0x03};
        body[34] = 33;
        IS(wispuddera_find_server_name_in_hello(body, sizeof body, &f), WISPUDDERA_VERIFY);
    }
}

static void test_refusals_of_numbers(void) {
    wispuddera_number n = WISPUDDERA_EMPTY;
    IS(wispuddera_number_at(BYTES("\x13\x01\x13"), 1, &n), WISPUDDERA_NONE);
    IS(n.count, 1);
    /* No bytes, an odd number after the first, one version, and a first byte that isn't looked at. */
    IS(wispuddera_version_at(NULL, 0, 0, &n), WISPUDDERA_INCOMPLETE);
    IS(n.missing, 1);
    IS(wispuddera_version_at(BYTES("\x03"), 0, &n), WISPUDDERA_NONE);
    IS(n.count, 0);
    IS(wispuddera_version_at(BYTES("\x03\x04"), 0, &n), WISPUDDERA_READ);
    IS(n.value, 0x0304);
    IS(wispuddera_version_at(BYTES("\x09\x03\x04"), 0, &n), WISPUDDERA_READ);
    IS(n.value, 0x0304);
    IS(n.count, 1);
    IS(wispuddera_group_at(BYTES("\x00\x03\x00\x17\x00"), 0, &n), WISPUDDERA_LENGTH_VALUE);
    IS(n.missing, 0);
    IS(wispuddera_group_at(BYTES("\x00\x02\x00\x17\x00"), 1, &n), WISPUDDERA_NONE);
    IS(n.count, 1);
    /* The block's versions are the latest and then another, GREASE and TLS 1.2, GREASE alone, none, and refused ones. */
    IS(wispuddera_best_version(BYTES("\x00\x2b\x00\x05\x04\x03\x04\x03\x03"), 0x0303, &n), WISPUDDERA_READ);
    IS(n.value, 0x0304);
    IS(wispuddera_best_version(BYTES("\x00\x2b\x00\x05\x04\xfa\xfa\x03\x03"), 0x0301, &n), WISPUDDERA_READ);
    IS(n.value, 0x0303);
    IS(wispuddera_best_version(BYTES("\x00\x2b\x00\x03\x02\x0a\x0a"), 0x0303, &n), WISPUDDERA_NONE);
    IS(wispuddera_best_version(BYTES("\x00\x2b\x00\x01\x00"), 0x0303, &n), WISPUDDERA_NONE);
    IS(wispuddera_best_version(BYTES("\x00\x2b\x00\x00"), 0x0303, &n), WISPUDDERA_INCOMPLETE);
    IS(n.missing, 1);
    IS(wispuddera_best_version(BYTES("\x00\x2b\x00\x04\x03\x03\x04\x03"), 0x0303, &n), WISPUDDERA_LENGTH_VALUE);
    IS(wispuddera_best_version(BYTES("\x00\x17\x00\x00\x00\x2b\x00\x09\x01"), 0x0303, &n), WISPUDDERA_INCOMPLETE);
    IS(n.missing, 8);
    IS(wispuddera_best_version(BYTES("\x00\x17\x00\x00"), 0x0301, &n), WISPUDDERA_READ);
    IS(n.value, 0x0301);
}

static void test_what_is_not_refused(void) {
    uint8_t buffer[4] = {1, 2, 3, 4};
    wispuddera_place held = {0, 4};
    size_t taken = 9;
    IS(wispuddera_feed(buffer, sizeof buffer, &held, BYTES("\x05"), &taken), WISPUDDERA_READ);
    IS(taken, 0);
    held.offset = 1;
    taken = 9;
    IS(wispuddera_feed(buffer, sizeof buffer, &held, BYTES("\x05"), &taken), WISPUDDERA_OUTSIDE);
    IS(taken, 0);
    PLACE(held, 1, 4);
    IS(wispuddera_event_of_message(NULL, 0, 2), WISPUDDERA_EVENT_UNKNOWN);
    IS(wispuddera_event_of_message(NULL, 0, 1), WISPUDDERA_EVENT_CLIENT_HELLO);
    IS(wispuddera_event_of_message(NULL, 0, 99), WISPUDDERA_EVENT_UNKNOWN);
    IS(wispuddera_event_of_dtls_message(99), WISPUDDERA_EVENT_UNKNOWN);
    IS(wispuddera_event_of_alert(1, 0), WISPUDDERA_EVENT_FATAL);
    IS(wispuddera_event_of_alert(1, 41), WISPUDDERA_EVENT_NO_CERTIFICATE);
    IS(wispuddera_event_of_alert(3, 90), WISPUDDERA_EVENT_FATAL);
}

/* Digests of texts that were written by hand, as "771,4865-4866-49199,0-16-43-51,,", by md5sum and sha256sum. */
static void test_fingerprints(void) {
    static const uint8_t server[] = {0x03, 0x03, 1, 2, 3, 4, 5, 6, 7, 8, 9, 10, 11, 12, 13, 14, 15, 16, 17, 18, 19, 20, 21, 22, 23, 24, 25, 26,
                                     27, 28, 29, 30, 31, 32, 0x00, 0xc0, 0x2f, 0x00, 0x00, 0x04, 0x00, 0x17, 0x00, 0x00};
    static const uint8_t datagram[] = {0xfe, 0xfd, 1, 2, 3, 4, 5, 6, 7, 8, 9, 10, 11, 12, 13, 14, 15, 16, 17, 18, 19, 20, 21, 22, 23, 24, 25, 26,
                                       27, 28, 29, 30, 31, 32, 0x00, 0x02, 0xe1, 0xe2, 0x00, 0x04, 0xc0, 0x2f, 0x0a, 0x0a, 0x01, 0x00};
    const uint8_t *body = record + BODY;
    uint8_t text[40];
    size_t missing = 9;
    memset(text, '.', sizeof text);
    IS(wispuddera_ja3(body, BODY_LENGTH, text, sizeof text, &missing), WISPUDDERA_READ);
    IS(missing, 0);
    IS(memcmp(text, "5f671f8e05377b8c8876847f82d52406........", sizeof text), 0);
    IS(wispuddera_ja4(body, BODY_LENGTH, text, WISPUDDERA_JA4_ROOM, &missing), WISPUDDERA_READ);
    IS(memcmp(text, "t13d0304h2_40b44b994229_a56c5b993250....", sizeof text), 0);
    IS(wispuddera_quic_ja4(body, BODY_LENGTH, text, WISPUDDERA_JA4_ROOM, &missing), WISPUDDERA_READ);
    IS(memcmp(text, "q13d0304h2_40b44b994229_a56c5b993250....", sizeof text), 0);
    IS(wispuddera_ja3s(server, sizeof server, text, WISPUDDERA_JA3S_ROOM, &missing), WISPUDDERA_READ);
    IS(memcmp(text, "083a17d1eee567193ca26e03736db9e53250....", sizeof text), 0);
    /* A number of GREASE counts nowhere. */
    IS(wispuddera_dtls_ja3(datagram, sizeof datagram, text, WISPUDDERA_JA3_ROOM, &missing), WISPUDDERA_READ);
    IS(memcmp(text, "16392eee10fbf958359e66f7af4fb797", 32), 0);
    IS(wispuddera_dtls_ja4(datagram, sizeof datagram, text, WISPUDDERA_JA4_ROOM, &missing), WISPUDDERA_READ);
    IS(memcmp(text, "dd2i010000_f06271c2b022_000000000000....", sizeof text), 0);
    /* Where the buffer is too short, or the hello is refused, the buffer stays. */
    memset(text, '.', sizeof text);
    missing = 9;
    IS(wispuddera_ja3(body, BODY_LENGTH, text, 31, &missing), WISPUDDERA_NO_ROOM);
    IS(missing, 0);
    IS(wispuddera_dtls_ja3(datagram, 33, text, 31, &missing), WISPUDDERA_NO_ROOM);
    IS(wispuddera_ja3s(server, 3, text, 0, &missing), WISPUDDERA_NO_ROOM);
    IS(wispuddera_dtls_ja3s(server, 3, text, 31, &missing), WISPUDDERA_NO_ROOM);
    IS(wispuddera_ja4(body, BODY_LENGTH, text, 35, &missing), WISPUDDERA_NO_ROOM);
    IS(wispuddera_quic_ja4(body, BODY_LENGTH, text, 35, &missing), WISPUDDERA_NO_ROOM);
    IS(wispuddera_dtls_ja4(datagram, sizeof datagram, text, 35, &missing), WISPUDDERA_NO_ROOM);
    IS(wispuddera_ja3(body, 33, text, sizeof text, &missing), WISPUDDERA_INCOMPLETE);
    IS(missing, 1);
    IS(wispuddera_ja4(NULL, 0, text, sizeof text, &missing), WISPUDDERA_INCOMPLETE);
    IS(missing, 2);
    IS(wispuddera_dtls_ja3(datagram, 35, text, sizeof text, &missing), WISPUDDERA_INCOMPLETE);
    IS(missing, 1);
    IS(wispuddera_dtls_ja4(datagram, 35, text, sizeof text, &missing), WISPUDDERA_INCOMPLETE);
    IS(wispuddera_ja3s(datagram, sizeof datagram, text, sizeof text, &missing), WISPUDDERA_TAG);
    IS(missing, 0);
    IS(wispuddera_dtls_ja3s(datagram, 36, text, sizeof text, &missing), WISPUDDERA_INCOMPLETE);
    IS(memcmp(text, "........................................", sizeof text), 0);
    IS(wispuddera_dtls_ja3s(server, sizeof server, text, sizeof text, &missing), WISPUDDERA_READ);
    IS(memcmp(text, "083a17d1eee567193ca26e03736db9e5........", sizeof text), 0);
}

/* A certificate by RFC 5280's structs, with a dummy signature. `openssl asn1parse` prints the same offsets. */
static const uint8_t certificate[] = {
    0x30, 0x81, 0x8a,                                                                                   /* 0: the certificate */
    0x30, 0x7c,                                                                                         /* 3: what is signed */
    0xa0, 0x03, 0x02, 0x01, 0x02,                                                                       /* 5: version 3 */
    0x02, 0x02, 0x01, 0x05,                                                                             /* 10: the serial number */
    0x30, 0x05, 0x06, 0x03, 0x2b, 0x65, 0x70,                                                           /* 14: signed with Ed25519 */
    0x30, 0x0c, 0x31, 0x0a, 0x30, 0x08, 0x06, 0x03, 0x55, 0x04, 0x03, 0x0c, 0x01, 0x61,                 /* 21: the issuer */
    0x30, 0x1e, 0x17, 0x0d, 0x37, 0x30, 0x30, 0x31, 0x30, 0x31, 0x30, 0x30, 0x30, 0x30, 0x30, 0x31,     /* 35: the validity */
    0x5a, 0x17, 0x0d, 0x37, 0x30, 0x30, 0x31, 0x30, 0x32, 0x30, 0x30, 0x30, 0x30, 0x30, 0x30, 0x5a,
    0x30, 0x0c, 0x31, 0x0a, 0x30, 0x08, 0x06, 0x03, 0x55, 0x04, 0x03, 0x0c, 0x01, 0x62,                 /* 67: the subject */
    0x30, 0x17, 0x30, 0x10, 0x06, 0x07, 0x2a, 0x86, 0x48, 0xce, 0x3d, 0x02, 0x01,                       /* 81: the key: of an elliptic curve, */
    0x06, 0x05, 0x2b, 0x81, 0x04, 0x00, 0x22,                                                           /* 94: secp384r1 */
    0x03, 0x03, 0x00, 0x04, 0x05,                                                                       /* 101: and 2 bytes */
    0xa3, 0x15, 0x30, 0x13,                                                                             /* 106: the extensions */
    0x30, 0x11, 0x06, 0x03, 0x55, 0x1d, 0x11, 0x01, 0x01, 0xff,                                         /* 110: a critical subjectAltName */
    0x04, 0x07, 0x30, 0x05, 0x82, 0x03, 0x61, 0x2e, 0x62,                                               /* 120: which has one name */
    0x30, 0x05, 0x06, 0x03, 0x2b, 0x65, 0x70,                                                           /* 129: signed with Ed25519 */
    0x03, 0x03, 0x00, 0xb1, 0xb2,                                                                       /* 136: the signature */
};

enum { CERTIFICATE = 141 };

/* The status of the certificate with one byte changed. */
static uint32_t status_with(size_t at, uint8_t byte) {
    uint8_t changed[CERTIFICATE];
    wispuddera_x509 c = WISPUDDERA_EMPTY;
    memcpy(changed, certificate, CERTIFICATE);
    changed[at] = byte;
    return wispuddera_read_x509(changed, CERTIFICATE, &c);
}

static void test_certificate(void) {
    wispuddera_x509 c = WISPUDDERA_EMPTY;
    wispuddera_x509_extension e = WISPUDDERA_EMPTY;
    wispuddera_found f = WISPUDDERA_EMPTY;
    wispuddera_part p = WISPUDDERA_EMPTY;
    size_t count;
    IS(wispuddera_read_x509(certificate, CERTIFICATE, &c), WISPUDDERA_READ);
    IS(c.missing, 0);
    PLACE(c.signed_bytes, 3, 126);
    PLACE(c.serial_number, 12, 2);
    PLACE(c.signature_algorithm, 133, 3);
    PLACE(c.issuer, 21, 14);
    PLACE(c.subject, 67, 14);
    PLACE(c.key_algorithm, 87, 7);
    PLACE(c.key_parameters, 96, 5);
    PLACE(c.public_key, 104, 2);
    PLACE(c.extensions, 110, 19);
    PLACE(c.signature, 139, 2);
    IS(c.not_before, 1);
    IS(c.not_after, 86400);
    IS(c.next, 141);
    IS(c.key_bits, 0);
    IS(c.key_kind, WISPUDDERA_KEY_EC);
    IS(c.version, 2);
    /* With the three bytes of the tag and the length, the exact number of missing bytes is known. */
    for (count = 0; count < CERTIFICATE; count++) {
        IS(wispuddera_read_x509(certificate, count, &c), WISPUDDERA_INCOMPLETE);
        IS(c.missing, count < 3 ? 1 : CERTIFICATE - count);
    }
    IS(status_with(0, 0x31), WISPUDDERA_TAG);
    IS(status_with(1, 0x80), WISPUDDERA_SWITCH);
    IS(status_with(1, 0x84), WISPUDDERA_TOO_LARGE);
    IS(status_with(2, 0x7f), WISPUDDERA_VERIFY);
    IS(status_with(4, 0x7d), WISPUDDERA_LENGTH_VALUE);
    IS(status_with(9, 0x82), WISPUDDERA_VERIFY);
    IS(status_with(22, 0x7f), WISPUDDERA_COMPLETE);
    IS(status_with(41, '3'), WISPUDDERA_VERIFY);
    /* What is in names and extensions isn't judged before it is walked. */
    IS(status_with(23, 0x30), WISPUDDERA_READ);
    IS(status_with(110, 0x31), WISPUDDERA_READ);
    IS(wispuddera_read_x509_extension(certificate, CERTIFICATE, 110, &e), WISPUDDERA_READ);
    IS(e.missing, 0);
    PLACE(e.oid, 114, 3);
    PLACE(e.value, 122, 7);
    IS(e.next, 129);
    IS(e.critical, 1);
    IS(wispuddera_read_x509_extension(certificate, 128, 110, &e), WISPUDDERA_INCOMPLETE);
    IS(e.missing, 1);
    IS(wispuddera_read_x509_extension(certificate, CERTIFICATE, 5, &e), WISPUDDERA_TAG);
    IS(wispuddera_read_x509_extension(certificate, CERTIFICATE, 142, &e), WISPUDDERA_OUTSIDE);
    IS(e.missing, 0);
    IS(wispuddera_find_x509_names(certificate + 122, 7, &f), WISPUDDERA_READ);
    PLACE(f.place, 2, 5);
    IS(wispuddera_find_x509_names(certificate + 122, 6, &f), WISPUDDERA_INCOMPLETE);
    IS(f.missing, 1);
    IS(wispuddera_find_x509_names(certificate + 120, 9, &f), WISPUDDERA_TAG);
    IS(wispuddera_read_x509_name(certificate, CERTIFICATE, 124, &p), WISPUDDERA_READ);
    IS(p.missing, 0);
    PLACE(p.content, 126, 3);
    IS(p.next, 129);
    IS(p.kind, WISPUDDERA_NAME_DNS);
    IS(wispuddera_read_x509_name(certificate, 128, 124, &p), WISPUDDERA_INCOMPLETE);
    IS(p.missing, 1);
    IS(wispuddera_read_x509_name(certificate, CERTIFICATE, 119, &p), WISPUDDERA_SWITCH);
    IS(wispuddera_read_x509_name(certificate, CERTIFICATE, 142, &p), WISPUDDERA_OUTSIDE);
    IS(p.missing, 0);
}

int main(void) {
    uint32_t status;
    for (status = 0; status <= WISPUDDERA_INTERRUPTED; status++) {
        IS(strcmp(wispuddera_status_text(status), "no status") != 0, 1);
    }
    IS(strcmp(wispuddera_status_text(status), "no status"), 0);
    IS(strcmp(wispuddera_outcome_text(WISPUDDERA_WAITING), "a handshake is under way"), 0);
    IS(strcmp(wispuddera_outcome_text(WISPUDDERA_BROKEN_OFF), "broken off by an alert"), 0);
    IS(strcmp(wispuddera_outcome_text(WISPUDDERA_TLS13_RETRIED_EARLY), "TLS 1.3, after a retry, with early data"), 0);
    IS(strcmp(wispuddera_outcome_text(WISPUDDERA_TLS13_RETRIED_EARLY + 1), "no outcome"), 0);
    IS(strcmp(wispuddera_event_text(WISPUDDERA_EVENT_HELLO_REQUEST), "HelloRequest"), 0);
    IS(strcmp(wispuddera_event_text(WISPUDDERA_EVENT_SERVER_DONE), "ServerHelloDone"), 0);
    IS(strcmp(wispuddera_event_text(WISPUDDERA_EVENT_HEARTBEAT), "heartbeat"), 0);
    IS(strcmp(wispuddera_event_text(WISPUDDERA_EVENT_UNKNOWN), "unknown or refused"), 0);
    IS(strcmp(wispuddera_event_text(255), "unknown or refused"), 0);
    test_layout();
    test_record();
    test_parts();
    test_client_hello();
    test_server_hello();
    test_found();
    test_numbers();
    test_dtls();
    test_dtls_server_hello();
    test_certificate();
    test_stream();
    test_outcome();
    test_conversation();
    test_conversation_stops();
    test_no_state();
    test_refusals_of_finds();
    test_refusals_of_numbers();
    test_what_is_not_refused();
    test_fingerprints();
    printf(failures == 0 ? "calls: as counted by hand\n" : "calls: not as counted by hand\n");
    return failures != 0;
}
