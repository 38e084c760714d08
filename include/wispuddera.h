/* Parses TLS, DTLS and X.509 certificates in the caller's bytes, for C99 and C++. This program
 * prints the host that the ClientHello in a record asks for:
 *
 *     #include "wispuddera.h"
 *     #include <stdio.h>
 *     int main(void) {
 *         uint8_t bytes[16645];
 *         wispuddera_found name = WISPUDDERA_EMPTY;
 *         size_t count = fread(bytes, 1, sizeof bytes, stdin);
 *         uint32_t status = wispuddera_find_server_name_in_record(bytes, count, &name);
 *         if (status == WISPUDDERA_READ)
 *             printf("%.*s\n", (int)name.place.length, (const char *)bytes + name.place.offset);
 *         else
 *             printf("no host: %s\n", wispuddera_status_text(status));
 *     }
 *
 * The calls, without the prefix wispuddera_:
 *
 *     is it TLS?            looks_like_tls
 *     records               read_record, read_dtls_record; in pieces: feed, next_record
 *     handshake messages    read_message, read_dtls_message, find_body; in pieces: feed,
 *                           next_message
 *     hellos                read_client_hello, read_server_hello, read_dtls_client_hello,
 *                           read_dtls_server_hello
 *     host names            find_server_name_in_record, find_server_name_in_hello,
 *                           find_server_name_in_extensions
 *     extensions            read_extension, find_extension, find_protocols, read_protocol,
 *                           find_key_shares, read_key_share
 *     lists of numbers      number_at, cipher_suite_at, dtls_cipher_suite_at, version_at, group_at,
 *                           signature_scheme_at, best_version
 *     certificates          find_certificates, read_certificate, read_x509, read_x509_extension,
 *                           find_x509_names, read_x509_name
 *     fingerprints          ja3, ja3s, ja4, dtls_ja3, dtls_ja3s, dtls_ja4, quic_ja4
 *     both sides' bytes     conversation_start, conversation_feed, conversation_next,
 *                           conversation_outcome, conversation_stop, conversation_established,
 *                           conversation_resumed
 *     events                event_of_message, event_of_dtls_message, event_of_alert, outcome,
 *                           flow_start, flow_step, flow_outcome
 *     texts                 status_text, event_text, outcome_text
 *     this header           struct_size, field_offset
 *
 * Bytes come as a pointer and a count, a parsed value goes into a struct of the caller's, and the
 * call returns a status. Nothing is allocated and nothing is kept between calls, so calls may run
 * in several threads at once. Each function is proved in crates/wispuddera_c, except for those
 * defined in this header. A caller must ensure the following, which nothing checks:
 *
 * - The pointer leads to `count` bytes that nobody writes during the call. NULL with a count of 0
 *   is no bytes.
 * - `out` isn't NULL, is initialized (`= WISPUDDERA_EMPTY`), and overlaps no other argument.
 *
 * Places and offsets count bytes from the beginning of the caller's bytes. The places of a parsed
 * value lie within them. `next` is the offset of what follows: pass it as `offset` to parse that.
 * If the status isn't WISPUDDERA_READ, only `missing` is valid; if it is WISPUDDERA_NONE, so is the
 * `count` of a wispuddera_number.
 *
 * With WISPUDDERA_INCOMPLETE, `missing` is how many bytes the part that is being parsed lacks, at
 * least 1. More may be missing after these, such as the fragment after a header. With any other
 * status `missing` is 0. */
#ifndef WISPUDDERA_H
#define WISPUDDERA_H

#include <stddef.h>
#include <stdint.h>

#ifdef __cplusplus
extern "C" {
#define WISPUDDERA_EMPTY {}
#else
#include <stdbool.h>
#define WISPUDDERA_EMPTY {0}
#endif

/* Marks a name that is kept for existing programs. The text is the name to use instead. */
#if defined(__GNUC__) || defined(__clang__)
#define WISPUDDERA_DEPRECATED(text) __attribute__((deprecated(text)))
#else
#define WISPUDDERA_DEPRECATED(text)
#endif

/* The status that a call returns. */
enum {
    WISPUDDERA_READ = 0,         /* a value was read */
    WISPUDDERA_INCOMPLETE = 1,   /* bytes are missing; `missing` has the count */
    WISPUDDERA_TOO_LARGE = 2,    /* a length is above its limit */
    WISPUDDERA_LENGTH_VALUE = 3, /* a length doesn't fit what it counts */
    WISPUDDERA_VERIFY = 4,       /* a value breaks its rule */
    WISPUDDERA_SWITCH = 5,       /* a type that isn't parsed */
    WISPUDDERA_TAG = 6,          /* a fixed tag differs */
    WISPUDDERA_COMPLETE = 7,     /* bytes are missing where no further bytes could help */
    WISPUDDERA_NONE = 8,         /* there is none */
    WISPUDDERA_OUTSIDE = 9,      /* the offset is past the end of the bytes */
    WISPUDDERA_NO_ROOM = 10,     /* the buffer is too short for the result, or for the piece */
    WISPUDDERA_ABOVE_LIMIT = 11, /* a handshake message's length is above its conversation's
                                  * limit */
    WISPUDDERA_INTERRUPTED = 12  /* another record interrupts a handshake message */
};

/* The text of a status. */
static inline const char *wispuddera_status_text(uint32_t status) {
    static const char *const texts[] = {"a value was read",
                                        "more bytes are needed",
                                        "a length is too large",
                                        "a length doesn't fit what it counts",
                                        "a value breaks its rule",
                                        "a type that isn't read",
                                        "a fixed tag differs",
                                        "bytes are missing where no further bytes could help",
                                        "there is none",
                                        "the offset is past the end of the bytes",
                                        "the buffer is too short",
                                        "the length of a handshake message is above the limit",
                                        "another record interrupts the message"};
    return status < sizeof texts / sizeof *texts ? texts[status] : "no status";
}

/* A range of the caller's bytes. */
typedef struct {
    size_t offset; /* how many bytes come before it */
    size_t length; /* how many bytes it has */
} wispuddera_place;

/* A record (RFC 5246, section 6.2.1). */
typedef struct {
    size_t missing;
    wispuddera_place fragment;
    size_t next;
    uint16_t version;
    uint16_t length; /* of the fragment, in bytes */
    uint8_t content_type;
} wispuddera_record;

/* A part with a length: a handshake message, an extension, a key share, a protocol name, a
 * certificate. */
typedef struct {
    size_t missing;
    wispuddera_place content; /* without its kind and length */
    size_t next;
    uint16_t kind; /* 0 if such parts have none */
} wispuddera_part;

/* The body of a ClientHello (RFC 5246, section 7.4.1.2; RFC 8446, section 4.1.2). */
typedef struct {
    size_t missing;
    wispuddera_place random;              /* 32 bytes */
    wispuddera_place session_id;          /* empty if there is none */
    wispuddera_place cipher_suites;       /* 2 bytes each, for wispuddera_number_at */
    wispuddera_place compression_methods; /* 1 byte each */
    wispuddera_place extensions;          /* without their length; empty if there are none */
    size_t next;
    uint16_t version; /* 0x0303 in TLS 1.3; see wispuddera_best_version */
    bool has_extensions;
} wispuddera_client_hello;

/* The body of a ServerHello (RFC 5246, section 7.4.1.3; RFC 8446, section 4.1.3; for DTLS RFC 6347,
 * section 4.3.2). */
typedef struct {
    size_t missing;
    wispuddera_place random;     /* 32 bytes */
    wispuddera_place session_id; /* empty if there is none */
    wispuddera_place extensions; /* without their length; empty if there are none */
    size_t next;
    uint16_t version; /* 0x0303 in TLS 1.3; see wispuddera_best_version */
    uint16_t cipher_suite;
    uint8_t compression_method;
    bool has_extensions;
} wispuddera_server_hello;

/* The place of what was looked up. */
typedef struct {
    size_t missing;
    wispuddera_place place;
} wispuddera_found;

/* A number of a list. */
typedef struct {
    size_t missing;
    size_t count; /* the length of the list */
    uint16_t value;
} wispuddera_number;

/* A DTLS record (RFC 6347, section 4.1). */
typedef struct {
    size_t missing;
    wispuddera_place fragment;
    size_t next;
    uint64_t sequence_number; /* below 2^48 */
    uint16_t version;
    uint16_t epoch;
    uint16_t length; /* of the fragment, in bytes */
    uint8_t content_type;
} wispuddera_dtls_record;

/* A DTLS handshake message, or a fragment of one (RFC 6347, section 4.2.2). */
typedef struct {
    size_t missing;
    wispuddera_place body;
    size_t next;
    uint32_t length;          /* of the whole body, in bytes */
    uint32_t fragment_offset; /* in the whole body, in bytes */
    uint32_t fragment_length;
    uint16_t message_seq;
    uint8_t kind;
    bool is_part; /* `body` is only a part of the whole body */
} wispuddera_dtls_message;

/* The body of a DTLS ClientHello (RFC 6347, section 4.2.1). */
typedef struct {
    size_t missing;
    wispuddera_place random;              /* 32 bytes */
    wispuddera_place session_id;          /* empty if there is none */
    wispuddera_place cookie;              /* without its length */
    wispuddera_place cipher_suites;       /* 2 bytes each, for wispuddera_number_at */
    wispuddera_place compression_methods; /* 1 byte each */
    wispuddera_place extensions;          /* without their length; empty if there are none */
    size_t next;
    uint16_t version; /* 0xfeff in DTLS 1.0, 0xfefd in DTLS 1.2 */
    bool has_extensions;
} wispuddera_dtls_client_hello;

/* A certificate (RFC 5280, section 4.1). Object identifiers are without their tag and length. */
typedef struct {
    size_t missing;
    wispuddera_place signed_bytes;        /* the bytes that are signed, with their tag and length */
    wispuddera_place serial_number;       /* in two's complement, most significant byte first */
    wispuddera_place signature_algorithm; /* an object identifier */
    wispuddera_place issuer;              /* a Name, with its tag and length */
    wispuddera_place subject;             /* a Name, with its tag and length */
    wispuddera_place key_algorithm;       /* an object identifier */
    wispuddera_place key_parameters;      /* their content: for WISPUDDERA_KEY_EC the curve's
                                           * object identifier, otherwise often empty */
    wispuddera_place public_key;          /* without its count of unused bits */
    wispuddera_place extensions;          /* for wispuddera_read_x509_extension; empty if none */
    wispuddera_place signature;           /* without its count of unused bits */
    int64_t not_before;                   /* the first second of its validity, in seconds since
                                           * 1970-01-01 00:00:00 UTC */
    int64_t not_after;                    /* the last second of its validity, in seconds since
                                           * 1970-01-01 00:00:00 UTC */
    size_t next;
    uint32_t key_bits; /* for WISPUDDERA_KEY_RSA the bit length of the modulus, otherwise 0 */
    uint8_t key_kind;  /* one of WISPUDDERA_KEY_ */
    uint8_t version;   /* the version minus 1, as it is encoded: 2 for v3 */
} wispuddera_x509;

/* An extension of a certificate (RFC 5280, section 4.2). */
typedef struct {
    size_t missing;
    wispuddera_place oid;   /* its type: an object identifier, without tag and length */
    wispuddera_place value; /* in DER */
    size_t next;
    bool critical;
} wispuddera_x509_extension;

/* ---- Parsing at an offset ----
 *
 * Each call parses the part of `bytes` that begins at `offset`. WISPUDDERA_OUTSIDE if `offset` is
 * above `count`; WISPUDDERA_INCOMPLETE if the part is incomplete, also if `offset` == `count`.
 * Nothing else is refused, except as noted: a version, a type or a length may be any number, and a
 * part may be empty. */

/* Returns WISPUDDERA_READ if a stream begins as TLS: with a record header (RFC 8446, section 5.1)
 * whose type is 20 to 24, whose version is 0x0300 to 0x03ff, and whose length is at most 16640.
 * WISPUDDERA_NONE if it doesn't; WISPUDDERA_INCOMPLETE for fewer than 5 bytes, which don't decide
 * it. Call it before you wait for the missing bytes of a record: the calls below refuse no type and
 * no version. */
uint32_t wispuddera_looks_like_tls(const uint8_t *bytes, size_t count);

/* Parses a record (RFC 5246, section 6.2.1). WISPUDDERA_TOO_LARGE if its length is above 16640. */
uint32_t wispuddera_read_record(const uint8_t *bytes, size_t count, size_t offset, wispuddera_record *out);

/* Parses a handshake message in a record's fragment (RFC 5246, section 7.4). `kind` is its
 * HandshakeType. */
uint32_t wispuddera_read_message(const uint8_t *bytes, size_t count, size_t offset, wispuddera_part *out);

/* Parses an extension in a block of extensions (RFC 8446, section 4.2). `kind` is its
 * ExtensionType. */
uint32_t wispuddera_read_extension(const uint8_t *bytes, size_t count, size_t offset, wispuddera_part *out);

/* Parses a key share in a list of key shares, or in the content of a ServerHello's key_share (RFC
 * 8446, section 4.2.8). `kind` is its NamedGroup. */
uint32_t wispuddera_read_key_share(const uint8_t *bytes, size_t count, size_t offset, wispuddera_part *out);

/* Parses a protocol name in a list of names (RFC 7301, section 3.1). */
uint32_t wispuddera_read_protocol(const uint8_t *bytes, size_t count, size_t offset, wispuddera_part *out);

/* Parses a certificate in a list of certificates up to TLS 1.2 (RFC 5246, section 7.4.2). `content`
 * is its DER, which isn't parsed. */
uint32_t wispuddera_read_certificate(const uint8_t *bytes, size_t count, size_t offset, wispuddera_part *out);

/* Parses a DTLS record in a datagram (RFC 6347, section 4.1). WISPUDDERA_TOO_LARGE if its length is
 * above 16640. */
uint32_t wispuddera_read_dtls_record(const uint8_t *bytes, size_t count, size_t offset, wispuddera_dtls_record *out);

/* Parses a DTLS handshake message, or a fragment of one, in a record's fragment (RFC 6347, section
 * 4.2.2). */
uint32_t wispuddera_read_dtls_message(const uint8_t *bytes, size_t count, size_t offset, wispuddera_dtls_message *out);

/* ---- Bodies of handshake messages ----
 *
 * Each call parses the body at the beginning of `bytes`.
 *
 * - WISPUDDERA_INCOMPLETE if it is incomplete.
 * - WISPUDDERA_VERIFY if a session ID has more than 32 bytes.
 * - WISPUDDERA_LENGTH_VALUE if a list of a ClientHello is longer than the bytes that follow, or the
 *   cipher suites have an odd number of bytes.
 *
 * An incomplete block of extensions counts as none. */

/* Parses the body of a ClientHello (RFC 5246, section 7.4.1.2). */
uint32_t wispuddera_read_client_hello(const uint8_t *bytes, size_t count, wispuddera_client_hello *out);

/* Parses the body of a ServerHello (RFC 5246, section 7.4.1.3). WISPUDDERA_TAG if its version field
 * isn't one of SSL 3.0 to TLS 1.2. A hello of TLS 1.3 has one of these too (RFC 8446, section
 * 4.1.3). */
uint32_t wispuddera_read_server_hello(const uint8_t *bytes, size_t count, wispuddera_server_hello *out);

/* Parses the body of a DTLS ClientHello (RFC 6347, section 4.2.1). */
uint32_t wispuddera_read_dtls_client_hello(const uint8_t *bytes, size_t count, wispuddera_dtls_client_hello *out);

/* Parses the body of a DTLS ServerHello of any version (RFC 6347, section 4.3.2). */
uint32_t wispuddera_read_dtls_server_hello(const uint8_t *bytes, size_t count, wispuddera_server_hello *out);

/* ---- Looking things up ----
 *
 * WISPUDDERA_NONE if all bytes were searched and there is none; WISPUDDERA_INCOMPLETE if the search
 * reaches an incomplete part (a record, message or extension, or the list in it) first. Each call
 * names its other refusals. What follows the result isn't parsed. */

/* Finds the host name that the first ClientHello of the record at the front asks for (RFC 6066,
 * section 3).
 *
 * - WISPUDDERA_TOO_LARGE if the record's length is above 16640.
 * - WISPUDDERA_NONE also if the content type isn't 22, handshake.
 * - WISPUDDERA_INCOMPLETE also if the ClientHello continues in another record.
 *   wispuddera_next_message joins them.
 * - For the hello, what wispuddera_find_server_name_in_hello returns. */
uint32_t wispuddera_find_server_name_in_record(const uint8_t *bytes, size_t count, wispuddera_found *out);

/* Finds the host name in the body of a ClientHello, without the header of its message (RFC 5246,
 * section 7.4.1.2). It refuses what wispuddera_read_client_hello refuses (WISPUDDERA_INCOMPLETE,
 * WISPUDDERA_VERIFY, WISPUDDERA_LENGTH_VALUE), and in the extensions what
 * wispuddera_find_server_name_in_extensions refuses. */
uint32_t wispuddera_find_server_name_in_hello(const uint8_t *bytes, size_t count, wispuddera_found *out);

/* Finds the host name in a block of extensions: the first name of the list in the first
 * server_name, of any NameType. RFC 6066 has one NameType: 0, host_name.
 *
 * - WISPUDDERA_INCOMPLETE if an extension up to that one is incomplete, or its content is shorter
 *   than the length of its list.
 * - WISPUDDERA_NONE also if the list has no name, or its first name is incomplete. */
uint32_t wispuddera_find_server_name(const uint8_t *bytes, size_t count, wispuddera_found *out);
static inline uint32_t wispuddera_find_server_name_in_extensions(const uint8_t *bytes, size_t count, wispuddera_found *out) {
    return wispuddera_find_server_name(bytes, count, out);
}

/* The former name of wispuddera_find_server_name_in_extensions. */
WISPUDDERA_DEPRECATED("wispuddera_find_server_name_in_extensions")
uint32_t wispuddera_find_server_name(const uint8_t *bytes, size_t count, wispuddera_found *out);

/* Finds the list of protocol names in a block of extensions: that of the first
 * application_layer_protocol_negotiation (RFC 7301, section 3.1), without its length. Parse the
 * names with wispuddera_read_protocol. WISPUDDERA_INCOMPLETE if an extension up to that one is
 * incomplete, or its content is shorter than the length of its list. */
uint32_t wispuddera_find_protocols(const uint8_t *bytes, size_t count, wispuddera_found *out);

/* Finds the content of the first extension whose ExtensionType is `kind`, in a block of extensions
 * (RFC 8446, section 4.2). WISPUDDERA_INCOMPLETE if an extension up to that one is incomplete. */
uint32_t wispuddera_find_extension(const uint8_t *bytes, size_t count, uint16_t kind, wispuddera_found *out);

/* Finds the body of the first handshake message whose HandshakeType is `kind`, in a record's
 * fragment (RFC 5246, section 7.4). WISPUDDERA_INCOMPLETE if a message up to that one is
 * incomplete, such as one that continues in another record. */
uint32_t wispuddera_find_body(const uint8_t *bytes, size_t count, uint8_t kind, wispuddera_found *out);

/* Finds the list of key shares in the content of a ClientHello's key_share (RFC 8446, section
 * 4.2.8), without its length. Parse them with wispuddera_read_key_share. WISPUDDERA_INCOMPLETE if
 * the content is shorter than the list's length. Never WISPUDDERA_NONE; the list may be empty. */
uint32_t wispuddera_find_key_shares(const uint8_t *bytes, size_t count, wispuddera_found *out);

/* Finds the list of certificates in the body of a Certificate up to TLS 1.2 (RFC 5246, section
 * 7.4.2), without its length. Parse them with wispuddera_read_certificate. WISPUDDERA_INCOMPLETE if
 * the body is shorter than the list's length. Never WISPUDDERA_NONE; the list may be empty. */
uint32_t wispuddera_find_certificates(const uint8_t *bytes, size_t count, wispuddera_found *out);

/* ---- Numbers of lists by index ----
 *
 * Each call finds the number at `index`, which counts from 0. WISPUDDERA_NONE if the list is
 * shorter; `count` is the length of the list then too. */

/* Finds a number of a list of 2-byte numbers (RFC 8446, section 3.3), such as the cipher suites of
 * a ClientHello. Nothing is refused; an odd last byte is ignored. */
uint32_t wispuddera_number_at(const uint8_t *bytes, size_t count, size_t index, wispuddera_number *out);

/* Finds a cipher suite in the body of a ClientHello (RFC 5246, section 7.4.1.2). It refuses what
 * wispuddera_read_client_hello refuses: WISPUDDERA_INCOMPLETE, WISPUDDERA_VERIFY,
 * WISPUDDERA_LENGTH_VALUE. */
uint32_t wispuddera_cipher_suite_at(const uint8_t *bytes, size_t count, size_t index, wispuddera_number *out);

/* Finds a cipher suite in the body of a DTLS ClientHello (RFC 6347, section 4.2.1). It refuses what
 * wispuddera_read_dtls_client_hello refuses: WISPUDDERA_INCOMPLETE, WISPUDDERA_VERIFY,
 * WISPUDDERA_LENGTH_VALUE. */
uint32_t wispuddera_dtls_cipher_suite_at(const uint8_t *bytes, size_t count, size_t index, wispuddera_number *out);

/* Finds a version in the content of a supported_versions of either hello (RFC 8446, section 4.2.1).
 * 2 bytes are one version, as in a ServerHello. Otherwise the first byte is the length of a
 * ClientHello's list, which isn't checked. WISPUDDERA_INCOMPLETE if there are no bytes;
 * WISPUDDERA_LENGTH_VALUE if an odd number of bytes follows the first. */
uint32_t wispuddera_version_at(const uint8_t *bytes, size_t count, size_t index, wispuddera_number *out);

/* Finds a group in the content of a supported_groups (RFC 8446, section 4.2.7).
 * WISPUDDERA_INCOMPLETE if the content is shorter than the length of its list;
 * WISPUDDERA_LENGTH_VALUE if that length is odd. */
uint32_t wispuddera_group_at(const uint8_t *bytes, size_t count, size_t index, wispuddera_number *out);

/* Finds a signature scheme in the content of a signature_algorithms (RFC 8446, section 4.2.3). An
 * odd last byte of the list is ignored. WISPUDDERA_INCOMPLETE if the content is shorter than the
 * length of its list. */
uint32_t wispuddera_signature_scheme_at(const uint8_t *bytes, size_t count, size_t index, wispuddera_number *out);

/* Finds the best version of a hello with this version field and this block of extensions (RFC 8446,
 * section 4.2.1): the latest in the first supported_versions, without GREASE numbers (RFC 8701).
 * The latest is the highest number; for DTLS, whose numbers begin with 0xfe, it is the lowest.
 * Without that extension the best version is `version`. `count` isn't set.
 *
 * - WISPUDDERA_NONE if that extension has no version other than GREASE numbers.
 * - WISPUDDERA_INCOMPLETE if an extension up to that one is incomplete, or its content is empty.
 * - WISPUDDERA_LENGTH_VALUE as for wispuddera_version_at. */
uint32_t wispuddera_best_version(const uint8_t *bytes, size_t count, uint16_t version, wispuddera_number *out);

/* ---- Fingerprints of hellos ----
 *
 * Each call parses the body of a hello at the beginning of `bytes`, and writes a text to the
 * beginning of a buffer of `room` bytes, without a final 0. GREASE numbers (RFC 8701) are left out.
 * Extensions count up to the first incomplete one.
 *
 * - It refuses what the call above that parses the hello refuses. `*missing` is the count of
 *   missing bytes, otherwise 0.
 * - WISPUDDERA_NO_ROOM if `room` is too small; the hello isn't parsed then.
 * - Bytes after the text don't change, and no byte changes if the status isn't WISPUDDERA_READ. */

/* The lengths of the texts, in bytes. */
enum { WISPUDDERA_JA3_ROOM = 32, WISPUDDERA_JA3S_ROOM = 32, WISPUDDERA_JA4_ROOM = 36 };

/* Writes JA3 of a ClientHello (Salesforce, 2017): 32 hexadecimal digits, the MD5 of its version,
 * cipher suites, extension types, groups and point formats. It refuses what
 * wispuddera_read_client_hello refuses; for DTLS, wispuddera_read_dtls_client_hello. */
uint32_t wispuddera_ja3(const uint8_t *bytes, size_t count, uint8_t *digits, size_t room, size_t *missing);
uint32_t wispuddera_dtls_ja3(const uint8_t *bytes, size_t count, uint8_t *digits, size_t room, size_t *missing);

/* Writes JA3S of a ServerHello: 32 hexadecimal digits, the MD5 of its version, cipher suite and
 * extension types. It refuses what wispuddera_read_server_hello refuses; for DTLS,
 * wispuddera_read_dtls_server_hello. */
uint32_t wispuddera_ja3s(const uint8_t *bytes, size_t count, uint8_t *digits, size_t room, size_t *missing);
uint32_t wispuddera_dtls_ja3s(const uint8_t *bytes, size_t count, uint8_t *digits, size_t room, size_t *missing);

/* Writes JA4 of a ClientHello (FoxIO, 2023), such as t13d1516h2_8daaf6152771_e5627efa2ab1: over
 * TCP, over QUIC (RFC 9001), and for DTLS over UDP. It refuses what wispuddera_read_client_hello
 * refuses; for DTLS, wispuddera_read_dtls_client_hello. It sorts the numbers in an array of 64 KiB
 * on the stack. */
uint32_t wispuddera_ja4(const uint8_t *bytes, size_t count, uint8_t *text, size_t room, size_t *missing);
uint32_t wispuddera_quic_ja4(const uint8_t *bytes, size_t count, uint8_t *text, size_t room, size_t *missing);
uint32_t wispuddera_dtls_ja4(const uint8_t *bytes, size_t count, uint8_t *text, size_t room, size_t *missing);

/* ---- Streams in pieces ----
 *
 * The unread bytes of a stream are in a buffer of the caller's, at a place that the caller keeps:
 * {0, 0} at first. Each direction needs one buffer and place for its records, and another for its
 * handshake messages, whose pieces are the fragments of records. A buffer of 16645 bytes has room
 * for every record that isn't refused. A message may have up to 16777219 bytes; longer ones than
 * its buffer are never complete. WISPUDDERA_OUTSIDE, and nothing changes, if `held` doesn't lie
 * within the buffer. */

/* Appends as much of the piece as there is room for to the bytes in the buffer, which are moved to
 * its beginning. Records and messages may span pieces (RFC 8446, section 5.1). `*taken` is how many
 * bytes were appended: 0 if the buffer is full, which is no refusal. Returns WISPUDDERA_READ, or
 * WISPUDDERA_OUTSIDE with `*taken` 0. */
uint32_t wispuddera_feed(uint8_t *buffer, size_t capacity, wispuddera_place *held, const uint8_t *piece, size_t count, size_t *taken);

/* Parses the record at the front of the bytes in the buffer (RFC 5246, section 6.2.1), and removes
 * it from them. Its places count from the beginning of the buffer and stay valid until the next
 * wispuddera_feed. WISPUDDERA_INCOMPLETE if the record is incomplete, WISPUDDERA_TOO_LARGE if its
 * length is above 16640; nothing is removed then. */
uint32_t wispuddera_next_record(const uint8_t *buffer, size_t capacity, wispuddera_place *held, wispuddera_record *out);

/* Parses the handshake message at the front of the bytes in the buffer (RFC 5246, section 7.4), and
 * removes it from them. Its places count from the beginning of the buffer and stay valid until the
 * next wispuddera_feed. WISPUDDERA_INCOMPLETE if the message is incomplete; nothing is removed
 * then. Its length may be any number. */
uint32_t wispuddera_next_message(const uint8_t *buffer, size_t capacity, wispuddera_place *held, wispuddera_part *out);

/* ---- The outcome of a conversation, from its events ----
 *
 * The events of a conversation are what both sides sent, in order of arrival, in an array of the
 * caller's. Handshakes of TLS 1.0 to 1.3 and of DTLS 1.0 to 1.2 have some twenty. An outcome other
 * than WISPUDDERA_WAITING is final: later events don't change it. */

/* Kinds of events. The three calls below return those of handshake messages and alerts. */
enum {
    WISPUDDERA_EVENT_HELLO_REQUEST = 0,
    WISPUDDERA_EVENT_CLIENT_HELLO = 1,
    WISPUDDERA_EVENT_HELLO_VERIFY_REQUEST = 2,
    WISPUDDERA_EVENT_SERVER_HELLO = 3,         /* below TLS 1.3 */
    WISPUDDERA_EVENT_HELLO_RETRY_REQUEST = 4,  /* a ServerHello with a fixed random (RFC 8446,
                                                * section 4.1.3) */
    WISPUDDERA_EVENT_SERVER_HELLO_13 = 5,      /* of TLS 1.3 or a draft of it, by its
                                                * supported_versions */
    WISPUDDERA_EVENT_NEW_SESSION_TICKET = 6,
    WISPUDDERA_EVENT_CERTIFICATE = 7,
    WISPUDDERA_EVENT_SERVER_KEY_EXCHANGE = 8,
    WISPUDDERA_EVENT_CERTIFICATE_REQUEST = 9,
    WISPUDDERA_EVENT_SERVER_DONE = 10,
    WISPUDDERA_EVENT_CERTIFICATE_VERIFY = 11,
    WISPUDDERA_EVENT_CLIENT_KEY_EXCHANGE = 12,
    WISPUDDERA_EVENT_CERTIFICATE_STATUS = 13,
    WISPUDDERA_EVENT_CHANGE_CIPHER_SPEC = 14,  /* a record of type 20 */
    WISPUDDERA_EVENT_ENCRYPTED = 15,           /* a record after its sender's ChangeCipherSpec, or
                                                * of type 23 */
    WISPUDDERA_EVENT_WARNING = 16,
    WISPUDDERA_EVENT_NO_CERTIFICATE = 17,
    WISPUDDERA_EVENT_FATAL = 18,
    WISPUDDERA_EVENT_HEARTBEAT = 19,           /* a record of type 24 */
    WISPUDDERA_EVENT_OTHER = 20,
    WISPUDDERA_EVENT_UNKNOWN = 21              /* an unknown or refused message, or a refused
                                                * record; higher numbers count as this */
};

/* The text of a kind of event. */
static inline const char *wispuddera_event_text(uint8_t kind) {
    static const char *const texts[] = {"HelloRequest",
                                        "ClientHello",
                                        "HelloVerifyRequest",
                                        "ServerHello",
                                        "HelloRetryRequest",
                                        "ServerHello of TLS 1.3",
                                        "NewSessionTicket",
                                        "Certificate",
                                        "ServerKeyExchange",
                                        "CertificateRequest",
                                        "ServerHelloDone",
                                        "CertificateVerify",
                                        "ClientKeyExchange",
                                        "CertificateStatus",
                                        "ChangeCipherSpec",
                                        "encrypted record",
                                        "warning",
                                        "alert no_certificate",
                                        "fatal alert or close_notify",
                                        "heartbeat",
                                        "other message",
                                        "unknown or refused"};
    const size_t last = sizeof texts / sizeof *texts - 1;
    return texts[kind < last ? kind : last];
}

/* An event of a side. */
typedef struct {
    uint8_t kind;   /* one of WISPUDDERA_EVENT_ */
    bool to_server; /* the client sent it */
} wispuddera_event;

/* Returns the event kind of a whole TLS handshake message in the clear with this HandshakeType and
 * body (RFC 5246, section 7.4; RFC 8446, section 4). A ServerHello's kind depends on its body;
 * other bodies aren't parsed. WISPUDDERA_EVENT_UNKNOWN for an unknown type, and for a ServerHello
 * that is refused. Nothing is refused by this call. */
uint8_t wispuddera_event_of_message(const uint8_t *body, size_t count, uint8_t kind);

/* Returns the event kind of a handshake message of DTLS up to 1.2 with this HandshakeType (RFC
 * 6347, section 4.3.2). All fragments of a message are one event. WISPUDDERA_EVENT_UNKNOWN for an
 * unknown type; nothing is refused. */
uint8_t wispuddera_event_of_dtls_message(uint8_t kind);

/* Returns the event kind of an alert in the clear (RFC 5246, section 7.2). An alert is fatal unless
 * its level is 1. close_notify counts as fatal too: its sender sends nothing after it. Nothing is
 * refused. */
uint8_t wispuddera_event_of_alert(uint8_t level, uint8_t description);

/* Outcomes of a conversation. */
enum {
    WISPUDDERA_WAITING = 0,             /* a handshake is under way, or nothing was sent */
    WISPUDDERA_FULL = 1,                /* a full handshake completed */
    WISPUDDERA_RESUMED = 2,             /* a session was resumed */
    WISPUDDERA_BROKEN_OFF = 3,          /* a fatal alert broke off the handshake */
    WISPUDDERA_UNKNOWN = 4,             /* an unknown message came during the handshake */
    WISPUDDERA_NO_HANDSHAKE = 5,        /* the events are no handshake, and can't become one */
    WISPUDDERA_TLS13 = 6,               /* TLS 1.3 was negotiated, up to the ServerHello */
    WISPUDDERA_TLS13_RETRIED = 7,       /* TLS 1.3, after a HelloRetryRequest */
    WISPUDDERA_TLS13_EARLY = 8,         /* TLS 1.3, and the client sent early data */
    WISPUDDERA_TLS13_RETRIED_EARLY = 9  /* TLS 1.3, after a HelloRetryRequest, with early data */
};

/* The text of an outcome. */
static inline const char *wispuddera_outcome_text(uint32_t outcome) {
    static const char *const texts[] = {"a handshake is under way",
                                        "full handshake",
                                        "session resumed",
                                        "broken off by an alert",
                                        "unknown message",
                                        "no handshake",
                                        "TLS 1.3, up to the ServerHello",
                                        "TLS 1.3, after a retry",
                                        "TLS 1.3, with early data",
                                        "TLS 1.3, after a retry, with early data"};
    return outcome < sizeof texts / sizeof *texts ? texts[outcome] : "no outcome";
}

/* Returns the outcome of a conversation with these events (RFC 5246, section 7.3; RFC 8446, section
 * 2; RFC 6347, section 4.2). Nothing is refused. */
uint32_t wispuddera_outcome(const wispuddera_event *events, size_t count);

/* The state of a conversation that is followed event by event: a number, which may be copied and
 * stored. wispuddera_flow_start and wispuddera_flow_step set it. Any other number counts as
 * WISPUDDERA_NO_HANDSHAKE, and doesn't change. None of the three calls refuses anything. */
typedef struct {
    uint32_t state;
} wispuddera_flow;

/* Begins a conversation without events. */
void wispuddera_flow_start(wispuddera_flow *flow);

/* Follows one more event. */
void wispuddera_flow_step(wispuddera_flow *flow, const wispuddera_event *event);

/* Returns the outcome of the events so far, as wispuddera_outcome does. */
uint32_t wispuddera_flow_outcome(const wispuddera_flow *flow);

/* ---- Both sides of a TLS conversation, from their bytes ----
 *
 * A conversation takes the pieces of both sides' TLS streams in order of arrival. It returns the
 * events one by one: handshake messages, joined from their records, and the other records. It
 * recognizes encrypted records by itself. Each side has a buffer of the caller's with the bytes
 * that aren't returned yet; pass it with each call for that side. The conversation contains no
 * pointer. Of these structs a caller reads only wispuddera_event_content and wispuddera_stop.
 *
 * A side holds at most a message, with its header of 4 bytes and a body of up to `limit` bytes, and
 * a record of up to 18437 bytes. With a buffer of 4 + limit + 18437 bytes plus the longest piece,
 * wispuddera_conversation_feed has room whenever wispuddera_conversation_next has returned all
 * earlier events. */

/* The forms of a side's events. */
enum {
    WISPUDDERA_CONTENT_MESSAGE = 0,            /* a handshake message in the clear */
    WISPUDDERA_CONTENT_CHANGE_CIPHER_SPEC = 1,
    WISPUDDERA_CONTENT_ALERT = 2,              /* an alert in the clear */
    WISPUDDERA_CONTENT_HEARTBEAT = 3,
    WISPUDDERA_CONTENT_APPLICATION_DATA = 4,   /* application data that isn't encrypted */
    WISPUDDERA_CONTENT_ENCRYPTED = 5,          /* an encrypted record of any type */
    WISPUDDERA_CONTENT_FAULT = 6               /* a fault: nothing after it is read */
};

/* The next event of a side. */
typedef struct {
    wispuddera_place content; /* in the side's buffer, valid until the next call with it: a message
                               * with its header of 4 bytes; an alert's level and description; else
                               * a record with its header of 5 bytes. Empty for a fault */
    uint32_t fault; /* 0, or the fault as a status. For a refused record: WISPUDDERA_SWITCH if its
                     * type isn't one of TLS, WISPUDDERA_TOO_LARGE, WISPUDDERA_VERIFY if it is a
                     * ChangeCipherSpec other than the one byte 1. For a message:
                     * WISPUDDERA_ABOVE_LIMIT or WISPUDDERA_INTERRUPTED */
    uint8_t form; /* one of WISPUDDERA_CONTENT_ */
    uint8_t kind; /* one of WISPUDDERA_EVENT_; WISPUDDERA_EVENT_UNKNOWN for a fault */
} wispuddera_event_content;

/* The event that ended a handshake without success. */
typedef struct {
    uint64_t events_before; /* how many events of both sides came before it */
    wispuddera_event event;
    bool is_alert; /* it is an alert in the clear */
    uint8_t alert; /* the description of that alert (RFC 5246, section 7.2); else 0 */
} wispuddera_stop;

/* The state of a side's buffer: offsets in it. */
typedef struct {
    size_t part;
    size_t part_end;
    size_t unread;
    size_t end;
    uint8_t kind;
    bool has_changed;
    bool is_over;
} wispuddera_side;

/* The flow of a handshake, and what stopped it. */
typedef struct {
    uint64_t events;
    wispuddera_stop stop;
    wispuddera_flow flow;
} wispuddera_course;

/* Both sides of a conversation. */
typedef struct {
    wispuddera_side client;
    wispuddera_side server;
    size_t limit;
    wispuddera_course course;
    bool is_tls13;
    bool has_session;
} wispuddera_conversation;

/* A limit that suits most callers: peers send no longer messages. The only limit of RFC 8446,
 * section 4, is the 3 bytes of the length. */
enum { WISPUDDERA_CONVERSATION_LIMIT = 131072 };

/* Begins an empty conversation, where the body of a handshake message may have at most `limit`
 * bytes. Nothing is refused. */
void wispuddera_conversation_start(wispuddera_conversation *conversation, size_t limit);

/* Appends a piece of a side's stream to its buffer, whose bytes may be moved. After a fault of that
 * side the piece is dropped, with WISPUDDERA_READ too. Any other status changes nothing.
 *
 * - WISPUDDERA_NO_ROOM if the piece doesn't fit. Feed it in shorter pieces, or copy the buffer to a
 *   longer one.
 * - WISPUDDERA_OUTSIDE if the side's bytes don't lie within such a buffer: it is another side's, or
 *   shorter. */
uint32_t wispuddera_conversation_feed(uint8_t *buffer, size_t capacity, wispuddera_conversation *conversation, bool to_server, const uint8_t *piece,
                                      size_t count);

/* Returns a side's next event in `out`, removes it from the buffer, and follows it. It moves bytes
 * in the buffer to join a message. Call it until WISPUDDERA_NONE after each piece, so that both
 * sides' events are followed in their order.
 *
 * - WISPUDDERA_NONE if more bytes are needed, or a fault ended the side. `out` doesn't change.
 * - WISPUDDERA_OUTSIDE as for wispuddera_conversation_feed. */
uint32_t wispuddera_conversation_next(uint8_t *buffer, size_t capacity, wispuddera_conversation *conversation, bool to_server,
                                      wispuddera_event_content *out);

/* Returns the outcome of the events that wispuddera_conversation_next returned, as
 * wispuddera_outcome does. */
uint32_t wispuddera_conversation_outcome(const wispuddera_conversation *conversation);

/* Returns what ended the handshake in `out`, if the outcome is WISPUDDERA_BROKEN_OFF,
 * WISPUDDERA_UNKNOWN or WISPUDDERA_NO_HANDSHAKE; else WISPUDDERA_NONE, and `out` doesn't change. */
uint32_t wispuddera_conversation_stop(const wispuddera_conversation *conversation, wispuddera_stop *out);

/* Returns true if the visible part of the handshake is complete. In TLS 1.3 it ends with the
 * ServerHello. */
bool wispuddera_conversation_established(const wispuddera_conversation *conversation);

/* Returns true if a session was resumed; in TLS 1.3, by the ServerHello's pre_shared_key (RFC 8446,
 * section 4.2.11). */
bool wispuddera_conversation_resumed(const wispuddera_conversation *conversation);

/* ---- X.509 certificates (RFC 5280), in DER ----
 *
 * Nothing is verified: no signature, no host name, no validity period. The calls refuse:
 *
 * - WISPUDDERA_INCOMPLETE: the element at the front is incomplete.
 * - WISPUDDERA_TAG: an element has another tag than the one required.
 * - WISPUDDERA_COMPLETE: an element doesn't fit in the one around it, or is missing there.
 * - WISPUDDERA_LENGTH_VALUE: bytes follow the last field of a structure, or an INTEGER or an object
 *   identifier is empty.
 * - WISPUDDERA_VERIFY: a value breaks its rule, such as a length that isn't the shortest.
 * - WISPUDDERA_SWITCH: a length is indefinite, or a tag has more than one byte.
 * - WISPUDDERA_TOO_LARGE: a length has more than 3 bytes after its first. */

/* Kinds of keys. */
enum {
    WISPUDDERA_KEY_REFUSED = 0, /* an RSAPublicKey that is refused, or a curve without a name */
    WISPUDDERA_KEY_RSA = 1,     /* for any padding, or for PSS only (RFC 3279, section 2.3.1; RFC
                                 * 4055, section 1.2) */
    WISPUDDERA_KEY_EC = 2,      /* on a named curve (RFC 5480, section 2.1.1) */
    WISPUDDERA_KEY_ED25519 = 3, /* RFC 8410, section 3 */
    WISPUDDERA_KEY_ED448 = 4,
    WISPUDDERA_KEY_OTHER = 5
};

/* Parses the certificate at the beginning of `bytes` (RFC 5280, section 4.1). Names and extensions
 * aren't parsed yet: the calls below refuse a malformed one. */
uint32_t wispuddera_read_x509(const uint8_t *bytes, size_t count, wispuddera_x509 *out);

/* Parses the extension at `offset` of a certificate's extensions (RFC 5280, section 4.2).
 * WISPUDDERA_OUTSIDE if `offset` is above `count`. */
uint32_t wispuddera_read_x509_extension(const uint8_t *bytes, size_t count, size_t offset, wispuddera_x509_extension *out);

/* Finds the list of names in the value of a subjectAltName, 2.5.29.17, or an issuerAltName,
 * 2.5.29.18 (RFC 5280, section 4.2.1.6), without the list's tag and length. Parse them with
 * wispuddera_read_x509_name. */
uint32_t wispuddera_find_x509_names(const uint8_t *bytes, size_t count, wispuddera_found *out);

/* Kinds of names: the tag of their element. The content of a constructed one, from 0xa0 on, is one
 * or more elements. */
enum {
    WISPUDDERA_NAME_EMAIL = 0x81,         /* an rfc822Name */
    WISPUDDERA_NAME_DNS = 0x82,           /* a dNSName */
    WISPUDDERA_NAME_URI = 0x86,           /* a uniformResourceIdentifier */
    WISPUDDERA_NAME_IP = 0x87,            /* an iPAddress: 4 or 16 bytes, which isn't checked */
    WISPUDDERA_NAME_REGISTERED_ID = 0x88, /* a registeredID */
    WISPUDDERA_NAME_OTHER = 0xa0,         /* an otherName */
    WISPUDDERA_NAME_DIRECTORY = 0xa4      /* a directoryName */
};

/* Parses the name at `offset` of a list of names. `kind` is the tag of its element.
 * WISPUDDERA_OUTSIDE if `offset` is above `count`. */
uint32_t wispuddera_read_x509_name(const uint8_t *bytes, size_t count, size_t offset, wispuddera_part *out);

/* ---- Checking this header against the library ---- */

/* Returns the size of a struct in the library, in bytes, by its index in this list: place, record,
 * part, client_hello, server_hello, found, number, dtls_record, dtls_message, dtls_client_hello,
 * event, flow, x509, x509_extension, event_content, stop, side, course, conversation. 0 past its
 * end. */
size_t wispuddera_struct_size(size_t index);

/* Returns the offset of a field in that struct, by the field's index in this header's order; past
 * the last field, the size of the struct. */
size_t wispuddera_field_offset(size_t index, size_t field);

#ifdef __cplusplus
}
#endif

#endif
