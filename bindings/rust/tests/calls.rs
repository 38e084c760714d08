//! Tests each call on the bytes of `tests/bindings/calls.c`: structs of RFC 8446 and RFC 6347,
//! written by hand.
use wispuddera::*;

const NAME: &[u8] = b"\x00\x00\x00\x08\x00\x06\x00\x00\x03a.b";
const PROTOCOLS: &[u8] = b"\x00\x10\x00\x05\x00\x03\x02h2";
const VERSIONS: &[u8] = b"\x00\x2b\x00\x05\x04\x03\x04\x03\x03";
const SHARES: &[u8] = b"\x00\x33\x00\x08\x00\x06\x00\x1d\x00\x02\xb1\xb2";

fn random() -> Vec<u8> {
    (1..=32).collect()
}

fn block() -> Vec<u8> {
    [NAME, PROTOCOLS, VERSIONS, SHARES].concat()
}

fn body() -> Vec<u8> {
    let lists = b"\x02\xa1\xa2\x00\x06\x13\x01\x13\x02\xc0\x2f\x01\x00\x00\x2a";
    [&b"\x03\x03"[..], &random(), lists, &block()].concat()
}

fn message() -> Vec<u8> {
    [&b"\x01\x00\x00\x5b"[..], &body()].concat()
}

fn record() -> Vec<u8> {
    [&b"\x16\x03\x01\x00\x5f"[..], &message()].concat()
}

fn incomplete<T>(missing: usize) -> Result<T, Error> {
    Err(Error::Incomplete { missing })
}

#[test]
fn records_are_read() {
    let bytes = [record(), record()].concat();
    let found: Vec<_> = records(&bytes).collect();
    let one = Record { content_type: 22, version: 0x0301, fragment: &message() };
    assert_eq!(found, [Ok(one), Ok(one)]);
    let mut cut = records(&bytes[..150]);
    assert_eq!((cut.next(), cut.next(), cut.next()), (Some(Ok(one)), Some(incomplete(50)), None));
    assert_eq!(cut.rest(), &bytes[100..150]);
    assert_eq!(Record::read(&[]), incomplete(1));
    assert_eq!(Record::read(b"\x16\x03\x01\x41\x01"), Err(Error::Refused(Kind::TooLarge)));
    assert_eq!(records(&[]).next(), None);
}

#[test]
fn hellos_are_read() {
    let (message, fragment) = (Message { kind: 1, body: &body() }, message());
    assert_eq!(messages(&fragment).collect::<Vec<_>>(), [Ok(message)]);
    let text = [body(), b"rest".to_vec()].concat();
    let (hello, rest) = ClientHello::read(&text).unwrap();
    assert_eq!((hello.version, hello.random, hello.session_id), (0x0303, &random()[..], &b"\xa1\xa2"[..]));
    assert_eq!((hello.cipher_suites.len(), hello.cipher_suites.get(1), hello.cipher_suites.get(3)), (3, Some(0x1302), None));
    assert_eq!(hello.cipher_suites.clone().collect::<Vec<_>>(), [0x1301, 0x1302, 0xc02f]);
    assert_eq!((hello.compression_methods, hello.extensions, rest), (&[0][..], Some(&block()[..]), &b"rest"[..]));
    assert_eq!(ClientHello::read(&text[..33]).map(|_| ()), incomplete(1));
    // Without its last byte the block of extensions is truncated, and counts as absent.
    let (hello, rest) = ClientHello::read(&text[..90]).unwrap();
    assert_eq!((hello.extensions, rest.len()), (None, 43));

    let mut text = [&b"\x03\x03"[..], &random(), b"\x01\xc1\x13\x02\x01\x00\x04\x00\x17\x00\x00"].concat();
    let (hello, rest) = ServerHello::read(&text).unwrap();
    assert_eq!((hello.version, hello.random, hello.session_id), (0x0303, &random()[..], &b"\xc1"[..]));
    assert_eq!((hello.cipher_suite, hello.compression_method), (0x1302, 1));
    assert_eq!((hello.extensions, rest), (Some(&b"\x00\x17\x00\x00"[..]), &b""[..]));
    text[34] = 33;
    assert_eq!(ServerHello::read(&text), Err(Error::Refused(Kind::Verify)));
    text[0] = 9;
    assert_eq!(ServerHello::read(&text), Err(Error::Refused(Kind::Tag)));
}

#[test]
fn what_is_asked_for_is_found() {
    let (record, message, body, block) = (record(), message(), body(), block());
    for name in [server_name_of_record(&record), server_name_of_hello(&body), server_name(&block)] {
        assert_eq!(name, Ok(Some(&b"a.b"[..])));
    }
    assert_eq!(server_name(PROTOCOLS), Ok(None));
    assert_eq!(server_name(&PROTOCOLS[..8]), incomplete(1));
    assert_eq!(find_extension(&block, 43), Ok(Some(&VERSIONS[4..])));
    assert_eq!(find_extension(&block, 44), Ok(None));
    assert_eq!(find_body(&message, 1), Ok(Some(&body[..])));
    assert_eq!(find_body(&message, 2), Ok(None));
    let kinds: Result<Vec<_>, _> = extensions(&block).map(|it| it.map(|it| it.kind)).collect();
    assert_eq!(kinds, Ok(vec![0, 16, 43, 51]));
    let names: Vec<_> = protocols(&block).unwrap().unwrap().collect();
    assert_eq!(names, [Ok(Protocol { name: b"h2" })]);
    assert!(protocols(NAME).unwrap().is_none());
    let shares: Vec<_> = key_shares(&SHARES[4..]).unwrap().collect();
    assert_eq!(shares, [Ok(KeyShare { group: 29, value: b"\xb1\xb2" })]);
    assert_eq!(KeyShare::read(b"\x00\x1d\x00\x01\x07"), Ok((KeyShare { group: 29, value: b"\x07" }, &b""[..])));
    let found: Vec<_> = certificates(b"\x00\x00\x05\x00\x00\x02\x30\x00").unwrap().collect();
    assert_eq!(found, [Ok(Certificate { der: b"\x30\x00" })]);
}

#[test]
fn numbers_are_read() {
    assert_eq!(versions(&VERSIONS[4..]).unwrap().collect::<Vec<_>>(), [0x0304, 0x0303]);
    assert_eq!(versions(&VERSIONS[4..8]).map(|_| ()), Err(Error::Refused(Kind::LengthValue)));
    let mut found = groups(b"\x00\x04\x00\x1d\x00\x17").unwrap();
    assert_eq!((found.len(), found.next(), found.len(), found.get(0), found.get(1)), (2, Some(29), 1, Some(23), None));
    assert_eq!(format!("{found:?}"), "[23]");
    assert_eq!(groups(b"\x00\x04\x00\x1d\x00").map(|_| ()), incomplete(1));
    assert_eq!(groups(b"\x00\x03\x00\x1d\x00").map(|_| ()), Err(Error::Refused(Kind::LengthValue)));
    let schemes = signature_schemes(b"\x00\x05\x04\x03\x08\x04\x08");
    assert_eq!(schemes.unwrap().collect::<Vec<_>>(), [0x0403, 0x0804]);
    assert_eq!((best_version(0x0303, &block()), best_version(0x0302, b"")), (Ok(Some(0x0304)), Ok(Some(0x0302))));
}

#[test]
fn detection() {
    // The minor version is ignored (RFC 8446, section 5.1).
    for first in [b"\x14\x03\x00\x00\x00", b"\x18\x03\x04\x41\x00", b"\x16\x03\x05\x00\x01"] {
        assert_eq!((looks_like_tls(first), looks_like_tls(&first[..4])), (Some(true), None));
    }
    for first in
        [&b"\x18\x03\x04\x41\x01"[..], b"\x13\x03\x03\x00\x01", b"\x19\x03\x03\x00\x01", b"\x16\x04\x00\x00\x01", b"GET / HTTP/1.0"]
    {
        assert_eq!(looks_like_tls(first), Some(false));
    }
    assert_eq!(looks_like_tls(b""), None);
}

#[test]
fn dtls_is_read() {
    let datagram = b"\x16\xfe\xfd\x00\x01\x00\x00\x00\x00\x12\x34\x00\x0e\x0b\x00\x00\x09\x00\x05\x00\x00\x03\x00\x00\x02\xd1\xd2";
    let wanted = DtlsRecord { content_type: 22, version: 0xfefd, epoch: 1, sequence_number: 0x1234, fragment: &datagram[13..] };
    assert_eq!(dtls_records(datagram).collect::<Vec<_>>(), [Ok(wanted)]);
    let wanted = DtlsMessage { kind: 11, length: 9, message_seq: 5, fragment_offset: 3, is_part: true, body: b"\xd1\xd2" };
    assert_eq!(dtls_messages(&datagram[13..]).collect::<Vec<_>>(), [Ok(wanted)]);
    assert_eq!(dtls_messages(&datagram[13..26]).next(), Some(incomplete(1)));
    let text = [&b"\xfe\xfd"[..], &random(), b"\x00\x02\xe1\xe2\x00\x04\xc0\x2f\x13\x01\x01\x00\x00\x00"].concat();
    let (hello, rest) = DtlsClientHello::read(&text).unwrap();
    assert_eq!((hello.version, hello.random, hello.session_id), (0xfefd, &random()[..], &b""[..]));
    assert_eq!((hello.cookie, hello.extensions, rest), (&b"\xe1\xe2"[..], Some(&b""[..]), &b""[..]));
    assert_eq!((hello.cipher_suites.collect::<Vec<_>>(), hello.compression_methods), (vec![0xc02f, 0x1301], &[0][..]));
    let text = [&b"\xfe\xfd"[..], &random(), b"\x02\xc1\xc2\xc0\x2f\x01\x00\x04\x00\x17\x00\x00"].concat();
    let (hello, rest) = ServerHello::read_dtls(&text).unwrap();
    assert_eq!((hello.version, hello.random, hello.session_id), (0xfefd, &random()[..], &b"\xc1\xc2"[..]));
    assert_eq!((hello.cipher_suite, hello.compression_method), (0xc02f, 1));
    assert_eq!((hello.extensions, rest), (Some(&b"\x00\x17\x00\x00"[..]), &b""[..]));
    assert_eq!(ServerHello::read(&text), Err(Error::Refused(Kind::Tag)));
    assert_eq!(ServerHello::read_dtls(&text[..38]), incomplete(1));
}

/// The certificate is that of `tests/bindings/calls.c`.
#[test]
fn certificates_are_read() {
    let head = b"\x30\x81\x8a\x30\x7c\xa0\x03\x02\x01\x02\x02\x02\x01\x05\x30\x05\x06\x03\x2b\x65\x70";
    let names = b"\x30\x0c\x31\x0a\x30\x08\x06\x03\x55\x04\x03\x0c\x01a\x30\x1e\x17\x0d700101000001Z\x17\x0d700102000000Z\
        \x30\x0c\x31\x0a\x30\x08\x06\x03\x55\x04\x03\x0c\x01b";
    let key = b"\x30\x17\x30\x10\x06\x07\x2a\x86\x48\xce\x3d\x02\x01\x06\x05\x2b\x81\x04\x00\x22\x03\x03\x00\x04\x05";
    let tail = b"\xa3\x15\x30\x13\x30\x11\x06\x03\x55\x1d\x11\x01\x01\xff\x04\x07\x30\x05\x82\x03a.b\
        \x30\x05\x06\x03\x2b\x65\x70\x03\x03\x00\xb1\xb2";
    let text = [&head[..], names, key, tail, b"rest"].concat();
    let (found, rest) = X509::read(&text).unwrap();
    let wanted = X509 {
        version: 2,
        signed_bytes: &text[3..129],
        serial_number: b"\x01\x05",
        signature_algorithm: b"\x2b\x65\x70",
        issuer: &names[..14],
        subject: &names[46..],
        not_before: 1,
        not_after: 86400,
        key_algorithm: b"\x2a\x86\x48\xce\x3d\x02\x01",
        key: PublicKey::Ec { curve: b"\x2b\x81\x04\x00\x22" },
        public_key: b"\x04\x05",
        extensions: &text[110..129],
        signature: b"\xb1\xb2",
    };
    assert_eq!((found, rest), (wanted, &b"rest"[..]));
    let extension = X509Extension { oid: SUBJECT_ALT_NAME, critical: true, value: &text[122..129] };
    assert_eq!(x509_extensions(found.extensions).collect::<Vec<_>>(), [Ok(extension)]);
    assert_eq!(found.names().unwrap().unwrap().collect::<Vec<_>>(), [Ok(X509Name::Dns(b"a.b"))]);
    assert_eq!(x509_names(&extension.value[..6]).map(|_| ()), incomplete(1));
    assert_eq!(X509Name::read(b"\xa4\x00"), Ok((X509Name::Other { tag: 0xa4, content: b"" }, &b""[..])));
    assert_eq!(X509 { extensions: b"", ..found }.names().map(|it| it.is_none()), Ok(true));
    assert_eq!(X509 { extensions: b"\x31\x00", ..found }.names().map(|_| ()), Err(Error::Refused(Kind::Tag)));
    for count in 0..141 {
        assert_eq!(X509::read(&text[..count]), incomplete(if count < 3 { 1 } else { 141 - count }));
    }
}

fn stored(name: &str) -> Vec<u8> {
    std::fs::read(format!("{}/../../tests/units/x509/stored/{name}.der", env!("CARGO_MANIFEST_DIR"))).unwrap()
}

#[test]
fn certificates_of_openssl_are_read() {
    let keys = [
        ("rsa_1023", PublicKey::Rsa { bits: 1023 }),
        ("rsa_2048", PublicKey::Rsa { bits: 2048 }),
        ("rsa_pss", PublicKey::Rsa { bits: 1024 }),
        ("ec_p256", PublicKey::Ec { curve: b"\x2a\x86\x48\xce\x3d\x03\x01\x07" }),
        ("ec_explicit", PublicKey::Refused),
        ("ed25519", PublicKey::Ed25519),
        ("ed448", PublicKey::Ed448),
        ("dsa", PublicKey::Other),
    ];
    for (name, key) in keys {
        assert_eq!(X509::read(&stored(name)).unwrap().0.key, key, "{name}");
    }
    let text = stored("rsa_1024");
    let names: Vec<_> = X509::read(&text).unwrap().0.names().unwrap().unwrap().map(Result::unwrap).collect();
    assert_eq!(names[..3], [X509Name::Dns(b"example.test"), X509Name::Dns(b"*.example.test"), X509Name::Ip(&[192, 0, 2, 1])]);
    assert_eq!(names[4..6], [X509Name::Email(b"someone@example.test"), X509Name::Uri(b"https://example.test/path")]);
    assert!(matches!((names[3], names[6]), (X509Name::Ip(ip), X509Name::Other { tag: 0xa0, .. }) if ip.len() == 16));
    let text = stored("version_1");
    let certificate = X509::read(&text).unwrap().0;
    assert_eq!((certificate.version, certificate.extensions), (0, &b""[..]));
}

#[test]
fn streams_come_in_pieces() {
    for size in [1, 7, 1000] {
        let (mut stream, mut joined) = (RecordStream::new([0; RECORD_ROOM]), MessageStream::new(vec![0; 200]));
        let mut found = 0;
        for piece in record().repeat(3).chunks(size) {
            assert_eq!(stream.feed(piece), piece.len());
            while let Some(record) = stream.next_record().unwrap() {
                assert_eq!(joined.feed(record.fragment), message().len());
                while let Some(message) = joined.next_message().unwrap() {
                    assert_eq!(message, Message { kind: 1, body: &body() });
                    found += 1;
                }
            }
        }
        assert_eq!((found, stream.held(), joined.held()), (3, 0, 0));
    }
}

#[test]
fn a_buffer_is_full() {
    let mut room = [0; 10];
    let mut joined = MessageStream::new(&mut room);
    assert_eq!(joined.feed(&message()), 10);
    assert_eq!((joined.feed(b"x"), joined.next_message()), (0, Ok(None)));
    assert_eq!(joined.held(), 10);
    let mut stream = RecordStream::new([0; 20]);
    assert_eq!(stream.feed(b"\x15\x03\x03\x00\x02\x01\x00\x16\x03\x01\x41\x01"), 12);
    assert_eq!(stream.next_record(), Ok(Some(Record { content_type: 21, version: 0x0303, fragment: &[1, 0] })));
    assert_eq!(stream.next_record(), Err(Error::Refused(Kind::TooLarge)));
    assert_eq!(stream.next_record(), Err(Error::Refused(Kind::TooLarge)));
}

#[test]
fn errors_have_texts() {
    assert_eq!(Error::Incomplete { missing: 2 }.to_string(), "more bytes are needed");
    assert_eq!(Error::Refused(Kind::Tag).to_string(), "a fixed tag differs");
    let _: &dyn std::error::Error = &Error::Refused(Kind::Tag);
}

/// The handshakes are those drawn in RFC 5246 (section 7.3) and RFC 8446 (section 2).
#[test]
fn outcomes_follow_events() {
    let hello = [&b"\x03\x03"[..], &random(), b"\x00\xc0\x2f\x00"].concat();
    let mut events = vec![Event::new(EventKind::of_message(1, &body()), true), Event::new(EventKind::of_message(2, &hello), false)];
    assert_eq!(events[1].kind, EventKind::ServerHello);
    for kind in [11, 12, 14, 16] {
        events.push(Event::new(EventKind::of_message(kind, b""), kind == 16));
    }
    for to_server in [true, false] {
        assert_eq!(outcome(&events), Outcome::Waiting);
        events.push(Event::new(EventKind::ChangeCipherSpec, to_server));
        events.push(Event::new(EventKind::Encrypted, to_server));
    }
    assert_eq!((outcome(&[]), outcome(&events)), (Outcome::Waiting, Outcome::Full));
    let mut flow = Flow::new();
    for (i, event) in events.iter().enumerate() {
        assert_eq!(flow.outcome(), outcome(&events[..i]));
        flow.step(*event);
    }
    assert_eq!(flow.outcome(), Outcome::Full);
    events[2].kind = EventKind::of_alert(2, 40);
    assert_eq!(outcome(&events), Outcome::BrokenOff);
    events[2].kind = EventKind::Unknown;
    assert_eq!(outcome(&events), Outcome::Unknown);
    events[2].kind = EventKind::ClientHello;
    assert_eq!(outcome(&events), Outcome::NoHandshake);
    let hello = [&hello[..], b"\x00\x06\x00\x2b\x00\x02\x03\x04"].concat();
    events[1].kind = EventKind::of_message(2, &hello);
    assert_eq!(outcome(&events[..2]), Outcome::Tls13 { retried: false, early_data: false });
    events.insert(1, Event::new(EventKind::Encrypted, true));
    assert_eq!(outcome(&events[..3]), Outcome::Tls13 { retried: false, early_data: true });
    assert_eq!(EventKind::of_dtls_message(3), EventKind::HelloVerifyRequest);
}

/// The TLS 1.3 ServerHello of `tests/bindings/calls.c` in two records, with pre_shared_key if
/// `takes_session`.
fn server_records(takes_session: bool) -> Vec<u8> {
    let key = if takes_session { &b"\x00\x29\x00\x02\x00\x00"[..] } else { b"" };
    let body = [&b"\x03\x03"[..], &random(), b"\x00\x13\x01\x00\x00", &[6 + key.len() as u8], b"\x00\x2b\x00\x02\x03\x04", key].concat();
    let message = [&b"\x02\x00\x00"[..], &[body.len() as u8], &body].concat();
    let (first, second) = message.split_at(8);
    [&b"\x16\x03\x03\x00\x08"[..], first, b"\x16\x03\x03\x00", &[second.len() as u8], second].concat()
}

#[test]
fn conversations_are_followed() {
    for (takes_session, size) in [(true, 1), (false, 7), (true, 1000)] {
        let mut conversation = Conversation::with_limit(93, vec![0; 300], vec![0; 300]);
        let (mut kinds, server) = (Vec::new(), [server_records(takes_session), b"\x17\x03\x03\x00\x02\xe1\xe2".to_vec()].concat());
        for (side, bytes) in [(Side::Client, record()), (Side::Server, server)] {
            for piece in bytes.chunks(size) {
                conversation.feed(side, piece).unwrap();
                while let Some(next) = conversation.next_event(side) {
                    match next.content {
                        EventContent::Message(message) if side == Side::Client => assert_eq!(message, Message { kind: 1, body: &body() }),
                        EventContent::Message(message) => assert_eq!((message.kind, &message.body[2..34]), (2, &random()[..])),
                        content => assert_eq!(content, EventContent::Encrypted(b"\x17\x03\x03\x00\x02\xe1\xe2")),
                    }
                    kinds.push(next.event);
                }
            }
        }
        let wanted = [(EventKind::ClientHello, true), (EventKind::ServerHello13, false), (EventKind::Encrypted, false)];
        assert_eq!(kinds, wanted.map(|(kind, to_server)| Event::new(kind, to_server)));
        assert_eq!(conversation.outcome(), outcome(&kinds));
        assert_eq!(conversation.outcome(), Outcome::Tls13 { retried: false, early_data: false });
        assert_eq!((conversation.is_established(), conversation.is_resumed(), conversation.stop()), (true, takes_session, None));
    }
}

#[test]
fn conversations_stop() {
    let tries = [
        (&b"GET /"[..], EventContent::Fault(Fault::UnknownType), Outcome::Unknown),
        (b"\x16\x03\x01\x41\x01", EventContent::Fault(Fault::RecordTooLarge), Outcome::Unknown),
        (b"\x14\x03\x01\x00\x01\x02", EventContent::Fault(Fault::WrongChange), Outcome::Unknown),
        (b"\x16\x03\x01\x00\x04\x01\x00\x00\x5e", EventContent::Fault(Fault::AboveLimit), Outcome::Unknown),
        (b"\x16\x03\x01\x00\x02\x01\x00\x15\x03\x01\x00\x02\x02\x28", EventContent::Fault(Fault::Interrupted), Outcome::Unknown),
        (b"\x15\x03\x01\x00\x02\x02\x28", EventContent::Alert { level: 2, description: 40 }, Outcome::BrokenOff),
        (b"\x14\x03\x01\x00\x01\x01", EventContent::ChangeCipherSpec, Outcome::Waiting),
        (b"\x18\x03\x01\x00\x01\x07", EventContent::Heartbeat(b"\x07"), Outcome::Waiting),
        (b"\x17\x03\x01\x00\x01\x07", EventContent::ApplicationData(b"\x07"), Outcome::NoHandshake),
    ];
    for (bytes, content, wanted) in tries {
        let (mut client, mut server) = ([0; 102], [0; 20]);
        let mut conversation = Conversation::with_limit(93, &mut client[..], &mut server[..]);
        conversation.feed(Side::Client, &record()).unwrap();
        assert_eq!(conversation.next_event(Side::Client).map(|it| it.event.kind), Some(EventKind::ClientHello));
        assert_eq!(conversation.feed(Side::Server, &record()), Err(NoRoom));
        conversation.feed(Side::Server, bytes).unwrap();
        let next = conversation.next_event(Side::Server).unwrap();
        let kind = next.event.kind;
        assert_eq!(next.content, content);
        assert_eq!(conversation.next_event(Side::Server), None);
        assert_eq!(conversation.outcome(), wanted);
        let alert = matches!(content, EventContent::Alert { .. }).then_some(40);
        let stop = Stop { events_before: 1, event: Event::new(kind, false), alert };
        assert_eq!(conversation.stop(), (wanted != Outcome::Waiting).then_some(stop));
        assert_eq!((conversation.is_established(), conversation.is_resumed()), (false, false));
        // After a fault, pieces are dropped.
        let is_over = matches!(content, EventContent::Fault(_));
        assert_eq!(conversation.feed(Side::Server, &record()), if is_over { Ok(()) } else { Err(NoRoom) });
    }
    assert_eq!((NoRoom.to_string(), Fault::Interrupted.to_string().is_empty()), ("the buffer is too short".to_owned(), false));
}

/// The digests are those of `tests/bindings/calls.c`, of texts that were written by hand.
#[test]
fn fingerprints_of_hellos() {
    let body = body();
    assert_eq!(&*ja3(&body).unwrap(), "5f671f8e05377b8c8876847f82d52406");
    assert_eq!(ja4(&body).unwrap().to_string(), "t13d0304h2_40b44b994229_a56c5b993250");
    assert_eq!(format!("{:?}", quic_ja4(&body).unwrap()), "\"q13d0304h2_40b44b994229_a56c5b993250\"");
    let server = [&b"\x03\x03"[..], &random(), b"\x00\xc0\x2f\x00\x00\x04\x00\x17\x00\x00"].concat();
    assert_eq!(&*ja3s(&server).unwrap(), "083a17d1eee567193ca26e03736db9e5");
    assert_eq!(dtls_ja3s(&server), ja3s(&server));
    let datagram = [&b"\xfe\xfd"[..], &random(), b"\x00\x02\xe1\xe2\x00\x04\xc0\x2f\x0a\x0a\x01\x00"].concat();
    assert_eq!(dtls_ja3(&datagram).unwrap().as_str(), "16392eee10fbf958359e66f7af4fb797");
    assert_eq!(dtls_ja4(&datagram).unwrap().as_str(), "dd2i010000_f06271c2b022_000000000000");
    assert_eq!((ja3(&body[..33]), ja4(&[]), dtls_ja4(&datagram[..35])), (incomplete(1), incomplete(2), incomplete(1)));
    assert_eq!((ja3s(&datagram), dtls_ja3(&datagram[..35])), (Err(Error::Refused(Kind::Tag)), incomplete(1)));
}
