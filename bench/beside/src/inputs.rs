//! The bytes that are measured, built field by field from the layouts of the RFCs.

/// A length prefix of `size` bytes and the bytes.
pub fn counted(size: usize, bytes: &[u8]) -> Vec<u8> {
    let mut out = (bytes.len() as u64).to_be_bytes()[8 - size..].to_vec();
    out.extend_from_slice(bytes);
    out
}

fn numbers(list: &[u16]) -> Vec<u8> {
    list.iter().flat_map(|n| n.to_be_bytes()).collect()
}

/// Pseudorandom bytes, the same in each run.
fn filler(len: usize) -> Vec<u8> {
    (0..len).map(|i| (i.wrapping_mul(167).wrapping_add(i / 7) % 251) as u8).collect()
}

/// A record of TLS (RFC 5246, section 6.2.1).
pub fn record(kind: u8, fragment: &[u8]) -> Vec<u8> {
    [&[kind, 3, 3][..], &counted(2, fragment)].concat()
}

/// A handshake message (RFC 5246, section 7.4).
pub fn handshake(kind: u8, body: &[u8]) -> Vec<u8> {
    [&[kind][..], &counted(3, body)].concat()
}

/// An extension (RFC 8446, section 4.2).
fn extension(kind: u16, content: &[u8]) -> Vec<u8> {
    [&kind.to_be_bytes()[..], &counted(2, content)].concat()
}

fn server_name(name: &[u8]) -> Vec<u8> {
    extension(0, &counted(2, &[&[0][..], &counted(2, name)].concat()))
}

fn groups(list: &[u16]) -> Vec<u8> {
    extension(10, &counted(2, &numbers(list)))
}

fn algorithms() -> Vec<u8> {
    let list = [0x0403, 0x0804, 0x0401, 0x0503, 0x0805, 0x0501, 0x0806, 0x0601, 0x0201];
    extension(13, &counted(2, &numbers(&list)))
}

fn protocols() -> Vec<u8> {
    extension(16, &counted(2, &[counted(1, b"h2"), counted(1, b"http/1.1")].concat()))
}

/// The extensions of a ClientHello of TLS 1.2.
pub fn extensions_tls12() -> Vec<u8> {
    [
        server_name(b"www.example.org"),
        extension(23, &[]),
        extension(0xff01, &[0]),
        groups(&[29, 23, 24]),
        extension(11, &[1, 0]),
        extension(35, &[]),
        protocols(),
        extension(5, &[1, 0, 0, 0, 0]),
        algorithms(),
        extension(18, &[]),
    ]
    .concat()
}

/// The extensions of a browser's TLS 1.3 ClientHello, with key shares of these sizes.
pub fn extensions_tls13(shares: &[(u16, usize)], padding: usize) -> Vec<u8> {
    let list: Vec<u8> = shares
        .iter()
        .flat_map(|(group, size)| [&group.to_be_bytes()[..], &counted(2, &filler(*size))].concat())
        .collect();
    let mut all = [
        extension(0x3a3a, &[]),
        server_name(b"www.example.org"),
        extension(23, &[]),
        extension(0xff01, &[0]),
        groups(&[0x4a4a, 0x11ec, 29, 23, 24]),
        extension(11, &[1, 0]),
        extension(35, &[]),
        protocols(),
        extension(5, &[1, 0, 0, 0, 0]),
        algorithms(),
        extension(18, &[]),
        extension(51, &counted(2, &list)),
        extension(45, &[1, 1]),
        extension(43, &counted(1, &numbers(&[0x5a5a, 0x0304, 0x0303]))),
        extension(0xdada, &[0]),
    ]
    .concat();
    if padding > 0 {
        all.extend(extension(21, &vec![0; padding]));
    }
    all
}

/// The extensions of a ServerHello of TLS 1.3.
pub fn extensions_server() -> Vec<u8> {
    let share = [&29u16.to_be_bytes()[..], &counted(2, &filler(32))].concat();
    [extension(51, &share), extension(43, &[3, 4])].concat()
}

/// Twenty extensions with at most one byte of data.
pub fn extensions_short() -> Vec<u8> {
    let kinds = [22, 23, 35, 49, 22, 23, 35, 49, 22, 23, 35, 49, 22, 23, 35, 49, 22, 23, 35, 49];
    kinds.iter().flat_map(|kind| extension(*kind, &[])).collect()
}

/// Extensions that both writers know.
pub fn extensions_written() -> Vec<u8> {
    [server_name(b"www.example.org"), extension(1, &[4]), groups(&[29, 23, 24, 25, 256])].concat()
}

fn client_body(id: usize, suites: &[u16], extensions: Option<&[u8]>) -> Vec<u8> {
    let mut body = [&[3, 3][..], &filler(32)].concat();
    body.extend(counted(1, &filler(id)));
    body.extend(counted(2, &numbers(suites)));
    body.extend(counted(1, &[0]));
    if let Some(extensions) = extensions {
        body.extend(counted(2, extensions));
    }
    body
}

const SUITES: [u16; 16] = [
    0x2a2a, 0x1301, 0x1302, 0x1303, 0xc02b, 0xc02f, 0xc02c, 0xc030, 0xcca9, 0xcca8, 0xc013, 0xc014,
    0x009c, 0x009d, 0x002f, 0x0035,
];

/// A ClientHello of 54 bytes, with its record's header.
pub fn hello_least() -> Vec<u8> {
    record(22, &handshake(1, &client_body(0, &SUITES[..2], Some(&[]))))
}

pub fn hello_tls12() -> Vec<u8> {
    record(22, &handshake(1, &client_body(0, &SUITES[4..], Some(&extensions_tls12()))))
}

/// A ClientHello of TLS 1.3 that is padded to 517 bytes, as browsers did.
pub fn hello_517() -> Vec<u8> {
    let build = |padding| {
        let extensions = extensions_tls13(&[(0x4a4a, 1), (29, 32)], padding);
        record(22, &handshake(1, &client_body(32, &SUITES, Some(&extensions))))
    };
    let one = build(1).len();
    build(1 + 517 - one)
}

/// A ClientHello with a key share of X25519MLKEM768, of 1216 bytes, beside one of X25519.
pub fn hello_post_quantum() -> Vec<u8> {
    let extensions = extensions_tls13(&[(0x4a4a, 1), (0x11ec, 1216), (29, 32)], 0);
    record(22, &handshake(1, &client_body(32, &SUITES, Some(&extensions))))
}

/// The ClientHello of post-quantum key shares, padded to 1,800 bytes.
pub fn hello_1800() -> Vec<u8> {
    let build = |padding| {
        let extensions = extensions_tls13(&[(0x4a4a, 1), (0x11ec, 1216), (29, 32)], padding);
        record(22, &handshake(1, &client_body(32, &SUITES, Some(&extensions))))
    };
    let one = build(1).len();
    build(1 + 1800 - one)
}

fn server_hello(extensions: &[u8]) -> Vec<u8> {
    let mut body = [&[3, 3][..], &filler(32)].concat();
    body.extend(counted(1, &filler(32)));
    body.extend([0xc0, 0x2f, 0]);
    body.extend(counted(2, extensions));
    handshake(2, &body)
}

pub fn server_hello_record() -> Vec<u8> {
    record(22, &server_hello(&extensions_server()))
}

/// A ServerHello of TLS 1.2 with these extensions.
fn server_hello_tls12() -> Vec<u8> {
    server_hello(&[extension(0xff01, &[0]), extension(11, &[1, 0]), extension(35, &[])].concat())
}

fn certificate(sizes: &[usize]) -> Vec<u8> {
    let list: Vec<u8> = sizes.iter().flat_map(|size| counted(3, &filler(*size))).collect();
    handshake(11, &counted(3, &list))
}

pub fn certificate_record(sizes: &[usize]) -> Vec<u8> {
    record(22, &certificate(sizes))
}

fn certificate_request() -> Vec<u8> {
    let names: Vec<u8> = (0..10).flat_map(|i| counted(2, &filler(60 + 7 * i))).collect();
    let algorithms = numbers(&[0x0403, 0x0804, 0x0401, 0x0503, 0x0805, 0x0501, 0x0806, 0x0601]);
    handshake(13, &[counted(1, &[1, 2, 64]), counted(2, &algorithms), counted(2, &names)].concat())
}

pub fn certificate_request_record() -> Vec<u8> {
    record(22, &certificate_request())
}

/// Ephemeral elliptic-curve parameters on secp256r1 (RFC 8422, section 5.4).
pub fn ecdh() -> Vec<u8> {
    [&[3, 0, 23][..], &counted(1, &filler(65))].concat()
}

/// Finite-field parameters of 2048 bits (RFC 5246, section 7.4.3).
pub fn dh() -> Vec<u8> {
    [counted(2, &filler(256)), counted(2, &[2]), counted(2, &filler(256))].concat()
}

/// A signature with its algorithm (RFC 5246, section 4.7).
pub fn signed() -> Vec<u8> {
    [&[4, 3][..], &counted(2, &filler(71))].concat()
}

fn server_key_exchange() -> Vec<u8> {
    handshake(12, &[ecdh(), signed()].concat())
}

/// A server's flight in one record.
pub fn flight() -> Vec<u8> {
    let messages = [
        server_hello(&extensions_server()),
        certificate(&[1100, 1300]),
        server_key_exchange(),
        handshake(14, &[]),
    ];
    record(22, &messages.concat())
}

/// Three timestamps (RFC 6962, section 3.3).
pub fn timestamps() -> Vec<u8> {
    let one = [&[0][..], &filler(32), &[0, 0, 1, 0x8d, 1, 2, 3, 4], &counted(2, &[]), &signed()]
        .concat();
    counted(2, &counted(2, &one).repeat(3))
}

/// Ten records of several kinds.
pub fn ten_records() -> Vec<u8> {
    [
        hello_517(),
        server_hello_record(),
        certificate_record(&[1100, 1300]),
        record(22, &server_key_exchange()),
        record(22, &handshake(14, &[])),
        record(22, &handshake(16, &counted(1, &filler(65)))),
        record(20, &[1]),
        record(22, &handshake(20, &filler(12))),
        record(22, &handshake(4, &[&[0, 0, 1, 0][..], &counted(2, &filler(160))].concat())),
        record(21, &[1, 0]),
    ]
    .concat()
}

fn dtls_record(kind: u8, fragment: &[u8]) -> Vec<u8> {
    [&[kind, 0xfe, 0xfd, 0, 0, 0, 0, 0, 0, 0, 7][..], &counted(2, fragment)].concat()
}

/// The fragment at `offset` of a DTLS handshake message (RFC 6347, section 4.2.2).
fn dtls_handshake(kind: u8, length: usize, offset: usize, fragment: &[u8]) -> Vec<u8> {
    let mut out = vec![kind];
    out.extend(&(length as u32).to_be_bytes()[1..]);
    out.extend([0, 0]);
    out.extend(&(offset as u32).to_be_bytes()[1..]);
    out.extend(counted(3, fragment));
    out
}

pub fn dtls_hello_message() -> Vec<u8> {
    let mut body = [&[0xfe, 0xfd][..], &filler(32)].concat();
    body.extend(counted(1, &[]));
    body.extend(counted(1, &filler(20)));
    body.extend(counted(2, &numbers(&SUITES[4..])));
    body.extend(counted(1, &[0]));
    body.extend(counted(2, &extensions_tls12()));
    dtls_handshake(1, body.len(), 0, &body)
}

pub fn dtls_hello() -> Vec<u8> {
    dtls_record(22, &dtls_hello_message())
}

pub fn dtls_verify() -> Vec<u8> {
    let body = [&[0xfe, 0xfd][..], &counted(1, &filler(20))].concat();
    dtls_record(22, &dtls_handshake(3, body.len(), 0, &body))
}

pub fn dtls_fragment() -> Vec<u8> {
    dtls_record(22, &dtls_handshake(11, 3000, 1000, &filler(1200)))
}

pub fn dtls_server_hello() -> Vec<u8> {
    let body = &server_hello(&extensions_server())[4..];
    dtls_record(22, &dtls_handshake(2, body.len(), 0, body))
}

pub fn dtls_alert() -> Vec<u8> {
    dtls_record(21, &[2, 40])
}

pub fn dtls_change() -> Vec<u8> {
    dtls_record(20, &[1])
}

pub fn dtls_records() -> Vec<u8> {
    [dtls_server_hello(), dtls_fragment(), dtls_verify(), dtls_change(), dtls_alert()].concat()
}

/// A whole handshake with one record per message, and which of them go to the server: eight
/// messages, or eleven with a client certificate.
pub fn conversation(with_client_certificate: bool) -> (Vec<u8>, Vec<u8>) {
    let mut messages = vec![
        (hello_tls12(), 1),
        (record(22, &server_hello_tls12()), 0),
        (certificate_record(&[1100, 1300]), 0),
        (record(22, &server_key_exchange()), 0),
    ];
    if with_client_certificate {
        messages.push((certificate_request_record(), 0));
    }
    messages.push((record(22, &handshake(14, &[])), 0));
    if with_client_certificate {
        messages.push((certificate_record(&[900]), 1));
    }
    messages.push((record(22, &handshake(16, &counted(1, &filler(65)))), 1));
    if with_client_certificate {
        messages.push((record(22, &handshake(15, &signed())), 1));
    }
    messages.push((record(20, &[1]), 1));
    messages.push((record(20, &[1]), 0));
    let sides = messages.iter().map(|(_, side)| *side).collect();
    (messages.into_iter().flat_map(|(bytes, _)| bytes).collect(), sides)
}

/// A stream of at least `total` bytes: records of application data with `payload` bytes each.
/// joined and cut into records of at most `payload` bytes.
pub fn messages(total: usize, message: usize, payload: usize) -> Vec<u8> {
    let joined = handshake(11, &filler(message - 4)).repeat(total.div_ceil(message));
    joined.chunks(payload).flat_map(|part| record(22, part)).collect()
}

/// The bytes of a datagram with one fragment of 1,200 bytes.
pub const DATAGRAM: usize = 13 + 12 + 1200;

/// Datagrams with the fragments of one message, whose body has this many bytes. All but the last
/// have `DATAGRAM` bytes.
pub fn datagrams(length: usize, is_reversed: bool) -> Vec<u8> {
    let body = filler(length);
    let one = |place: (usize, usize)| {
        let (begin, end) = place;
        dtls_record(22, &dtls_handshake(11, length, begin, &body[begin..end]))
    };
    let count = length.div_ceil(1200);
    if is_reversed {
        let from_end = |k: usize| (length.saturating_sub(1200 * (k + 1)), length - 1200 * k);
        (0..count).map(from_end).flat_map(one).collect()
    } else {
        let from_front = |k: usize| (1200 * k, length.min(1200 * (k + 1)));
        (0..count).map(from_front).flat_map(one).collect()
    }
}

/// A stream of at least `total` bytes: records of application data with `payload` bytes each.
pub fn stream(total: usize, payload: usize) -> Vec<u8> {
    let one = record(23, &filler(payload));
    let count = total.div_ceil(one.len());
    one.repeat(count)
}
