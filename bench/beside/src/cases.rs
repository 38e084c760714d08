//! The cases: each has a call of ours and one of Rust's, repeated on the same bytes.

use crate::{inputs, ours, rust, view};
use std::hint::black_box;

/// Makes a call this many times. Returns the number of its answers.
type Calls = Box<dyn Fn(usize) -> u64>;

pub struct Case {
    pub group: &'static str,
    pub name: String,
    pub ours: Calls,
    pub rust: Calls,
}

type Repeated = extern "C" fn(*const u8, usize, usize) -> u64;
/// A call on a stream or on datagrams, with the size of the pieces or datagrams.
pub type InPieces = extern "C" fn(*const u8, usize, usize) -> u64;
type Sided = extern "C" fn(*const u8, usize, *const u8, usize, usize) -> u64;

fn repeated(call: Repeated, bytes: &'static [u8]) -> Calls {
    Box::new(move |times| black_box(call)(bytes.as_ptr(), bytes.len(), times))
}

fn sided(call: Sided, bytes: &'static [u8], sides: &'static [u8]) -> Calls {
    Box::new(move |times| {
        black_box(call)(bytes.as_ptr(), bytes.len(), sides.as_ptr(), sides.len(), times)
    })
}

/// A call on all bytes, repeated this many times per round.
fn in_pieces(call: InPieces, bytes: &'static [u8], piece: usize, each: usize) -> Calls {
    Box::new(move |times| {
        let call = black_box(call);
        (0..times * each).fold(0, |n: u64, _| n.wrapping_add(call(bytes.as_ptr(), bytes.len(), piece)))
    })
}

fn leak(bytes: Vec<u8>) -> &'static [u8] {
    Vec::leak(bytes)
}

/// Collects the cases.
struct Cases(Vec<Case>);

impl Cases {
    fn add(&mut self, group: &'static str, name: impl Into<String>, ours: Calls, rust: Calls) {
        self.0.push(Case { group, name: name.into(), ours, rust });
    }

    fn parse(&mut self, group: &'static str, what: &str, o: Repeated, r: Repeated, bytes: Vec<u8>) {
        let name = format!("{what}, {} bytes", bytes.len());
        let copies = leak(bytes.repeat(2));
        self.add(group, name, repeated(o, copies), repeated(r, copies));
    }

    fn plaintext(&mut self, what: &str, bytes: Vec<u8>) {
        self.parse("record", what, ours::ours_plaintext, rust::rust_plaintext, bytes);
    }

    fn extensions(&mut self, what: &str, bytes: Vec<u8>) {
        let sides: [(&str, Repeated, Repeated); 3] = [
            ("any side", ours::ours_extensions, rust::rust_extensions),
            ("client's", ours::ours_client_extensions, rust::rust_client_extensions),
            ("server's", ours::ours_server_extensions, rust::rust_server_extensions),
        ];
        for (side, o, r) in sides {
            self.parse("extensions", &format!("{what}, {side}"), o, r, bytes.clone());
        }
    }

    fn writes(&mut self, what: &str, o: [Repeated; 2], r: [Repeated; 2], bytes: Vec<u8>) {
        let bytes = leak(bytes);
        for (call, (o, r)) in ["serialize", "gen"].iter().zip(o.into_iter().zip(r)) {
            let name = format!("{what}, {} bytes, {call}", bytes.len());
            self.add("writer", name, repeated(o, bytes), repeated(r, bytes));
        }
    }
}

fn records(all: &mut Cases) {
    all.plaintext("ClientHello, least", inputs::hello_least());
    all.plaintext("ClientHello of TLS 1.2", inputs::hello_tls12());
    all.plaintext("ClientHello, padded", inputs::hello_517());
    all.plaintext("ClientHello, post-quantum", inputs::hello_post_quantum());
    all.plaintext("ClientHello, post-quantum, padded", inputs::hello_1800());
    all.plaintext("ServerHello", inputs::server_hello_record());
    all.plaintext("Certificate of one", inputs::certificate_record(&[1100]));
    all.plaintext("Certificate of three", inputs::certificate_record(&[1100, 1300, 900]));
    all.plaintext("CertificateRequest", inputs::certificate_request_record());
    all.plaintext("a server's flight", inputs::flight());
    all.plaintext("two alerts", inputs::record(21, &[1, 0, 2, 40]));
    all.plaintext("one ChangeCipherSpec", inputs::record(20, &[1]));
    all.plaintext("16,640 ChangeCipherSpecs", inputs::record(20, &[1; 16640]));
    all.plaintext("4,160 HelloRequests", inputs::record(22, &[0; 16640]));
    let mut cut = inputs::hello_517();
    cut.pop();
    all.plaintext("a cut record", cut);
    all.plaintext("a bad type", inputs::record(99, &[1; 10]));
    all.plaintext("a bad message", inputs::record(22, &inputs::handshake(99, &[1; 10])));
}

fn messages(all: &mut Cases) {
    let message = |record: Vec<u8>| record[5..].to_vec();
    let (o, r): (Repeated, Repeated) = (ours::ours_handshake, rust::rust_handshake);
    all.parse("message", "ClientHello", o, r, message(inputs::hello_517()));
    all.parse("message", "ServerHello", o, r, message(inputs::server_hello_record()));
    all.parse("message", "Certificate of three", o, r, message(inputs::certificate_record(&[1100, 1300, 900])));
    all.parse("message", "ServerHelloDone", o, r, inputs::handshake(14, &[]));
    all.parse("several", "raw record", ours::ours_raw_record, rust::rust_raw_record, inputs::hello_517());
    all.parse("several", "ten records", ours::ours_many, rust::rust_many, inputs::ten_records());
}

fn extensions(all: &mut Cases) {
    all.extensions("TLS 1.2", inputs::extensions_tls12());
    all.extensions("TLS 1.3", inputs::extensions_tls13(&[(0x4a4a, 1), (29, 32)], 0));
    all.extensions("a ServerHello's", inputs::extensions_server());
    all.extensions("20 short ones", inputs::extensions_short());
}

/// Reading in place, compared with Rust's calls that return lists and with those that allocate
/// least.
fn in_place(all: &mut Cases) {
    let hello: [Repeated; 3] = [ours::ours_view_hello, view::rust_view_hello, view::best_view_hello];
    let name: [Repeated; 3] = [ours::ours_view_name, view::rust_view_name, view::best_view_name];
    let walk: [Repeated; 3] = [ours::ours_view_walk, view::rust_view_walk, view::best_view_walk];
    let types: [Repeated; 3] = [ours::ours_view_types, view::rust_view_types, view::best_view_types];
    let jobs = [
        ("fields of a hello", hello, inputs::hello_517()),
        ("fields of a hello, post-quantum", hello, inputs::hello_post_quantum()),
        ("record to the host's name", name, inputs::hello_517()),
        ("record to the host's name, post-quantum", name, inputs::hello_post_quantum()),
        ("16,640 ChangeCipherSpecs", walk, inputs::record(20, &[1; 16640])),
        ("types of extensions, TLS 1.3", types, inputs::extensions_tls13(&[(0x4a4a, 1), (29, 32)], 0)),
    ];
    for (what, [o, lists, best], bytes) in jobs {
        all.parse("in place", &format!("{what}, beside lists"), o, lists, bytes.clone());
        all.parse("in place", &format!("{what}, beside the best"), o, best, bytes);
    }
}

fn dtls(all: &mut Cases) {
    let (o, r): (Repeated, Repeated) = (ours::ours_dtls_record, rust::rust_dtls_record);
    all.parse("DTLS", "ClientHello", o, r, inputs::dtls_hello());
    all.parse("DTLS", "HelloVerifyRequest", o, r, inputs::dtls_verify());
    all.parse("DTLS", "ServerHello", o, r, inputs::dtls_server_hello());
    all.parse("DTLS", "a fragment", o, r, inputs::dtls_fragment());
    all.parse("DTLS", "ChangeCipherSpec", o, r, inputs::dtls_change());
    all.parse("DTLS", "an alert", o, r, inputs::dtls_alert());
    all.parse("DTLS", "five records", ours::ours_dtls_records, rust::rust_dtls_records, inputs::dtls_records());
    all.parse("DTLS", "a message", ours::ours_dtls_handshake, rust::rust_dtls_handshake, inputs::dtls_hello_message());
}

fn keys(all: &mut Cases) {
    all.parse("keys", "finite field", ours::ours_dh, rust::rust_dh, inputs::dh());
    all.parse("keys", "elliptic curve", ours::ours_ecdh, rust::rust_ecdh, inputs::ecdh());
    all.parse("keys", "a signature", ours::ours_signed, rust::rust_signed, inputs::signed());
    all.parse("keys", "three timestamps", ours::ours_timestamps, rust::rust_timestamps, inputs::timestamps());
}

fn writer(all: &mut Cases) {
    let o = [ours::ours_serialize, ours::ours_gen];
    let r: [Repeated; 2] = [rust::rust_serialize, rust::rust_gen];
    all.writes("ClientHello, least", o, r, inputs::hello_least());
    all.writes("ClientHello, padded", o, r, inputs::hello_517());
    all.writes("ClientHello, post-quantum", o, r, inputs::hello_post_quantum());
    all.writes("ServerHello", o, r, inputs::server_hello_record());
    let bytes = leak(inputs::extensions_written());
    let name = format!("extensions, {} bytes, gen", bytes.len() + 2);
    let ours = repeated(ours::ours_gen_extensions, bytes);
    all.add("writer", name, ours, repeated(rust::rust_gen_extensions, bytes));
}

/// Conversations: a name, the records, and which of them go to the server.
fn conversations() -> [(&'static str, &'static [u8], &'static [u8]); 2] {
    [("handshake", false), ("with a client's certificate", true)].map(|(what, with_certificate)| {
        let (bytes, sides) = inputs::conversation(with_certificate);
        (what, leak(bytes), leak(sides))
    })
}

fn states(all: &mut Cases) {
    let calls: [(&str, Sided); 3] = [
        ("tls_state_transition", ours::ours_transitions),
        ("update", ours::ours_updates),
        ("run", ours::ours_runs),
    ];
    for (what, bytes, sides) in conversations() {
        for (call, o) in calls {
            let name = format!("{what}, {} messages, {call}", sides.len());
            all.add("states", name, sided(o, bytes, sides), sided(rust::rust_transitions, bytes, sides));
        }
    }
}

/// Handshakes of both peers. Rust has no such call, so they are compared with our `update`.
fn flows(all: &mut Cases) {
    let calls: [(&str, Sided); 2] = [("made of messages", ours::ours_flows), ("made before", ours::ours_events)];
    for (what, bytes, sides) in conversations() {
        for (made, o) in calls {
            let name = format!("{what}, {} events {made}, beside `update`", sides.len());
            all.add("flows", name, sided(o, bytes, sides), sided(ours::ours_updates, bytes, sides));
        }
    }
}

/// The size of a stream's pieces: a packet's payload.
const PIECE: usize = 1460;

/// Streams of handshake messages: a name, the bytes of a message, the bytes of a record.
const MESSAGES: [(&str, usize, usize); 5] = [
    ("messages of 100 bytes, 160 in a record", 100, 16000),
    ("messages of 1,000 bytes, a record each", 1000, 1000),
    ("messages of 3,000 bytes, over three records each", 3000, 1000),
    ("messages of 16,000 bytes, a record each", 16000, 16000),
    ("messages of 100,000 bytes, over seven records each", 100000, 16384),
];

/// Reassembled messages. Rust has no such call, so TLS is compared with our cutting of its records,
/// and DTLS with the same fragments in order, or with ten messages of a tenth of the size.
fn joined(all: &mut Cases) {
    for (what, message, payload) in MESSAGES {
        let bytes = leak(inputs::messages(1 << 18, message, payload));
        let records = in_pieces(ours::ours_records, bytes, PIECE, 1);
        let messages = in_pieces(ours::ours_messages, bytes, PIECE, 1);
        all.add("joined", format!("{what}, beside its records"), messages, records);
    }
    let datagrams = |length, is_reversed, each| {
        let bytes = leak(inputs::datagrams(length, is_reversed));
        in_pieces(ours::ours_datagrams, bytes, inputs::DATAGRAM, each)
    };
    let pairs = [
        ("100,000 bytes reversed, beside in order", datagrams(100_000, true, 1), datagrams(100_000, false, 1)),
        ("1,000,000 bytes in order, beside ten of 100,000", datagrams(1_000_000, false, 1), datagrams(100_000, false, 10)),
        ("1,000,000 bytes reversed, beside ten of 100,000", datagrams(1_000_000, true, 1), datagrams(100_000, true, 10)),
    ];
    for (what, o, other) in pairs {
        all.add("fragments", what, o, other);
    }
}

/// The calls that the Rust crate has too.
fn of_both() -> Vec<Case> {
    let mut all = Cases(Vec::new());
    records(&mut all);
    messages(&mut all);
    extensions(&mut all);
    dtls(&mut all);
    keys(&mut all);
    writer(&mut all);
    states(&mut all);
    all.0
}

/// The calls that the Rust crate lacks.
fn of_ours() -> Vec<Case> {
    let mut all = Cases(Vec::new());
    in_place(&mut all);
    flows(&mut all);
    joined(&mut all);
    all.0
}

/// All cases that run in batches, in two parts.
pub const PARTS: [fn() -> Vec<Case>; 2] = [of_both, of_ours];

pub fn all() -> Vec<Case> {
    PARTS.iter().flat_map(|part| part()).collect()
}

/// A stream, the size of its pieces, our call that cuts it, and the call it is compared with.
pub struct Stream {
    pub name: String,
    pub bytes: Vec<u8>,
    pub piece: usize,
    pub ours: InPieces,
    pub beside: InPieces,
    /// A call that removes each record by moving the bytes behind it.
    pub each: Option<InPieces>,
}

/// Streams of this many bytes.
pub fn streams(total: usize) -> Vec<Stream> {
    let mut all = Vec::new();
    for payload in [5, 500, 16000] {
        let bytes = inputs::stream(total, payload);
        for piece in [PIECE, bytes.len()] {
            let cut = if piece == bytes.len() { "one piece".into() } else { format!("pieces of {piece}") };
            let name = format!("payloads of {payload}, {cut}");
            let bytes = bytes.clone();
            let (ours, beside) = (ours::ours_stream, rust::rust_stream);
            all.push(Stream { name, bytes, piece, ours, beside, each: Some(rust::rust_stream_each) });
        }
    }
    for (what, message, payload) in MESSAGES {
        let bytes = inputs::messages(total, message, payload);
        let name = format!("{what}, pieces of {PIECE}, beside our records");
        let (ours, beside) = (ours::ours_messages, ours::ours_records);
        all.push(Stream { name, bytes, piece: PIECE, ours, beside, each: None });
    }
    all
}

/// The records whose printed texts are compared.
pub fn written() -> Vec<Vec<u8>> {
    vec![inputs::hello_least(), inputs::hello_517(), inputs::hello_post_quantum(), inputs::server_hello_record()]
}
