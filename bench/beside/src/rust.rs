//! The calls of the Rust crate, each under the name of its counterpart in `bench/calls`.

use crate::number::{answer, then};
use cookie_factory::gen_simple;
use tls_parser::*;

/// Makes a call this many times, in turn on the two adjacent copies of an input, so that no
/// compiler can drop a round.
macro_rules! parses {
    ($($name:ident: $call:path;)*) => {
        $(
            #[unsafe(no_mangle)]
            #[inline(never)]
            pub extern "C" fn $name(bytes: *const u8, len: usize, times: usize) -> u64 {
                #[cfg_attr(feature = "apart", inline(never))]
                #[cfg_attr(not(feature = "apart"), inline(always))]
                fn once(i: &[u8]) -> u64 {
                    answer(&$call(i))
                }
                let half = len / 2;
                let mut number = 0;
                for round in 0..times {
                    let i = unsafe { std::slice::from_raw_parts(bytes.add(round % 2 * half), half) };
                    number = then(number, once(i));
                }
                number
            }
        )*
    };
}

parses! {
    rust_plaintext: parse_tls_plaintext;
    rust_many: tls_parser_many;
    rust_raw_record: parse_tls_raw_record;
    rust_handshake: parse_tls_message_handshake;
    rust_extensions: parse_tls_extensions;
    rust_client_extensions: parse_tls_client_hello_extensions;
    rust_server_extensions: parse_tls_server_hello_extensions;
    rust_dtls_record: parse_dtls_plaintext_record;
    rust_dtls_records: parse_dtls_plaintext_records;
    rust_dtls_handshake: parse_dtls_message_handshake;
    rust_dh: parse_dh_params;
    rust_ecdh: parse_ecdh_params;
    rust_signed: parse_digitally_signed;
    rust_timestamps: parse_ct_signed_certificate_timestamp_list;
}

fn text_told(text: &[u8]) -> u64 {
    match text {
        [first, .., last] => then(then(text.len() as u64, *first as u64), *last as u64),
        _ => text.len() as u64,
    }
}

#[inline(never)]
fn serialized(record: &TlsPlaintext) -> u64 {
    match record.serialize() {
        Ok(text) => text_told(&text),
        Err(_) => 0,
    }
}

#[inline(never)]
fn generated(record: &TlsPlaintext) -> u64 {
    match gen_simple(gen_tls_plaintext(record), Vec::new()) {
        Ok(text) => text_told(&text),
        Err(_) => 0,
    }
}

#[inline(never)]
fn generated_extensions(extensions: &[TlsExtension]) -> u64 {
    match gen_simple(gen_tls_extensions(extensions), Vec::new()) {
        Ok(text) => text_told(&text),
        Err(_) => 0,
    }
}

/// Reads a value once and writes it this many times.
macro_rules! writes {
    ($($name:ident: $read:path, $write:path;)*) => {
        $(
            #[unsafe(no_mangle)]
            #[inline(never)]
            pub extern "C" fn $name(bytes: *const u8, len: usize, times: usize) -> u64 {
                let mut number = 0;
                if let Ok((_, value)) = $read(unsafe { std::slice::from_raw_parts(bytes, len) }) {
                    for _ in 0..times {
                        number = then(number, $write(&value));
                    }
                }
                number
            }
        )*
    };
}

writes! {
    rust_serialize: parse_tls_plaintext, serialized;
    rust_gen: parse_tls_plaintext, generated;
    rust_gen_extensions: parse_tls_extensions, generated_extensions;
}

/// The text of a record, for comparison.
pub fn text_of(bytes: &[u8]) -> Option<Vec<u8>> {
    let (_, record) = parse_tls_plaintext(bytes).ok()?;
    record.serialize().ok()
}

/// Not inlined, since the other side's has more than one caller: both sides make one call per
/// message.
#[inline(never)]
fn transition(
    state: TlsState,
    message: &TlsMessage,
    to_server: bool,
) -> Result<TlsState, StateChangeError> {
    tls_state_transition(state, message, to_server)
}

#[inline(never)]
fn transitions(messages: &[(TlsMessage, bool)], round: u64) -> u64 {
    let mut state = TlsState::None;
    for (message, to_server) in messages {
        match transition(state, message, *to_server) {
            Ok(next) => state = next,
            Err(_) => return 100,
        }
    }
    then(round, state as u64)
}

/// Reads records of one message each, with their direction, and follows them this many times.
#[unsafe(no_mangle)]
#[inline(never)]
pub extern "C" fn rust_transitions(
    bytes: *const u8,
    len: usize,
    sides: *const u8,
    count: usize,
    times: usize,
) -> u64 {
    let (bytes, sides) = unsafe {
        (std::slice::from_raw_parts(bytes, len), std::slice::from_raw_parts(sides, count))
    };
    let mut number = 0;
    if let Ok((_, records)) = tls_parser_many(bytes) {
        let mut messages = Vec::new();
        for (place, record) in records.into_iter().enumerate() {
            let to_server = sides.get(place) == Some(&1);
            messages.extend(record.msg.into_iter().map(|message| (message, to_server)));
        }
        for round in 0..times {
            number = then(number, transitions(&messages, round as u64));
        }
    }
    number
}

/// Cuts a stream in pieces; the buffer is drained once per piece.
#[unsafe(no_mangle)]
#[inline(never)]
pub extern "C" fn rust_stream(bytes: *const u8, len: usize, piece: usize) -> u64 {
    let bytes = unsafe { std::slice::from_raw_parts(bytes, len) };
    let mut held: Vec<u8> = Vec::new();
    let mut number = 0;
    for part in bytes.chunks(piece) {
        held.extend_from_slice(part);
        let mut at = 0;
        while let Ok((rest, record)) = parse_tls_raw_record(&held[at..]) {
            number = then(number, record.data.len() as u64);
            at = held.len() - rest.len();
        }
        held.drain(..at);
    }
    then(number, held.len() as u64)
}

/// Cuts a stream in pieces; the buffer is drained once per record.
#[unsafe(no_mangle)]
#[inline(never)]
pub extern "C" fn rust_stream_each(bytes: *const u8, len: usize, piece: usize) -> u64 {
    let bytes = unsafe { std::slice::from_raw_parts(bytes, len) };
    let mut held: Vec<u8> = Vec::new();
    let mut number = 0;
    for part in bytes.chunks(piece) {
        held.extend_from_slice(part);
        while let Ok((rest, record)) = parse_tls_raw_record(&held) {
            number = then(number, record.data.len() as u64);
            let taken = held.len() - rest.len();
            held.drain(..taken);
        }
    }
    then(number, held.len() as u64)
}
