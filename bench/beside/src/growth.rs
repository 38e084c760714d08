//! How our calls' time and memory grow with their worst inputs: as many items as the bytes can
//! hold.

use crate::{inputs, ours};
use std::hint::black_box;

type Repeated = extern "C" fn(*const u8, usize, usize) -> u64;

/// A call, and what makes its input of about a given size.
struct Growing {
    name: &'static str,
    call: Repeated,
    input: fn(usize) -> Vec<u8>,
    /// The most bytes that the layout allows.
    most: usize,
}

const MOST: usize = 16 << 20;

fn repeat(item: &[u8], size: usize) -> Vec<u8> {
    item.repeat(size / item.len())
}

fn extension_of_names(_: usize) -> Vec<u8> {
    let names = repeat(&[0, 0, 0], 65529);
    let mut bytes = vec![0, 0, 0xff, 0xfb, 0xff, 0xf9];
    bytes.extend(names);
    bytes
}

fn certificate(size: usize) -> Vec<u8> {
    let list = repeat(&[0, 0, 0], size - 7);
    let mut body = (list.len() as u32).to_be_bytes()[1..].to_vec();
    body.extend(list);
    inputs::handshake(11, &body)
}

fn timestamps(size: usize) -> Vec<u8> {
    // A timestamp with no extensions and no signature takes 47 bytes and its length.
    let mut one = vec![0, 47, 0];
    one.extend([7; 32]);
    one.extend([0, 0, 0, 0, 0, 0, 0, 1, 0, 0, 4, 3, 0, 0]);
    let list = repeat(&one, size - 2);
    let mut bytes = (list.len() as u16).to_be_bytes().to_vec();
    bytes.extend(list);
    bytes
}

/// Takes one of the two copies of the input.
extern "C" fn stream_of_bytes(bytes: *const u8, len: usize, times: usize) -> u64 {
    (0..times).map(|_| ours::ours_stream(bytes, len / 2, 1)).sum()
}

/// A case on datagrams of a known size.
extern "C" fn of_datagrams(bytes: *const u8, len: usize, times: usize) -> u64 {
    (0..times).map(|_| ours::ours_datagrams(bytes, len / 2, inputs::DATAGRAM)).sum()
}

/// A case on a stream of messages in pieces.
extern "C" fn of_messages(bytes: *const u8, len: usize, times: usize) -> u64 {
    (0..times).map(|_| ours::ours_messages(bytes, len / 2, 1460)).sum()
}

fn all() -> [Growing; 14] {
    let one = |name, call, input, most| Growing { name, call, input, most };
    [
        one("`tls_parser_many`, records of no application data", ours::ours_many, |n| repeat(&[23, 3, 3, 0, 0], n), MOST),
        one("`tls_parser_many`, records of 16,640 ChangeCipherSpecs", ours::ours_many, |n| inputs::record(20, &[1; 16640]).repeat(n / 16645), MOST),
        one("`parse_tls_extensions`, extensions of no content", ours::ours_extensions, |n| repeat(&[0, 23, 0, 0], n), MOST),
        one("`parse_tls_extensions`, lists of empty names", ours::ours_extensions, |n| extension_of_names(n).repeat(n / 65535), MOST),
        one("`parse_tls_message_handshake`, empty certificates", ours::ours_handshake, certificate, MOST - 1),
        one("`parse_dtls_plaintext_records`, a ChangeCipherSpec each", ours::ours_dtls_records, |n| inputs::dtls_change().repeat(n / 14), MOST),
        one("`parse_ct_signed_certificate_timestamp_list`", ours::ours_timestamps, timestamps, 65535),
        one("`parse_tls_plaintext`, HelloRequests", ours::ours_plaintext, |n| inputs::record(22, &vec![0; n - 5]), 16645),
        one("`feed` and `take_front`, a byte a call", stream_of_bytes, |n| repeat(&[23, 3, 3, 0, 0], n), MOST),
        one("`EventReader`, a message over records of a byte", of_messages, |n| inputs::messages(n / 6, n / 6, 1), 6 * 131_072),
        one("`read_datagram`, a message in fragments of 1,200 in order", of_datagrams, |n| inputs::datagrams(n, false), 100_000),
        one("the same, reversed", of_datagrams, |n| inputs::datagrams(n, true), 100_000),
        one("`read_datagram`, a longer message in order", of_datagrams, |n| inputs::datagrams(n, false), 1_000_000),
        one("the same, reversed", of_datagrams, |n| inputs::datagrams(n, true), 1_000_000),
    ]
}

/// Sizes that double up to the largest.
fn sizes(most: usize) -> [usize; 3] {
    [most / 4, most / 2, most]
}

/// Measures each call on three inputs of doubling size.
pub fn table(measured: &dyn Fn(&dyn Fn() -> u64, usize) -> String) {
    for Growing { name, call, input, most } in all() {
        let cells = sizes(most).map(|size| {
            let copies = input(size).repeat(2);
            measured(&|| black_box(call)(copies.as_ptr(), copies.len(), 1), copies.len() / 2)
        });
        println!("| {name} | {} | {} |", most, cells.join(" | "));
    }
}
