//! The jobs of `bench/calls/view.rt.in` with the Rust crate: by the calls that its documentation
//! shows, and by those that allocate least (`best`).

use crate::number::then;
use tls_parser::*;

#[inline(always)]
fn name(n: &[u8]) -> u64 {
    match n {
        [first, .., last] => then(then(n.len() as u64, *first as u64), *last as u64),
        _ => n.len() as u64,
    }
}
#[inline(always)]
fn length_of(b: Option<&[u8]>) -> u64 {
    b.map_or(0, |b| b.len() as u64)
}

macro_rules! jobs {
    ($($export:ident: $once:ident;)*) => {$(
        #[unsafe(no_mangle)]
        #[inline(never)]
        pub extern "C" fn $export(bytes: *const u8, len: usize, times: usize) -> u64 {
            let half = len / 2;
            let mut number = 0;
            for round in 0..times {
                let i = unsafe { std::slice::from_raw_parts(bytes.add(round % 2 * half), half) };
                number = then(number, $once(i));
            }
            number
        }
    )*};
}

jobs! {
    rust_view_hello: hello; best_view_hello: best_hello;
    rust_view_name: sni; best_view_name: best_sni;
    rust_view_walk: walk; best_view_walk: best_walk;
    rust_view_types: types; best_view_types: best_types;
}

#[inline(always)]
fn fields(h: &TlsClientHelloContents) -> u64 {
    let f = then(h.version.0 as u64, then(h.random.len() as u64, length_of(h.session_id)));
    then(f, then(h.ciphers.len() as u64, then(h.comp.len() as u64, length_of(h.ext))))
}
#[inline(always)]
fn hello(i: &[u8]) -> u64 {
    let Ok((_, r)) = parse_tls_plaintext(i) else { return 1 };
    match r.msg.as_slice() {
        [TlsMessage::Handshake(TlsMessageHandshake::ClientHello(h)), ..] => fields(h),
        _ => 3,
    }
}
#[inline(always)]
fn best_hello(i: &[u8]) -> u64 {
    let Ok((_, r)) = parse_tls_raw_record(i) else { return 1 };
    if r.hdr.record_type != TlsRecordType::Handshake { return 3 }
    match parse_tls_message_handshake(r.data) {
        Ok((_, TlsMessage::Handshake(TlsMessageHandshake::ClientHello(h)))) => fields(&h),
        _ => 3,
    }
}

#[inline(always)]
fn first_name(ext: &[u8]) -> u64 {
    let Ok((_, list)) = parse_tls_client_hello_extensions(ext) else { return 1 };
    for e in &list {
        if let TlsExtension::SNI(names) = e {
            if let [(_, host), ..] = names.as_slice() { return name(host) }
        }
    }
    1
}
#[inline(always)]
fn sni(i: &[u8]) -> u64 {
    let Ok((_, r)) = parse_tls_plaintext(i) else { return 1 };
    match r.msg.as_slice() {
        [TlsMessage::Handshake(TlsMessageHandshake::ClientHello(h)), ..] => h.ext.map_or(1, first_name),
        _ => 3,
    }
}
#[inline(always)]
fn best_first_name(mut ext: &[u8]) -> u64 {
    // Extensions stay unparsed except server_name. For a single name no list is built.
    while let Ok((rest, TlsExtension::Unknown(kind, content))) = parse_tls_extension_unknown(ext) {
        if kind == TlsExtensionType::ServerName {
            if content.len() < 2 { return 1 }
            return match parse_tls_extension_sni_hostname(&content[2..]) {
                Ok((_, (_, host))) => name(host),
                Err(_) => 1,
            };
        }
        ext = rest;
    }
    1
}
#[inline(always)]
fn best_sni(i: &[u8]) -> u64 {
    let Ok((_, r)) = parse_tls_raw_record(i) else { return 1 };
    if r.hdr.record_type != TlsRecordType::Handshake { return 3 }
    match parse_tls_message_handshake(r.data) {
        Ok((_, TlsMessage::Handshake(TlsMessageHandshake::ClientHello(h)))) => h.ext.map_or(1, best_first_name),
        _ => 3,
    }
}

#[inline(always)]
fn kind_of(m: &TlsMessage) -> u64 {
    match m {
        TlsMessage::Handshake(_) => 1,
        TlsMessage::ChangeCipherSpec => 2,
        TlsMessage::Alert(_) => 3,
        TlsMessage::ApplicationData(_) => 4,
        TlsMessage::Heartbeat(_) => 5,
    }
}
#[inline(always)]
fn walk(i: &[u8]) -> u64 {
    let Ok((_, r)) = parse_tls_plaintext(i) else { return 1 };
    r.msg.iter().fold(7, |n, m| then(n, kind_of(m)))
}
/// Reads message by message, without a list of messages.
#[inline(always)]
fn each(i: &[u8], mut told: impl FnMut(&TlsMessage)) {
    let Ok((_, r)) = parse_tls_raw_record(i) else { return };
    let mut data = r.data;
    while !data.is_empty() {
        let read = match r.hdr.record_type {
            TlsRecordType::Handshake => parse_tls_message_handshake(data),
            TlsRecordType::ChangeCipherSpec => parse_tls_message_changecipherspec(data),
            TlsRecordType::Alert => parse_tls_message_alert(data),
            _ => return,
        };
        let Ok((rest, m)) = read else { return };
        told(&m);
        data = rest;
    }
}
#[inline(always)]
fn best_walk(i: &[u8]) -> u64 {
    let mut n = 7;
    each(i, |m| n = then(n, kind_of(m)));
    n
}

#[inline(always)]
fn types(i: &[u8]) -> u64 {
    let Ok((_, list)) = parse_tls_client_hello_extensions(i) else { return 1 };
    list.iter().fold(7, |n, e| then(n, match e {
        TlsExtension::Grease(t, _) => *t as u64,
        TlsExtension::Unknown(t, _) => t.0 as u64,
        e => TlsExtensionType::from(e).0 as u64,
    }))
}
#[inline(always)]
fn best_types(mut i: &[u8]) -> u64 {
    let mut n = 7;
    while let Ok((rest, TlsExtension::Unknown(kind, _))) = parse_tls_extension_unknown(i) {
        n = then(n, kind.0 as u64);
        i = rest;
    }
    n
}
