//! The structs and functions of `include/wispuddera.h`, which describes them.
//!
//! The test below compares the layout of the structs with that of the library.

pub const READ: u32 = 0;
pub const INCOMPLETE: u32 = 1;
pub const TOO_LARGE: u32 = 2;
pub const LENGTH_VALUE: u32 = 3;
pub const VERIFY: u32 = 4;
pub const SWITCH: u32 = 5;
pub const TAG: u32 = 6;
pub const NONE: u32 = 8;
pub const ABOVE_LIMIT: u32 = 11;
pub const INTERRUPTED: u32 = 12;

#[repr(C)]
#[derive(Clone, Copy, Debug, Default)]
pub struct Place {
    pub offset: usize,
    pub length: usize,
}

impl Place {
    /// The bytes at the place. The library is proved to return places within the bytes that it was
    /// passed; another place panics.
    pub fn of<'a>(&self, bytes: &'a [u8]) -> &'a [u8] {
        &bytes[self.offset..][..self.length]
    }
}

#[repr(C)]
#[derive(Default)]
pub struct Record {
    pub missing: usize,
    pub fragment: Place,
    pub next: usize,
    pub version: u16,
    pub length: u16,
    pub content_type: u8,
}

#[repr(C)]
#[derive(Default)]
pub struct Part {
    pub missing: usize,
    pub content: Place,
    pub next: usize,
    pub kind: u16,
}

#[repr(C)]
#[derive(Default)]
pub struct ClientHello {
    pub missing: usize,
    pub random: Place,
    pub session_id: Place,
    pub cipher_suites: Place,
    pub compression_methods: Place,
    pub extensions: Place,
    pub next: usize,
    pub version: u16,
    pub has_extensions: bool,
}

#[repr(C)]
#[derive(Default)]
pub struct ServerHello {
    pub missing: usize,
    pub random: Place,
    pub session_id: Place,
    pub extensions: Place,
    pub next: usize,
    pub version: u16,
    pub cipher_suite: u16,
    pub compression_method: u8,
    pub has_extensions: bool,
}

#[repr(C)]
#[derive(Default)]
pub struct Found {
    pub missing: usize,
    pub place: Place,
}

#[repr(C)]
#[derive(Default)]
pub struct Number {
    pub missing: usize,
    pub count: usize,
    pub value: u16,
}

#[repr(C)]
#[derive(Default)]
pub struct DtlsRecord {
    pub missing: usize,
    pub fragment: Place,
    pub next: usize,
    pub sequence_number: u64,
    pub version: u16,
    pub epoch: u16,
    pub length: u16,
    pub content_type: u8,
}

#[repr(C)]
#[derive(Default)]
pub struct DtlsMessage {
    pub missing: usize,
    pub body: Place,
    pub next: usize,
    pub length: u32,
    pub fragment_offset: u32,
    pub fragment_length: u32,
    pub message_seq: u16,
    pub kind: u8,
    pub is_part: bool,
}

#[repr(C)]
#[derive(Default)]
pub struct DtlsClientHello {
    pub missing: usize,
    pub random: Place,
    pub session_id: Place,
    pub cookie: Place,
    pub cipher_suites: Place,
    pub compression_methods: Place,
    pub extensions: Place,
    pub next: usize,
    pub version: u16,
    pub has_extensions: bool,
}

#[repr(C)]
#[derive(Default)]
pub struct X509 {
    pub missing: usize,
    pub signed_bytes: Place,
    pub serial_number: Place,
    pub signature_algorithm: Place,
    pub issuer: Place,
    pub subject: Place,
    pub key_algorithm: Place,
    pub key_parameters: Place,
    pub public_key: Place,
    pub extensions: Place,
    pub signature: Place,
    pub not_before: i64,
    pub not_after: i64,
    pub next: usize,
    pub key_bits: u32,
    pub key_kind: u8,
    pub version: u8,
}

#[repr(C)]
#[derive(Default)]
pub struct X509Extension {
    pub missing: usize,
    pub oid: Place,
    pub value: Place,
    pub next: usize,
    pub critical: bool,
}

#[repr(C)]
#[derive(Clone, Copy, Debug, Default, PartialEq, Eq, Hash)]
pub struct Flow {
    pub state: u32,
}

/// An event that the library writes, with its kind as a number.
#[repr(C)]
#[derive(Clone, Copy, Debug, Default)]
pub struct WrittenEvent {
    pub kind: u8,
    pub to_server: bool,
}

#[repr(C)]
#[derive(Default)]
pub struct EventContent {
    pub content: Place,
    pub fault: u32,
    pub form: u8,
    pub kind: u8,
}

#[repr(C)]
#[derive(Clone, Copy, Debug, Default)]
pub struct Stop {
    pub events_before: u64,
    pub event: WrittenEvent,
    pub is_alert: bool,
    pub alert: u8,
}

#[repr(C)]
#[derive(Clone, Copy, Debug, Default)]
pub struct Side {
    pub part: usize,
    pub part_end: usize,
    pub unread: usize,
    pub end: usize,
    pub kind: u8,
    pub has_changed: bool,
    pub is_over: bool,
}

#[repr(C)]
#[derive(Clone, Copy, Debug, Default)]
pub struct Course {
    pub events: u64,
    pub stop: Stop,
    pub flow: Flow,
}

#[repr(C)]
#[derive(Clone, Copy, Debug, Default)]
pub struct Conversation {
    pub client: Side,
    pub server: Side,
    pub limit: usize,
    pub course: Course,
    pub is_tls13: bool,
    pub has_session: bool,
}

/// A call that parses the item at an offset.
pub type ReadAt<T> = unsafe extern "C" fn(*const u8, usize, usize, *mut T) -> u32;
/// A call that parses the item at the front, or looks something up.
pub type ReadFront<T> = unsafe extern "C" fn(*const u8, usize, *mut T) -> u32;
/// A call that writes a fingerprint to a buffer.
pub type WriteFingerprint = unsafe extern "C" fn(*const u8, usize, *mut u8, usize, *mut usize) -> u32;
/// A call that parses the item at the front of the buffered bytes, and removes it.
pub type Take<T> = unsafe extern "C" fn(*const u8, usize, *mut Place, *mut T) -> u32;

extern "C" {
    pub fn wispuddera_read_record(bytes: *const u8, count: usize, offset: usize, out: *mut Record) -> u32;
    pub fn wispuddera_read_message(bytes: *const u8, count: usize, offset: usize, out: *mut Part) -> u32;
    pub fn wispuddera_read_extension(bytes: *const u8, count: usize, offset: usize, out: *mut Part) -> u32;
    pub fn wispuddera_read_key_share(bytes: *const u8, count: usize, offset: usize, out: *mut Part) -> u32;
    pub fn wispuddera_read_protocol(bytes: *const u8, count: usize, offset: usize, out: *mut Part) -> u32;
    pub fn wispuddera_read_certificate(bytes: *const u8, count: usize, offset: usize, out: *mut Part) -> u32;
    pub fn wispuddera_read_dtls_record(bytes: *const u8, count: usize, offset: usize, out: *mut DtlsRecord) -> u32;
    pub fn wispuddera_read_dtls_message(bytes: *const u8, count: usize, offset: usize, out: *mut DtlsMessage) -> u32;

    pub fn wispuddera_read_client_hello(bytes: *const u8, count: usize, out: *mut ClientHello) -> u32;
    pub fn wispuddera_read_server_hello(bytes: *const u8, count: usize, out: *mut ServerHello) -> u32;
    pub fn wispuddera_read_dtls_server_hello(bytes: *const u8, count: usize, out: *mut ServerHello) -> u32;
    pub fn wispuddera_read_dtls_client_hello(bytes: *const u8, count: usize, out: *mut DtlsClientHello) -> u32;

    pub fn wispuddera_find_server_name_in_record(bytes: *const u8, count: usize, out: *mut Found) -> u32;
    pub fn wispuddera_find_server_name_in_hello(bytes: *const u8, count: usize, out: *mut Found) -> u32;
    pub fn wispuddera_find_server_name(bytes: *const u8, count: usize, out: *mut Found) -> u32;
    pub fn wispuddera_find_protocols(bytes: *const u8, count: usize, out: *mut Found) -> u32;
    pub fn wispuddera_find_extension(bytes: *const u8, count: usize, kind: u16, out: *mut Found) -> u32;
    pub fn wispuddera_find_body(bytes: *const u8, count: usize, kind: u8, out: *mut Found) -> u32;
    pub fn wispuddera_find_key_shares(bytes: *const u8, count: usize, out: *mut Found) -> u32;
    pub fn wispuddera_find_certificates(bytes: *const u8, count: usize, out: *mut Found) -> u32;

    pub fn wispuddera_number_at(bytes: *const u8, count: usize, index: usize, out: *mut Number) -> u32;
    pub fn wispuddera_version_at(bytes: *const u8, count: usize, index: usize, out: *mut Number) -> u32;
    pub fn wispuddera_group_at(bytes: *const u8, count: usize, index: usize, out: *mut Number) -> u32;
    pub fn wispuddera_signature_scheme_at(bytes: *const u8, count: usize, index: usize, out: *mut Number) -> u32;
    pub fn wispuddera_looks_like_tls(bytes: *const u8, count: usize) -> u32;
    pub fn wispuddera_best_version(bytes: *const u8, count: usize, version: u16, out: *mut Number) -> u32;

    pub fn wispuddera_ja3(bytes: *const u8, count: usize, digits: *mut u8, room: usize, missing: *mut usize) -> u32;
    pub fn wispuddera_dtls_ja3(bytes: *const u8, count: usize, digits: *mut u8, room: usize, missing: *mut usize) -> u32;
    pub fn wispuddera_ja3s(bytes: *const u8, count: usize, digits: *mut u8, room: usize, missing: *mut usize) -> u32;
    pub fn wispuddera_dtls_ja3s(bytes: *const u8, count: usize, digits: *mut u8, room: usize, missing: *mut usize) -> u32;
    pub fn wispuddera_ja4(bytes: *const u8, count: usize, text: *mut u8, room: usize, missing: *mut usize) -> u32;
    pub fn wispuddera_quic_ja4(bytes: *const u8, count: usize, text: *mut u8, room: usize, missing: *mut usize) -> u32;
    pub fn wispuddera_dtls_ja4(bytes: *const u8, count: usize, text: *mut u8, room: usize, missing: *mut usize) -> u32;

    pub fn wispuddera_feed(buffer: *mut u8, capacity: usize, held: *mut Place, piece: *const u8, count: usize, taken: *mut usize) -> u32;
    pub fn wispuddera_next_record(buffer: *const u8, capacity: usize, held: *mut Place, out: *mut Record) -> u32;
    pub fn wispuddera_next_message(buffer: *const u8, capacity: usize, held: *mut Place, out: *mut Part) -> u32;

    pub fn wispuddera_event_of_message(body: *const u8, count: usize, kind: u8) -> u8;
    pub fn wispuddera_event_of_dtls_message(kind: u8) -> u8;
    pub fn wispuddera_event_of_alert(level: u8, description: u8) -> u8;
    pub fn wispuddera_outcome(events: *const crate::outcome::Event, count: usize) -> u32;
    pub fn wispuddera_flow_start(flow: *mut Flow);
    pub fn wispuddera_flow_step(flow: *mut Flow, event: *const crate::outcome::Event);
    pub fn wispuddera_flow_outcome(flow: *const Flow) -> u32;

    pub fn wispuddera_conversation_start(conversation: *mut Conversation, limit: usize);
    pub fn wispuddera_conversation_feed(
        buffer: *mut u8,
        capacity: usize,
        conversation: *mut Conversation,
        to_server: bool,
        piece: *const u8,
        count: usize,
    ) -> u32;
    pub fn wispuddera_conversation_next(
        buffer: *mut u8,
        capacity: usize,
        conversation: *mut Conversation,
        to_server: bool,
        out: *mut EventContent,
    ) -> u32;
    pub fn wispuddera_conversation_outcome(conversation: *const Conversation) -> u32;
    pub fn wispuddera_conversation_stop(conversation: *const Conversation, out: *mut Stop) -> u32;
    pub fn wispuddera_conversation_established(conversation: *const Conversation) -> bool;
    pub fn wispuddera_conversation_resumed(conversation: *const Conversation) -> bool;

    pub fn wispuddera_read_x509(bytes: *const u8, count: usize, out: *mut X509) -> u32;
    pub fn wispuddera_read_x509_extension(bytes: *const u8, count: usize, offset: usize, out: *mut X509Extension) -> u32;
    pub fn wispuddera_find_x509_names(bytes: *const u8, count: usize, out: *mut Found) -> u32;
    pub fn wispuddera_read_x509_name(bytes: *const u8, count: usize, offset: usize, out: *mut Part) -> u32;

    #[cfg(test)]
    pub fn wispuddera_struct_size(index: usize) -> usize;
    #[cfg(test)]
    pub fn wispuddera_field_offset(index: usize, field: usize) -> usize;
}

/// Returns the status and the struct of a call at offset 0.
pub fn read_at<T: Default>(call: ReadAt<T>, bytes: &[u8]) -> (u32, T) {
    let mut out = T::default();
    // SAFETY: the pointer and the length are those of a slice; `out` is initialized.
    let status = unsafe { call(bytes.as_ptr(), bytes.len(), 0, &mut out) };
    (status, out)
}

/// Returns the status and the struct of a call that takes no offset.
pub fn read_front<T: Default>(call: ReadFront<T>, bytes: &[u8]) -> (u32, T) {
    let mut out = T::default();
    // SAFETY: as in `read_at`.
    let status = unsafe { call(bytes.as_ptr(), bytes.len(), &mut out) };
    (status, out)
}

#[cfg(test)]
mod tests {
    use super::*;
    use crate::outcome::Event;
    use core::mem::{offset_of, size_of};

    /// The name of a struct, and the offsets of its fields followed by its size.
    macro_rules! layout {
        ($name:ident: $($field:ident),+) => {
            (stringify!($name), &[$(offset_of!($name, $field),)+ size_of::<$name>()][..])
        };
    }

    #[test]
    fn structs_lie_as_in_the_library() {
        let layouts = [
            layout!(Place: offset, length),
            layout!(Record: missing, fragment, next, version, length, content_type),
            layout!(Part: missing, content, next, kind),
            layout!(ClientHello: missing, random, session_id, cipher_suites, compression_methods, extensions, next, version, has_extensions),
            layout!(ServerHello: missing, random, session_id, extensions, next, version, cipher_suite, compression_method, has_extensions),
            layout!(Found: missing, place),
            layout!(Number: missing, count, value),
            layout!(DtlsRecord: missing, fragment, next, sequence_number, version, epoch, length, content_type),
            layout!(DtlsMessage: missing, body, next, length, fragment_offset, fragment_length, message_seq, kind, is_part),
            layout!(DtlsClientHello: missing, random, session_id, cookie, cipher_suites, compression_methods, extensions, next, version,
                has_extensions),
            layout!(Event: kind, to_server),
            layout!(Flow: state),
            layout!(X509: missing, signed_bytes, serial_number, signature_algorithm, issuer, subject, key_algorithm, key_parameters,
                public_key, extensions, signature, not_before, not_after, next, key_bits, key_kind, version),
            layout!(X509Extension: missing, oid, value, next, critical),
            layout!(EventContent: content, fault, form, kind),
            layout!(Stop: events_before, event, is_alert, alert),
            layout!(Side: part, part_end, unread, end, kind, has_changed, is_over),
            layout!(Course: events, stop, flow),
            layout!(Conversation: client, server, limit, course, is_tls13, has_session),
            ("none", &[0]),
        ];
        for (index, (name, offsets)) in layouts.iter().enumerate() {
            // SAFETY: it takes only a number.
            assert_eq!(unsafe { wispuddera_struct_size(index) }, offsets[offsets.len() - 1], "{name}");
            for (field, offset) in offsets.iter().enumerate() {
                // SAFETY: it takes only numbers.
                assert_eq!(unsafe { wispuddera_field_offset(index, field) }, *offset, "{name}, field {field}");
            }
        }
    }
}
