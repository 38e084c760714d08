//! Records and handshake messages of DTLS.
use crate::error::{check, Error};
use crate::number::Numbers;
use crate::part::{Items, Read};
use crate::sys;

/// A record of DTLS (RFC 6347, section 4.1).
#[derive(Clone, Copy, Debug, PartialEq, Eq)]
pub struct DtlsRecord<'a> {
    /// The content type: 22 for handshake messages.
    pub content_type: u8,
    /// The version field.
    pub version: u16,
    /// The epoch: how often the sender has changed its cipher.
    pub epoch: u16,
    /// The record's number within its epoch, below 2^48.
    pub sequence_number: u64,
    /// The fragment.
    pub fragment: &'a [u8],
}

impl<'a> Read<'a> for DtlsRecord<'a> {
    fn read(bytes: &'a [u8]) -> Result<(Self, &'a [u8]), Error> {
        let (status, out) = sys::read_at(sys::wispuddera_read_dtls_record, bytes);
        check(status, out.missing)?;
        let record = DtlsRecord {
            content_type: out.content_type,
            version: out.version,
            epoch: out.epoch,
            sequence_number: out.sequence_number,
            fragment: out.fragment.of(bytes),
        };
        Ok((record, &bytes[out.next..]))
    }
}

/// Iterates over the DTLS records in a datagram (RFC 6347, section 4.1).
pub fn dtls_records(datagram: &[u8]) -> Items<'_, DtlsRecord<'_>> {
    Items::new(datagram)
}

/// A handshake message of DTLS, or a fragment of one (RFC 6347, section 4.2.2).
#[derive(Clone, Copy, Debug, PartialEq, Eq)]
pub struct DtlsMessage<'a> {
    /// The HandshakeType.
    pub kind: u8,
    /// The length of the whole body, in bytes.
    pub length: u32,
    /// The message's sequence number.
    pub message_seq: u16,
    /// Where the fragment begins in the whole body, in bytes.
    pub fragment_offset: u32,
    /// Whether `body` is only a part of the whole body.
    pub is_part: bool,
    /// The body, or the fragment's part of it.
    pub body: &'a [u8],
}

impl<'a> Read<'a> for DtlsMessage<'a> {
    fn read(bytes: &'a [u8]) -> Result<(Self, &'a [u8]), Error> {
        let (status, out) = sys::read_at(sys::wispuddera_read_dtls_message, bytes);
        check(status, out.missing)?;
        let message = DtlsMessage {
            kind: out.kind,
            length: out.length,
            message_seq: out.message_seq,
            fragment_offset: out.fragment_offset,
            is_part: out.is_part,
            body: out.body.of(bytes),
        };
        Ok((message, &bytes[out.next..]))
    }
}

/// Iterates over the DTLS handshake messages, and fragments of them, in a record's fragment (RFC
/// 6347, section 4.2.2).
pub fn dtls_messages(fragment: &[u8]) -> Items<'_, DtlsMessage<'_>> {
    Items::new(fragment)
}

/// The body of a DTLS ClientHello (RFC 6347, section 4.2.1).
#[derive(Clone, Debug)]
pub struct DtlsClientHello<'a> {
    /// The version field.
    pub version: u16,
    /// The 32 bytes of the random.
    pub random: &'a [u8],
    /// The session ID; empty if there is none.
    pub session_id: &'a [u8],
    /// The cookie; empty if there is none.
    pub cookie: &'a [u8],
    /// The cipher suites.
    pub cipher_suites: Numbers<'a>,
    /// The compression methods, 1 byte each.
    pub compression_methods: &'a [u8],
    /// The block of extensions, for [`extensions`](crate::extensions); `None` if no whole block
    /// follows.
    pub extensions: Option<&'a [u8]>,
}

impl<'a> DtlsClientHello<'a> {
    /// Returns the body at the front, and the bytes after it.
    ///
    /// # Errors
    /// Those of [`ClientHello::read`](crate::ClientHello::read).
    pub fn read(body: &'a [u8]) -> Result<(Self, &'a [u8]), Error> {
        let (status, out) = sys::read_front(sys::wispuddera_read_dtls_client_hello, body);
        check(status, out.missing)?;
        let hello = DtlsClientHello {
            version: out.version,
            random: out.random.of(body),
            session_id: out.session_id.of(body),
            cookie: out.cookie.of(body),
            cipher_suites: Numbers::new(sys::wispuddera_number_at, out.cipher_suites.of(body))?,
            compression_methods: out.compression_methods.of(body),
            extensions: out.has_extensions.then(|| out.extensions.of(body)),
        };
        Ok((hello, &body[out.next..]))
    }
}
