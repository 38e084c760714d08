//! Bodies of hellos.
use crate::error::{check, Error};
use crate::number::Numbers;
use crate::sys;

/// The body of a ClientHello (RFC 5246, section 7.4.1.2; RFC 8446, section 4.1.2).
#[derive(Clone, Debug)]
pub struct ClientHello<'a> {
    /// The version field: 0x0303 in TLS 1.3, whose version [`best_version`](crate::best_version)
    /// returns.
    pub version: u16,
    /// The 32 bytes of the random.
    pub random: &'a [u8],
    /// The session ID; empty if there is none.
    pub session_id: &'a [u8],
    /// The cipher suites.
    pub cipher_suites: Numbers<'a>,
    /// The compression methods, 1 byte each.
    pub compression_methods: &'a [u8],
    /// The block of extensions, for [`extensions`](crate::extensions); `None` if no whole block
    /// follows.
    pub extensions: Option<&'a [u8]>,
}

impl<'a> ClientHello<'a> {
    /// Returns the body at the front, and the bytes after it.
    ///
    /// # Errors
    /// If it is truncated; if its session ID has more than 32 bytes; if a list is longer than what
    /// follows; if the cipher suites have an odd number of bytes.
    pub fn read(body: &'a [u8]) -> Result<(Self, &'a [u8]), Error> {
        let (status, out) = sys::read_front(sys::wispuddera_read_client_hello, body);
        check(status, out.missing)?;
        let hello = ClientHello {
            version: out.version,
            random: out.random.of(body),
            session_id: out.session_id.of(body),
            cipher_suites: Numbers::new(sys::wispuddera_number_at, out.cipher_suites.of(body))?,
            compression_methods: out.compression_methods.of(body),
            extensions: out.has_extensions.then(|| out.extensions.of(body)),
        };
        Ok((hello, &body[out.next..]))
    }
}

/// The body of a ServerHello (RFC 5246, section 7.4.1.3; RFC 8446, section 4.1.3; for DTLS, RFC
/// 6347, section 4.3.2).
#[derive(Clone, Copy, Debug, PartialEq, Eq)]
pub struct ServerHello<'a> {
    /// The version field: 0x0303 in TLS 1.3, whose version [`best_version`](crate::best_version)
    /// returns.
    pub version: u16,
    /// The 32 bytes of the random.
    pub random: &'a [u8],
    /// The session ID; empty if there is none.
    pub session_id: &'a [u8],
    /// The cipher suite that the server chose.
    pub cipher_suite: u16,
    /// The compression method that the server chose.
    pub compression_method: u8,
    /// The block of extensions, for [`extensions`](crate::extensions); `None` if no whole block
    /// follows.
    pub extensions: Option<&'a [u8]>,
}

impl<'a> ServerHello<'a> {
    /// Returns the body at the front, and the bytes after it.
    ///
    /// # Errors
    /// If it is truncated; if its session ID has more than 32 bytes; if its version field isn't one
    /// of SSL 3.0 to TLS 1.2.
    pub fn read(body: &'a [u8]) -> Result<(Self, &'a [u8]), Error> {
        Self::read_by(sys::wispuddera_read_server_hello, body)
    }

    /// Returns the body at the front, of a DTLS ServerHello of any version (RFC 6347, section
    /// 4.3.2), and the bytes after it.
    ///
    /// # Errors
    /// If it is truncated; if its session ID has more than 32 bytes.
    pub fn read_dtls(body: &'a [u8]) -> Result<(Self, &'a [u8]), Error> {
        Self::read_by(sys::wispuddera_read_dtls_server_hello, body)
    }

    fn read_by(call: sys::ReadFront<sys::ServerHello>, body: &'a [u8]) -> Result<(Self, &'a [u8]), Error> {
        let (status, out) = sys::read_front(call, body);
        check(status, out.missing)?;
        let hello = ServerHello {
            version: out.version,
            random: out.random.of(body),
            session_id: out.session_id.of(body),
            cipher_suite: out.cipher_suite,
            compression_method: out.compression_method,
            extensions: out.has_extensions.then(|| out.extensions.of(body)),
        };
        Ok((hello, &body[out.next..]))
    }
}
