//! Fingerprints of hellos.
use crate::error::{check, Error};
use crate::sys;
use core::fmt;
use core::ops::Deref;

/// A fingerprint of `N` ASCII characters. It dereferences to `str`.
#[derive(Clone, Copy, PartialEq, Eq, Hash, PartialOrd, Ord)]
pub struct Fingerprint<const N: usize>([u8; N]);

impl<const N: usize> Fingerprint<N> {
    /// The fingerprint as text.
    pub fn as_str(&self) -> &str {
        // The library writes only ASCII, so the default is never used.
        core::str::from_utf8(&self.0).unwrap_or("")
    }
}

impl<const N: usize> Deref for Fingerprint<N> {
    type Target = str;

    fn deref(&self) -> &str {
        self.as_str()
    }
}

impl<const N: usize> fmt::Display for Fingerprint<N> {
    fn fmt(&self, f: &mut fmt::Formatter<'_>) -> fmt::Result {
        f.pad(self.as_str())
    }
}

impl<const N: usize> fmt::Debug for Fingerprint<N> {
    fn fmt(&self, f: &mut fmt::Formatter<'_>) -> fmt::Result {
        fmt::Debug::fmt(self.as_str(), f)
    }
}

fn fingerprint<const N: usize>(call: sys::WriteFingerprint, body: &[u8]) -> Result<Fingerprint<N>, Error> {
    let (mut text, mut missing) = ([0; N], 0);
    // SAFETY: the first pointer and length are those of a slice, the second those of an array of N
    // bytes.
    let status = unsafe { call(body.as_ptr(), body.len(), text.as_mut_ptr(), N, &mut missing) };
    check(status, missing).map(|()| Fingerprint(text))
}

/// JA3 of a ClientHello, from its body: the MD5 of its version, cipher suites, extension types,
/// groups and point formats.
///
/// # Errors
/// Those of [`crate::ClientHello::read`].
pub fn ja3(body: &[u8]) -> Result<Fingerprint<32>, Error> {
    fingerprint(sys::wispuddera_ja3, body)
}

/// JA3 of a DTLS ClientHello, from its body.
///
/// # Errors
/// Those of [`crate::DtlsClientHello::read`].
pub fn dtls_ja3(body: &[u8]) -> Result<Fingerprint<32>, Error> {
    fingerprint(sys::wispuddera_dtls_ja3, body)
}

/// JA3S of a ServerHello, from its body: the MD5 of its version, cipher suite and extension types.
///
/// # Errors
/// Those of [`crate::ServerHello::read`].
pub fn ja3s(body: &[u8]) -> Result<Fingerprint<32>, Error> {
    fingerprint(sys::wispuddera_ja3s, body)
}

/// JA3S of a DTLS ServerHello of any version, from its body.
///
/// # Errors
/// Those of [`crate::ServerHello::read_dtls`].
pub fn dtls_ja3s(body: &[u8]) -> Result<Fingerprint<32>, Error> {
    fingerprint(sys::wispuddera_dtls_ja3s, body)
}

/// JA4 of a ClientHello over TCP, from its body.
///
/// # Errors
/// Those of [`crate::ClientHello::read`].
///
/// ```
/// let body = [
///     3, 3, // version
///     1, 2, 3, 4, 5, 6, 7, 8, 9, 10, 11, 12, 13, 14, 15, 16, // random
///     17, 18, 19, 20, 21, 22, 23, 24, 25, 26, 27, 28, 29, 30, 31, 32,
///     0, 0, 2, 0x13, 1, 1, 0, // no session id, a suite, a method
/// ];
/// assert_eq!(&*wispuddera::ja4(&body).unwrap(), "t12i010000_0f2cb44170f4_000000000000");
/// ```
pub fn ja4(body: &[u8]) -> Result<Fingerprint<36>, Error> {
    fingerprint(sys::wispuddera_ja4, body)
}

/// JA4 of a ClientHello over QUIC (RFC 9001), from its body.
///
/// # Errors
/// Those of [`crate::ClientHello::read`].
pub fn quic_ja4(body: &[u8]) -> Result<Fingerprint<36>, Error> {
    fingerprint(sys::wispuddera_quic_ja4, body)
}

/// JA4 of a DTLS ClientHello over UDP, from its body.
///
/// # Errors
/// Those of [`crate::DtlsClientHello::read`].
pub fn dtls_ja4(body: &[u8]) -> Result<Fingerprint<36>, Error> {
    fingerprint(sys::wispuddera_dtls_ja4, body)
}
