//! Whether bytes are TLS.

use crate::sys;

/// Whether a stream begins as TLS: with a record's header (RFC 8446, section 5.1) that has a type
/// from 20 to 24, the major version 3 and a length of at most 16640. `None` if there are fewer than
/// 5 bytes, too few to decide.
///
/// Call it before you wait for the rest of a record: the calls that read records refuse no type and
/// no version.
///
/// ```
/// use wispuddera::looks_like_tls;
///
/// assert_eq!(looks_like_tls(&[22, 3, 1, 2, 0]), Some(true));
/// assert_eq!(looks_like_tls(b"GET / HTTP/1.0"), Some(false));
/// assert_eq!(looks_like_tls(&[22, 3, 1]), None);
/// ```
pub fn looks_like_tls(bytes: &[u8]) -> Option<bool> {
    // SAFETY: the pointer and the length are those of a slice.
    match unsafe { sys::wispuddera_looks_like_tls(bytes.as_ptr(), bytes.len()) } {
        sys::READ => Some(true),
        sys::NONE => Some(false),
        _ => None,
    }
}
