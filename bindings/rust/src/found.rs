//! Looking things up in records, hellos and extensions.
use crate::error::{is_found, Error};
use crate::sys;

fn found(status: u32, out: sys::Found, bytes: &[u8]) -> Result<Option<&[u8]>, Error> {
    Ok(is_found(status, out.missing)?.then(|| out.place.of(bytes)))
}

/// The host name in the first ClientHello of the first record (RFC 6066, section 3); `None` if it
/// has none, or the record isn't a handshake record.
///
/// # Errors
/// If the record, or what precedes the name, is truncated or malformed.
///
/// ```
/// use wispuddera::{server_name_of_record, Error};
///
/// let record = [
///     0x16, 3, 1, 0, 59, 1, 0, 0, 55, 3, 3, // headers and version
///     1, 2, 3, 4, 5, 6, 7, 8, 9, 10, 11, 12, 13, 14, 15, 16, // random
///     17, 18, 19, 20, 21, 22, 23, 24, 25, 26, 27, 28, 29, 30, 31, 32,
///     0, 0, 2, 0x13, 1, 1, 0, 0, 12, // no session id, a suite, a method, 12 bytes of extensions
///     0, 0, 0, 8, 0, 6, 0, 0, 3, b'a', b'.', b'b',
/// ];
/// assert_eq!(server_name_of_record(&record), Ok(Some(&b"a.b"[..])));
/// assert_eq!(server_name_of_record(&record[..60]), Err(Error::Incomplete { missing: 4 }));
/// assert_eq!(server_name_of_record(&[0x15, 3, 3, 0, 2, 1, 0]), Ok(None));
/// ```
pub fn server_name_of_record(bytes: &[u8]) -> Result<Option<&[u8]>, Error> {
    let (status, out) = sys::read_front(sys::wispuddera_find_server_name_in_record, bytes);
    found(status, out, bytes)
}

/// The host name in the body of a ClientHello (RFC 6066, section 3); `None` if it has none.
///
/// # Errors
/// If what precedes the name is truncated or malformed.
pub fn server_name_of_hello(body: &[u8]) -> Result<Option<&[u8]>, Error> {
    let (status, out) = sys::read_front(sys::wispuddera_find_server_name_in_hello, body);
    found(status, out, body)
}

/// The host name in a block of extensions: the first name in its first server_name (RFC 6066,
/// section 3); `None` if there is none.
///
/// # Errors
/// If what precedes the name is truncated or malformed.
pub fn server_name(block: &[u8]) -> Result<Option<&[u8]>, Error> {
    let (status, out) = sys::read_front(sys::wispuddera_find_server_name, block);
    found(status, out, block)
}

/// The content of the first extension of this type in a block of extensions (RFC 8446, section
/// 4.2); `None` if there is none.
///
/// # Errors
/// If an extension up to it is truncated, or any extension if there is none of this type.
pub fn find_extension(block: &[u8], kind: u16) -> Result<Option<&[u8]>, Error> {
    let mut out = sys::Found::default();
    // SAFETY: the pointer and the length are those of a slice; `out` is initialized.
    let status = unsafe { sys::wispuddera_find_extension(block.as_ptr(), block.len(), kind, &mut out) };
    found(status, out, block)
}

/// The body of the first handshake message of this type in a record's fragment (RFC 5246, section
/// 7.4); `None` if there is none.
///
/// # Errors
/// If a message up to it is truncated, or any message if there is none of this type.
pub fn find_body(fragment: &[u8], kind: u8) -> Result<Option<&[u8]>, Error> {
    let mut out = sys::Found::default();
    // SAFETY: as in `find_extension`.
    let status = unsafe { sys::wispuddera_find_body(fragment.as_ptr(), fragment.len(), kind, &mut out) };
    found(status, out, fragment)
}
