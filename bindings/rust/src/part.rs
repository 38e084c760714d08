//! Records, and parts with a length: handshake messages, extensions, key shares, protocol names,
//! certificates.
use crate::error::{check, is_found, Error};
use crate::sys;
use core::iter::FusedIterator;
use core::marker::PhantomData;

/// An item that is parsed from the front of bytes. [`Items`] iterates over a sequence of them.
pub trait Read<'a>: Sized {
    /// Returns the item at the front, and the bytes after it.
    ///
    /// # Errors
    /// [`Error::Incomplete`] if it is truncated, or there are no bytes; [`Error::Refused`] if it
    /// breaks a rule.
    fn read(bytes: &'a [u8]) -> Result<(Self, &'a [u8]), Error>;
}

/// Iterates over the items in bytes, up to their end or the first error, which it returns last.
#[derive(Clone, Debug)]
pub struct Items<'a, T> {
    rest: &'a [u8],
    is_over: bool,
    item: PhantomData<T>,
}

impl<'a, T: Read<'a>> Items<'a, T> {
    pub(crate) fn new(bytes: &'a [u8]) -> Self {
        Items { rest: bytes, is_over: false, item: PhantomData }
    }

    /// The bytes that weren't parsed yet; after an error, from the item that caused it.
    pub fn rest(&self) -> &'a [u8] {
        self.rest
    }
}

impl<'a, T: Read<'a>> Iterator for Items<'a, T> {
    type Item = Result<T, Error>;

    fn next(&mut self) -> Option<Self::Item> {
        if self.is_over || self.rest.is_empty() {
            return None;
        }
        Some(match T::read(self.rest) {
            Ok((item, rest)) => {
                self.rest = rest;
                Ok(item)
            }
            Err(e) => {
                self.is_over = true;
                Err(e)
            }
        })
    }
}

impl<'a, T: Read<'a>> FusedIterator for Items<'a, T> {}

/// A record (RFC 5246, section 6.2.1).
#[derive(Clone, Copy, Debug, PartialEq, Eq)]
pub struct Record<'a> {
    /// The content type: 22 for handshake messages.
    pub content_type: u8,
    /// The version field.
    pub version: u16,
    /// The fragment.
    pub fragment: &'a [u8],
}

impl<'a> Read<'a> for Record<'a> {
    fn read(bytes: &'a [u8]) -> Result<(Self, &'a [u8]), Error> {
        let (status, out) = sys::read_at(sys::wispuddera_read_record, bytes);
        check(status, out.missing)?;
        let record = Record { content_type: out.content_type, version: out.version, fragment: out.fragment.of(bytes) };
        Ok((record, &bytes[out.next..]))
    }
}

/// Iterates over the records in these bytes (RFC 5246, section 6.2.1).
pub fn records(bytes: &[u8]) -> Items<'_, Record<'_>> {
    Items::new(bytes)
}

/// A part's kind and content, and the bytes after it.
type Parts<'a> = (u16, &'a [u8], &'a [u8]);

fn part(call: sys::ReadAt<sys::Part>, bytes: &[u8]) -> Result<Parts<'_>, Error> {
    let (status, out) = sys::read_at(call, bytes);
    check(status, out.missing)?;
    Ok((out.kind, out.content.of(bytes), &bytes[out.next..]))
}

/// A handshake message (RFC 5246, section 7.4).
#[derive(Clone, Copy, Debug, PartialEq, Eq)]
pub struct Message<'a> {
    /// The HandshakeType: 1 for a ClientHello.
    pub kind: u8,
    /// The body.
    pub body: &'a [u8],
}

impl<'a> Read<'a> for Message<'a> {
    fn read(bytes: &'a [u8]) -> Result<(Self, &'a [u8]), Error> {
        let (kind, body, rest) = part(sys::wispuddera_read_message, bytes)?;
        Ok((Message { kind: kind as u8, body }, rest))
    }
}

/// Iterates over the handshake messages in a record's fragment (RFC 5246, section 7.4).
pub fn messages(fragment: &[u8]) -> Items<'_, Message<'_>> {
    Items::new(fragment)
}

/// An extension (RFC 8446, section 4.2).
#[derive(Clone, Copy, Debug, PartialEq, Eq)]
pub struct Extension<'a> {
    /// The ExtensionType.
    pub kind: u16,
    /// The content.
    pub content: &'a [u8],
}

impl<'a> Read<'a> for Extension<'a> {
    fn read(bytes: &'a [u8]) -> Result<(Self, &'a [u8]), Error> {
        let (kind, content, rest) = part(sys::wispuddera_read_extension, bytes)?;
        Ok((Extension { kind, content }, rest))
    }
}

/// Iterates over the extensions in a block of extensions (RFC 8446, section 4.2).
pub fn extensions(block: &[u8]) -> Items<'_, Extension<'_>> {
    Items::new(block)
}

/// A key share (RFC 8446, section 4.2.8). The content of a ServerHello's key_share is one.
#[derive(Clone, Copy, Debug, PartialEq, Eq)]
pub struct KeyShare<'a> {
    /// The NamedGroup.
    pub group: u16,
    /// The public value.
    pub value: &'a [u8],
}

impl<'a> Read<'a> for KeyShare<'a> {
    fn read(bytes: &'a [u8]) -> Result<(Self, &'a [u8]), Error> {
        let (group, value, rest) = part(sys::wispuddera_read_key_share, bytes)?;
        Ok((KeyShare { group, value }, rest))
    }
}

/// Iterates over the key shares in the content of a ClientHello's key_share (RFC 8446, section
/// 4.2.8).
///
/// # Errors
/// [`Error::Incomplete`] if the content is shorter than its length prefix.
pub fn key_shares(content: &[u8]) -> Result<Items<'_, KeyShare<'_>>, Error> {
    let (status, out) = sys::read_front(sys::wispuddera_find_key_shares, content);
    check(status, out.missing)?;
    Ok(Items::new(out.place.of(content)))
}

/// A protocol name (RFC 7301, section 3.1).
#[derive(Clone, Copy, Debug, PartialEq, Eq)]
pub struct Protocol<'a> {
    /// The name.
    pub name: &'a [u8],
}

impl<'a> Read<'a> for Protocol<'a> {
    fn read(bytes: &'a [u8]) -> Result<(Self, &'a [u8]), Error> {
        let (_, name, rest) = part(sys::wispuddera_read_protocol, bytes)?;
        Ok((Protocol { name }, rest))
    }
}

/// Iterates over the protocol names in a block of extensions (RFC 7301, section 3.1); `None` if
/// there is no such extension.
///
/// # Errors
/// If an extension up to theirs is truncated, or its content is shorter than its length prefix.
pub fn protocols(block: &[u8]) -> Result<Option<Items<'_, Protocol<'_>>>, Error> {
    let (status, out) = sys::read_front(sys::wispuddera_find_protocols, block);
    Ok(is_found(status, out.missing)?.then(|| Items::new(out.place.of(block))))
}

/// A certificate.
#[derive(Clone, Copy, Debug, PartialEq, Eq)]
pub struct Certificate<'a> {
    /// The certificate, in DER.
    pub der: &'a [u8],
}

impl<'a> Read<'a> for Certificate<'a> {
    fn read(bytes: &'a [u8]) -> Result<(Self, &'a [u8]), Error> {
        let (_, der, rest) = part(sys::wispuddera_read_certificate, bytes)?;
        Ok((Certificate { der }, rest))
    }
}

/// Iterates over the certificates in the body of a Certificate up to TLS 1.2 (RFC 5246, section
/// 7.4.2).
///
/// # Errors
/// [`Error::Incomplete`] if the body is shorter than its length prefix.
pub fn certificates(body: &[u8]) -> Result<Items<'_, Certificate<'_>>, Error> {
    let (status, out) = sys::read_front(sys::wispuddera_find_certificates, body);
    check(status, out.missing)?;
    Ok(Items::new(out.place.of(body)))
}
