//! X.509 certificates (RFC 5280), in DER. Nothing is verified.
use crate::error::{check, Error};
use crate::part::{Items, Read};
use crate::sys;

/// The object identifier of subjectAltName, 2.5.29.17, without its tag and its length.
pub const SUBJECT_ALT_NAME: &[u8] = &[0x55, 0x1d, 0x11];

/// The kind of a certificate's key.
#[derive(Clone, Copy, Debug, PartialEq, Eq)]
pub enum PublicKey<'a> {
    /// An RSA key, for any padding or for PSS only.
    Rsa {
        /// The bit length of its modulus.
        bits: u32,
    },
    /// An elliptic curve key on a named curve.
    Ec {
        /// The curve's object identifier, without its tag and its length.
        curve: &'a [u8],
    },
    /// An Ed25519 key.
    Ed25519,
    /// An Ed448 key.
    Ed448,
    /// A key of another algorithm.
    Other,
    /// A malformed RSAPublicKey, or a curve without a name.
    Refused,
}

/// A certificate (RFC 5280, section 4.1). Its object identifiers are without their tag and length.
#[derive(Clone, Copy, Debug, PartialEq, Eq)]
pub struct X509<'a> {
    /// The version minus 1, as encoded: 2 for v3.
    pub version: u8,
    /// The bytes that are signed, with their tag and their length.
    pub signed_bytes: &'a [u8],
    /// The serial number, in two's complement, the most significant byte first.
    pub serial_number: &'a [u8],
    /// The algorithm of the signature: an object identifier.
    pub signature_algorithm: &'a [u8],
    /// The issuer's name, with its tag and its length.
    pub issuer: &'a [u8],
    /// The subject's name, with its tag and its length.
    pub subject: &'a [u8],
    /// The first second of its validity, since 1970-01-01 00:00:00 UTC.
    pub not_before: i64,
    /// The last second of its validity, since 1970-01-01 00:00:00 UTC.
    pub not_after: i64,
    /// The algorithm of the key: an object identifier.
    pub key_algorithm: &'a [u8],
    /// The kind of the key.
    pub key: PublicKey<'a>,
    /// The key, without the count of its unused bits.
    pub public_key: &'a [u8],
    /// The extensions, for [`x509_extensions`]; empty if there are none.
    pub extensions: &'a [u8],
    /// The signature, without the count of its unused bits.
    pub signature: &'a [u8],
}

impl<'a> X509<'a> {
    /// Returns the certificate at the front, and the bytes after it. Names and extensions aren't
    /// checked before they are iterated over.
    ///
    /// # Errors
    /// If it is truncated, or breaks a rule of its structure.
    pub fn read(bytes: &'a [u8]) -> Result<(Self, &'a [u8]), Error> {
        let (status, out) = sys::read_front(sys::wispuddera_read_x509, bytes);
        check(status, out.missing)?;
        let key = match out.key_kind {
            1 => PublicKey::Rsa { bits: out.key_bits },
            2 => PublicKey::Ec { curve: out.key_parameters.of(bytes) },
            3 => PublicKey::Ed25519,
            4 => PublicKey::Ed448,
            5 => PublicKey::Other,
            _ => PublicKey::Refused,
        };
        let certificate = X509 {
            version: out.version,
            signed_bytes: out.signed_bytes.of(bytes),
            serial_number: out.serial_number.of(bytes),
            signature_algorithm: out.signature_algorithm.of(bytes),
            issuer: out.issuer.of(bytes),
            subject: out.subject.of(bytes),
            not_before: out.not_before,
            not_after: out.not_after,
            key_algorithm: out.key_algorithm.of(bytes),
            key,
            public_key: out.public_key.of(bytes),
            extensions: out.extensions.of(bytes),
            signature: out.signature.of(bytes),
        };
        Ok((certificate, &bytes[out.next..]))
    }

    /// The names in its first subjectAltName (RFC 5280, section 4.2.1.6); `None` if it has none.
    ///
    /// # Errors
    /// If an extension up to it is truncated or malformed, or its value isn't a list.
    pub fn names(&self) -> Result<Option<Items<'a, X509Name<'a>>>, Error> {
        for extension in x509_extensions(self.extensions) {
            let extension = extension?;
            if extension.oid == SUBJECT_ALT_NAME {
                return x509_names(extension.value).map(Some);
            }
        }
        Ok(None)
    }
}

/// An extension of a certificate (RFC 5280, section 4.2).
#[derive(Clone, Copy, Debug, PartialEq, Eq)]
pub struct X509Extension<'a> {
    /// Its type: an object identifier, without its tag and its length.
    pub oid: &'a [u8],
    /// Whether a receiver that doesn't know it must reject the certificate.
    pub critical: bool,
    /// Its value, in DER.
    pub value: &'a [u8],
}

impl<'a> Read<'a> for X509Extension<'a> {
    fn read(bytes: &'a [u8]) -> Result<(Self, &'a [u8]), Error> {
        let (status, out) = sys::read_at(sys::wispuddera_read_x509_extension, bytes);
        check(status, out.missing)?;
        let extension = X509Extension { oid: out.oid.of(bytes), critical: out.critical, value: out.value.of(bytes) };
        Ok((extension, &bytes[out.next..]))
    }
}

/// Iterates over the extensions of a certificate (RFC 5280, section 4.2).
pub fn x509_extensions(extensions: &[u8]) -> Items<'_, X509Extension<'_>> {
    Items::new(extensions)
}

/// A name of a subject or an issuer (RFC 5280, section 4.2.1.6). Text is returned as its bytes.
#[derive(Clone, Copy, Debug, PartialEq, Eq)]
pub enum X509Name<'a> {
    /// An email address.
    Email(&'a [u8]),
    /// A DNS name.
    Dns(&'a [u8]),
    /// A URI.
    Uri(&'a [u8]),
    /// An IP address: 4 or 16 bytes, if it is valid.
    Ip(&'a [u8]),
    /// Another kind of name, with the tag of its element.
    Other {
        /// The tag, such as 0xa0 of an otherName or 0xa4 of a directoryName.
        tag: u8,
        /// The element's content.
        content: &'a [u8],
    },
}

impl<'a> Read<'a> for X509Name<'a> {
    fn read(bytes: &'a [u8]) -> Result<(Self, &'a [u8]), Error> {
        let (status, out) = sys::read_at(sys::wispuddera_read_x509_name, bytes);
        check(status, out.missing)?;
        let content = out.content.of(bytes);
        let name = match out.kind {
            0x81 => X509Name::Email(content),
            0x82 => X509Name::Dns(content),
            0x86 => X509Name::Uri(content),
            0x87 => X509Name::Ip(content),
            tag => X509Name::Other { tag: tag as u8, content },
        };
        Ok((name, &bytes[out.next..]))
    }
}

/// Iterates over the names in the value of a subjectAltName or an issuerAltName (RFC 5280, section
/// 4.2.1.6).
///
/// # Errors
/// If the value is truncated, or isn't a list.
pub fn x509_names(value: &[u8]) -> Result<Items<'_, X509Name<'_>>, Error> {
    let (status, out) = sys::read_front(sys::wispuddera_find_x509_names, value);
    check(status, out.missing)?;
    Ok(Items::new(out.place.of(value)))
}
