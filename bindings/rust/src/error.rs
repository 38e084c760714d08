//! Why no value was parsed.
use crate::sys;
use core::fmt;

/// Why no value was parsed.
#[derive(Clone, Copy, Debug, PartialEq, Eq, Hash)]
pub enum Error {
    /// The part being parsed is truncated. After the missing bytes, more may be needed.
    Incomplete {
        /// How many bytes are missing, at least 1.
        missing: usize,
    },
    /// The bytes break a rule.
    Refused(Kind),
}

/// The kind of rule that the bytes break.
#[derive(Clone, Copy, Debug, PartialEq, Eq, Hash)]
pub enum Kind {
    /// A length is above its record's limit.
    TooLarge,
    /// A length doesn't fit what it counts.
    LengthValue,
    /// A value breaks its rule.
    Verify,
    /// A type isn't parsed.
    Switch,
    /// A fixed tag differs.
    Tag,
    /// Bytes are missing, and no more bytes could help.
    Complete,
}

impl fmt::Display for Kind {
    fn fmt(&self, f: &mut fmt::Formatter<'_>) -> fmt::Result {
        f.write_str(match self {
            Kind::TooLarge => "a length is too large",
            Kind::LengthValue => "a length doesn't fit what it counts",
            Kind::Verify => "a value breaks its rule",
            Kind::Switch => "a type that isn't read",
            Kind::Tag => "a fixed tag differs",
            Kind::Complete => "bytes are missing where no further bytes could help",
        })
    }
}

impl fmt::Display for Error {
    fn fmt(&self, f: &mut fmt::Formatter<'_>) -> fmt::Result {
        match self {
            Error::Incomplete { .. } => f.write_str("more bytes are needed"),
            Error::Refused(kind) => kind.fmt(f),
        }
    }
}

impl core::error::Error for Error {}

/// The error of a status; `Ok` if a value was read.
pub(crate) fn check(status: u32, missing: usize) -> Result<(), Error> {
    Err(match status {
        sys::READ => return Ok(()),
        sys::INCOMPLETE => Error::Incomplete { missing },
        sys::TOO_LARGE => Error::Refused(Kind::TooLarge),
        sys::LENGTH_VALUE => Error::Refused(Kind::LengthValue),
        sys::VERIFY => Error::Refused(Kind::Verify),
        sys::SWITCH => Error::Refused(Kind::Switch),
        sys::TAG => Error::Refused(Kind::Tag),
        // No call of this crate passes an offset past the end, and `is_found` handles `NONE`.
        _ => Error::Refused(Kind::Complete),
    })
}

/// Whether a lookup found something, or the error of its status.
pub(crate) fn is_found(status: u32, missing: usize) -> Result<bool, Error> {
    if status == sys::NONE {
        return Ok(false);
    }
    check(status, missing).map(|()| true)
}
