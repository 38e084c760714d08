//! Lists of numbers: cipher suites, versions, groups, signature schemes.
use crate::error::{check, is_found, Error};
use crate::sys;
use core::fmt;
use core::iter::FusedIterator;

/// A list of 2-byte numbers, parsed in place. It is its own iterator; a clone continues at the same
/// number.
#[derive(Clone)]
pub struct Numbers<'a> {
    call: sys::ReadAt<sys::Number>,
    bytes: &'a [u8],
    next: usize,
    count: usize,
}

impl<'a> Numbers<'a> {
    /// The numbers that `call` reads by index.
    pub(crate) fn new(call: sys::ReadAt<sys::Number>, bytes: &'a [u8]) -> Result<Self, Error> {
        let mut numbers = Numbers { call, bytes, next: 0, count: 0 };
        let (status, first) = numbers.read(0);
        is_found(status, first.missing)?;
        numbers.count = first.count;
        Ok(numbers)
    }

    fn read(&self, index: usize) -> (u32, sys::Number) {
        let mut out = sys::Number::default();
        // SAFETY: the pointer and the length are those of a slice; `out` is initialized.
        let status = unsafe { (self.call)(self.bytes.as_ptr(), self.bytes.len(), index, &mut out) };
        (status, out)
    }

    /// The number at this index of those that are left; `None` past the last.
    pub fn get(&self, index: usize) -> Option<u16> {
        let (status, out) = self.read(self.next.checked_add(index)?);
        (status == sys::READ).then_some(out.value)
    }
}

impl Iterator for Numbers<'_> {
    type Item = u16;

    fn next(&mut self) -> Option<u16> {
        let value = self.get(0)?;
        self.next += 1;
        Some(value)
    }

    fn size_hint(&self) -> (usize, Option<usize>) {
        let left = self.count.saturating_sub(self.next);
        (left, Some(left))
    }
}

impl ExactSizeIterator for Numbers<'_> {}
impl FusedIterator for Numbers<'_> {}

impl fmt::Debug for Numbers<'_> {
    fn fmt(&self, f: &mut fmt::Formatter<'_>) -> fmt::Result {
        f.debug_list().entries(self.clone()).finish()
    }
}

/// The versions in the content of a supported_versions of either hello (RFC 8446, section 4.2.1).
///
/// # Errors
/// If the content is truncated, or its length prefix doesn't fit.
pub fn versions(content: &[u8]) -> Result<Numbers<'_>, Error> {
    Numbers::new(sys::wispuddera_version_at, content)
}

/// The groups in the content of a supported_groups (RFC 8446, section 4.2.7).
///
/// # Errors
/// If the content is truncated, or its length prefix doesn't fit.
pub fn groups(content: &[u8]) -> Result<Numbers<'_>, Error> {
    Numbers::new(sys::wispuddera_group_at, content)
}

/// The signature schemes in the content of a signature_algorithms (RFC 8446, section 4.2.3). An odd
/// last byte is ignored.
///
/// # Errors
/// [`Error::Incomplete`] if the content is truncated.
pub fn signature_schemes(content: &[u8]) -> Result<Numbers<'_>, Error> {
    Numbers::new(sys::wispuddera_signature_scheme_at, content)
}

/// The best version of a hello with this version field and block of extensions (RFC 8446, section
/// 4.2.1).
///
/// That is the latest version in the block's first supported_versions: the highest number, or for
/// DTLS the lowest. GREASE values (RFC 8701) are skipped; `None` if there are no others. Without
/// such an extension it is `version`.
///
/// # Errors
/// If an extension up to supported_versions is truncated, or any extension without that one; if its
/// content is malformed.
pub fn best_version(version: u16, block: &[u8]) -> Result<Option<u16>, Error> {
    let mut out = sys::Number::default();
    // SAFETY: the pointer and the length are those of a slice; `out` is initialized.
    let status = unsafe { sys::wispuddera_best_version(block.as_ptr(), block.len(), version, &mut out) };
    if status == sys::NONE {
        return Ok(None);
    }
    check(status, out.missing)?;
    Ok(Some(out.value))
}
