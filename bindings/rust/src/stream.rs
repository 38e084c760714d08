//! Streams that arrive in pieces, reassembled in a buffer of the caller.
use crate::error::{check, Error};
use crate::part::{Message, Record};
use crate::sys;

/// The unread bytes, at a place in the buffer.
#[derive(Clone, Debug)]
struct Held<B> {
    buffer: B,
    place: sys::Place,
}

impl<B: AsRef<[u8]> + AsMut<[u8]>> Held<B> {
    fn new(buffer: B) -> Self {
        Held { buffer, place: sys::Place::default() }
    }

    fn feed(&mut self, piece: &[u8]) -> usize {
        let (buffer, mut taken) = (self.buffer.as_mut(), 0);
        // SAFETY: the pointers and lengths are those of slices. The buffer is borrowed mutably, so
        // it overlaps nothing else.
        unsafe {
            sys::wispuddera_feed(buffer.as_mut_ptr(), buffer.len(), &mut self.place, piece.as_ptr(), piece.len(), &mut taken);
        }
        taken
    }

    /// Removes the item at the front of the buffered bytes. Returns the buffer, and the item's
    /// struct, whose places refer to it; `None` if the item isn't complete.
    fn take<T: Default>(&mut self, call: sys::Take<T>, missing: fn(&T) -> usize) -> Result<Option<(&[u8], T)>, Error> {
        let (buffer, mut out) = (self.buffer.as_ref(), T::default());
        // SAFETY: the pointer and the length are those of a slice; the place and `out` are
        // initialized.
        let status = unsafe { call(buffer.as_ptr(), buffer.len(), &mut self.place, &mut out) };
        match check(status, missing(&out)) {
            Ok(()) => Ok(Some((buffer, out))),
            Err(Error::Incomplete { .. }) => Ok(None),
            Err(e) => Err(e),
        }
    }
}

/// The length of the longest record: a header of 5 bytes, and a fragment of 16640.
pub const RECORD_ROOM: usize = 16645;

/// The records of one direction, from pieces of any length. A buffer of [`RECORD_ROOM`] bytes has
/// room for each record that isn't refused.
///
/// ```
/// use wispuddera::{RecordStream, RECORD_ROOM};
///
/// let mut stream = RecordStream::new([0; RECORD_ROOM]);
/// let bytes = [0x15, 3, 3, 0, 2, 1, 0, 0x15, 3, 3, 0, 2, 2, 40];
/// let mut alerts = 0;
/// for piece in bytes.chunks(3) {
///     assert_eq!(stream.feed(piece), piece.len());
///     while let Some(record) = stream.next_record()? {
///         assert_eq!(record.fragment.len(), 2);
///         alerts += 1;
///     }
/// }
/// assert_eq!(alerts, 2);
/// # Ok::<(), wispuddera::Error>(())
/// ```
#[derive(Clone, Debug)]
pub struct RecordStream<B> {
    held: Held<B>,
}

impl<B: AsRef<[u8]> + AsMut<[u8]>> RecordStream<B> {
    /// Begins an empty stream over a buffer: an array, a vector or a slice.
    pub fn new(buffer: B) -> Self {
        RecordStream { held: Held::new(buffer) }
    }

    /// Appends as much of the piece as there is room for, and returns how many bytes that is: 0 if
    /// the buffer is full. Take the complete records, and feed the rest.
    pub fn feed(&mut self, piece: &[u8]) -> usize {
        self.held.feed(piece)
    }

    /// The number of buffered bytes.
    pub fn held(&self) -> usize {
        self.held.place.length
    }

    /// Removes and returns the first buffered record (RFC 5246, section 6.2.1); `None` if it isn't
    /// complete.
    ///
    /// # Errors
    /// [`Error::Refused`] if its length is above 16640, and again at each later call.
    pub fn next_record(&mut self) -> Result<Option<Record<'_>>, Error> {
        let taken = self.held.take(sys::wispuddera_next_record, |out| out.missing)?;
        Ok(taken.map(|(buffer, out)| Record { content_type: out.content_type, version: out.version, fragment: out.fragment.of(buffer) }))
    }
}

/// Handshake messages, reassembled from the fragments of records. If a message is longer than the
/// buffer, `feed` takes no more bytes, and the message never completes.
#[derive(Clone, Debug)]
pub struct MessageStream<B> {
    held: Held<B>,
}

impl<B: AsRef<[u8]> + AsMut<[u8]>> MessageStream<B> {
    /// Begins an empty stream over a buffer: an array, a vector or a slice.
    pub fn new(buffer: B) -> Self {
        MessageStream { held: Held::new(buffer) }
    }

    /// Appends as much of the fragment as there is room for, and returns how many bytes that is: 0
    /// if the buffer is full. Take the complete messages, and feed the rest.
    pub fn feed(&mut self, fragment: &[u8]) -> usize {
        self.held.feed(fragment)
    }

    /// The number of buffered bytes.
    pub fn held(&self) -> usize {
        self.held.place.length
    }

    /// Removes and returns the first buffered message (RFC 5246, section 7.4); `None` if it isn't
    /// complete.
    ///
    /// # Errors
    /// [`Error::Refused`] if it breaks a rule, and again at each later call.
    pub fn next_message(&mut self) -> Result<Option<Message<'_>>, Error> {
        let taken = self.held.take(sys::wispuddera_next_message, |out| out.missing)?;
        Ok(taken.map(|(buffer, out)| Message { kind: out.kind as u8, body: out.content.of(buffer) }))
    }
}
