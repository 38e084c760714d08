//! A conversation, followed from the bytes of both sides.
use crate::outcome::{Event, EventKind, Outcome};
use crate::part::Message;
use crate::sys;
use core::fmt;

/// A side of a conversation.
#[derive(Clone, Copy, Debug, PartialEq, Eq, Hash)]
pub enum Side {
    /// The client: its stream goes to the server.
    Client,
    /// The server: its stream goes to the client.
    Server,
}

/// Why a side isn't read any further.
#[derive(Clone, Copy, Debug, PartialEq, Eq, Hash)]
pub enum Fault {
    /// The length of a record is above its limit.
    RecordTooLarge,
    /// The type of a record isn't one of TLS.
    UnknownType,
    /// A ChangeCipherSpec isn't one byte, 1.
    WrongChange,
    /// The length of a handshake message is above the limit.
    AboveLimit,
    /// Another record interrupts a handshake message.
    Interrupted,
}

impl Fault {
    fn of_number(number: u32) -> Self {
        match number {
            sys::TOO_LARGE => Fault::RecordTooLarge,
            sys::VERIFY => Fault::WrongChange,
            sys::ABOVE_LIMIT => Fault::AboveLimit,
            sys::INTERRUPTED => Fault::Interrupted,
            _ => Fault::UnknownType,
        }
    }
}

impl fmt::Display for Fault {
    fn fmt(&self, f: &mut fmt::Formatter<'_>) -> fmt::Result {
        f.write_str(match self {
            Fault::RecordTooLarge => "the length of a record is too large",
            Fault::UnknownType => "the type of a record is none of TLS",
            Fault::WrongChange => "a ChangeCipherSpec isn't one byte, 1",
            Fault::AboveLimit => "the length of a handshake message is above the limit",
            Fault::Interrupted => "another record interrupts the message",
        })
    }
}

/// The content of an event.
#[derive(Clone, Copy, Debug, PartialEq, Eq)]
pub enum EventContent<'a> {
    /// A handshake message in the clear, joined from its records.
    Message(Message<'a>),
    /// A ChangeCipherSpec.
    ChangeCipherSpec,
    /// An alert in the clear (RFC 5246, section 7.2).
    Alert {
        /// 1 for a warning, 2 for a fatal alert.
        level: u8,
        /// The AlertDescription.
        description: u8,
    },
    /// A heartbeat (RFC 6520): the fragment of its record.
    Heartbeat(&'a [u8]),
    /// Application data that isn't encrypted: the fragment of its record.
    ApplicationData(&'a [u8]),
    /// An encrypted record, with its header of 5 bytes.
    Encrypted(&'a [u8]),
    /// A fault, after which the side isn't read any further.
    Fault(Fault),
}

impl<'a> EventContent<'a> {
    /// The content of an event whose bytes are `content`.
    fn of(event: &sys::EventContent, content: &'a [u8]) -> Self {
        match event.form {
            0 => EventContent::Message(Message { kind: content[0], body: &content[4..] }),
            1 => EventContent::ChangeCipherSpec,
            2 => EventContent::Alert { level: content[0], description: content[1] },
            3 => EventContent::Heartbeat(&content[5..]),
            4 => EventContent::ApplicationData(&content[5..]),
            5 => EventContent::Encrypted(content),
            _ => EventContent::Fault(Fault::of_number(event.fault)),
        }
    }
}

/// An event of a conversation.
#[derive(Clone, Copy, Debug, PartialEq, Eq)]
pub struct ConversationEvent<'a> {
    /// Its kind and direction, on which the outcome depends.
    pub event: Event,
    /// Its content.
    pub content: EventContent<'a>,
}

/// The event that ended a handshake without success.
#[derive(Clone, Copy, Debug, PartialEq, Eq, Hash)]
pub struct Stop {
    /// How many events of both sides came before it.
    pub events_before: u64,
    /// The event.
    pub event: Event,
    /// Its description, if it is an alert in the clear.
    pub alert: Option<u8>,
}

/// A piece doesn't fit in the buffer of its side, which is unchanged.
#[derive(Clone, Copy, Debug, PartialEq, Eq, Hash)]
pub struct NoRoom;

impl fmt::Display for NoRoom {
    fn fmt(&self, f: &mut fmt::Formatter<'_>) -> fmt::Result {
        f.write_str("the buffer is too short")
    }
}

impl core::error::Error for NoRoom {}

/// Follows both sides of a TLS conversation, from pieces of their streams in the order of their
/// arrival.
///
/// Each side has a buffer, which is an array, a vector or a slice, for the bytes of events that
/// weren't returned yet. If all events are taken before the next piece, these are at most a message
/// with its header of 4 bytes, and a record of up to 18437 bytes. So each piece fits in a buffer of
/// 4 + limit + 18437 bytes, plus the length of the longest piece.
///
/// ```
/// use wispuddera::{Conversation, Event, EventContent, EventKind, Outcome, Side};
///
/// let mut conversation = Conversation::with_limit(1000, [0; 20000], [0; 20000]);
/// conversation.feed(Side::Client, &[0x15, 3, 3, 0, 2, 2, 40])?;
/// let next = conversation.next_event(Side::Client).unwrap();
/// assert_eq!(next.content, EventContent::Alert { level: 2, description: 40 });
/// assert_eq!(next.event, Event::new(EventKind::Fatal, true));
/// assert_eq!(conversation.outcome(), Outcome::BrokenOff);
/// # Ok::<(), wispuddera::NoRoom>(())
/// ```
#[derive(Clone, Debug)]
pub struct Conversation<B> {
    client: B,
    server: B,
    state: sys::Conversation,
}

impl<B: AsRef<[u8]> + AsMut<[u8]>> Conversation<B> {
    /// The limit of [`Conversation::new`] for the body of a handshake message: 131072 bytes.
    pub const LIMIT: usize = 131072;

    /// Begins an empty conversation over a buffer for each side, with the limit
    /// [`Conversation::LIMIT`].
    pub fn new(client: B, server: B) -> Self {
        Conversation::with_limit(Self::LIMIT, client, server)
    }

    /// Begins an empty conversation, where the body of a handshake message may have at most `limit`
    /// bytes.
    pub fn with_limit(limit: usize, client: B, server: B) -> Self {
        let mut state = sys::Conversation::default();
        // SAFETY: the pointer is from a mutable reference.
        unsafe { sys::wispuddera_conversation_start(&mut state, limit) };
        Conversation { client, server, state }
    }

    /// The buffer of a side, the conversation, and whether the side's stream goes to the server.
    fn parts(&mut self, side: Side) -> (&mut [u8], &mut sys::Conversation, bool) {
        match side {
            Side::Client => (self.client.as_mut(), &mut self.state, true),
            Side::Server => (self.server.as_mut(), &mut self.state, false),
        }
    }

    /// Appends a piece of a side's stream to its buffer. After a fault of that side the piece is
    /// dropped.
    ///
    /// # Errors
    /// [`NoRoom`] if the side's buffer is too short for the piece. Nothing has changed then:
    /// shorter pieces may fit, if the events are taken in between.
    pub fn feed(&mut self, side: Side, piece: &[u8]) -> Result<(), NoRoom> {
        let (buffer, state, to_server) = self.parts(side);
        // SAFETY: the pointers and lengths are those of slices. The buffer and the conversation are
        // borrowed mutably, so they overlap nothing else.
        let status =
            unsafe { sys::wispuddera_conversation_feed(buffer.as_mut_ptr(), buffer.len(), state, to_server, piece.as_ptr(), piece.len()) };
        if status == sys::READ {
            Ok(())
        } else {
            Err(NoRoom)
        }
    }

    /// Returns a side's next event, removes it from the buffer, and follows it; `None` if more
    /// bytes are needed, or if a fault ended the side. Call it until `None` after each piece, so
    /// that the events of both sides are followed in order.
    pub fn next_event(&mut self, side: Side) -> Option<ConversationEvent<'_>> {
        let (buffer, state, to_server) = self.parts(side);
        let mut next = sys::EventContent::default();
        // SAFETY: as in `feed`; `next` is initialized.
        let status = unsafe { sys::wispuddera_conversation_next(buffer.as_mut_ptr(), buffer.len(), state, to_server, &mut next) };
        if status != sys::READ {
            return None;
        }
        let event = Event::new(EventKind::of_number(next.kind), to_server);
        Some(ConversationEvent { event, content: EventContent::of(&next, next.content.of(buffer)) })
    }

    /// The outcome by all events that were returned, as [`outcome`](crate::outcome()) has it.
    pub fn outcome(&self) -> Outcome {
        // SAFETY: the pointer is from a reference.
        Outcome::of_number(unsafe { sys::wispuddera_conversation_outcome(&self.state) })
    }

    /// What ended the handshake, if the outcome is [`Outcome::BrokenOff`], [`Outcome::Unknown`] or
    /// [`Outcome::NoHandshake`]; else `None`.
    pub fn stop(&self) -> Option<Stop> {
        let mut stop = sys::Stop::default();
        // SAFETY: as in `outcome`; `stop` is initialized.
        let status = unsafe { sys::wispuddera_conversation_stop(&self.state, &mut stop) };
        (status == sys::READ).then(|| Stop {
            events_before: stop.events_before,
            event: Event::new(EventKind::of_number(stop.event.kind), stop.event.to_server),
            alert: stop.is_alert.then_some(stop.alert),
        })
    }

    /// Whether the visible part of the handshake is complete. In TLS 1.3 it ends with the
    /// ServerHello.
    pub fn is_established(&self) -> bool {
        // SAFETY: as in `outcome`.
        unsafe { sys::wispuddera_conversation_established(&self.state) }
    }

    /// Whether a session was resumed; in TLS 1.3, by the ServerHello's pre_shared_key (RFC 8446,
    /// section 4.2.11).
    pub fn is_resumed(&self) -> bool {
        // SAFETY: as in `outcome`.
        unsafe { sys::wispuddera_conversation_resumed(&self.state) }
    }
}
