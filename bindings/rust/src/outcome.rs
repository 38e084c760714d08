//! The outcome of a conversation from its events so far.
use crate::sys;

/// The kinds of messages and records that the outcome of a conversation depends on.
#[repr(u8)]
#[derive(Clone, Copy, Debug, PartialEq, Eq, Hash)]
pub enum EventKind {
    /// A HelloRequest.
    HelloRequest = 0,
    /// A ClientHello.
    ClientHello = 1,
    /// A HelloVerifyRequest of DTLS.
    HelloVerifyRequest = 2,
    /// A ServerHello below TLS 1.3.
    ServerHello = 3,
    /// A ServerHello whose random marks a HelloRetryRequest (RFC 8446, section 4.1.3).
    HelloRetryRequest = 4,
    /// A ServerHello of TLS 1.3 or one of its drafts.
    ServerHello13 = 5,
    /// A NewSessionTicket.
    NewSessionTicket = 6,
    /// A Certificate.
    Certificate = 7,
    /// A ServerKeyExchange.
    ServerKeyExchange = 8,
    /// A CertificateRequest.
    CertificateRequest = 9,
    /// A ServerHelloDone.
    ServerDone = 10,
    /// A CertificateVerify.
    CertificateVerify = 11,
    /// A ClientKeyExchange.
    ClientKeyExchange = 12,
    /// A CertificateStatus.
    CertificateStatus = 13,
    /// A record of type 20.
    ChangeCipherSpec = 14,
    /// A record after its sender's ChangeCipherSpec, or one of type 23.
    Encrypted = 15,
    /// An alert that isn't fatal.
    Warning = 16,
    /// The alert no_certificate.
    NoCertificate = 17,
    /// A fatal alert.
    Fatal = 18,
    /// A record of type 24.
    Heartbeat = 19,
    /// Another message, which no handshake has in the clear.
    Other = 20,
    /// A record or message that is refused or unknown.
    Unknown = 21,
}

/// The kinds by their numbers.
const KINDS: [EventKind; 22] = [
    EventKind::HelloRequest,
    EventKind::ClientHello,
    EventKind::HelloVerifyRequest,
    EventKind::ServerHello,
    EventKind::HelloRetryRequest,
    EventKind::ServerHello13,
    EventKind::NewSessionTicket,
    EventKind::Certificate,
    EventKind::ServerKeyExchange,
    EventKind::CertificateRequest,
    EventKind::ServerDone,
    EventKind::CertificateVerify,
    EventKind::ClientKeyExchange,
    EventKind::CertificateStatus,
    EventKind::ChangeCipherSpec,
    EventKind::Encrypted,
    EventKind::Warning,
    EventKind::NoCertificate,
    EventKind::Fatal,
    EventKind::Heartbeat,
    EventKind::Other,
    EventKind::Unknown,
];

impl EventKind {
    pub(crate) fn of_number(number: u8) -> Self {
        KINDS.get(usize::from(number)).copied().unwrap_or(EventKind::Unknown)
    }

    /// The kind of a whole TLS handshake message in the clear with this HandshakeType and body. The
    /// body decides which kind of ServerHello it is.
    pub fn of_message(kind: u8, body: &[u8]) -> Self {
        // SAFETY: the pointer and the length are those of a slice.
        Self::of_number(unsafe { sys::wispuddera_event_of_message(body.as_ptr(), body.len(), kind) })
    }

    /// The kind of a handshake message of DTLS up to 1.2 with this HandshakeType, one for all its
    /// fragments.
    pub fn of_dtls_message(kind: u8) -> Self {
        // SAFETY: it takes only numbers.
        Self::of_number(unsafe { sys::wispuddera_event_of_dtls_message(kind) })
    }

    /// The kind of an alert in the clear (RFC 5246, section 7.2).
    pub fn of_alert(level: u8, description: u8) -> Self {
        // SAFETY: it takes only numbers.
        Self::of_number(unsafe { sys::wispuddera_event_of_alert(level, description) })
    }
}

/// An event of a side.
#[repr(C)]
#[derive(Clone, Copy, Debug, PartialEq, Eq, Hash)]
pub struct Event {
    /// Its kind.
    pub kind: EventKind,
    /// Whether it goes to the server.
    pub to_server: bool,
}

impl Event {
    /// An event of this kind and direction.
    pub fn new(kind: EventKind, to_server: bool) -> Self {
        Event { kind, to_server }
    }
}

/// The outcome of a conversation.
#[derive(Clone, Copy, Debug, PartialEq, Eq, Hash)]
pub enum Outcome {
    /// A handshake is in progress, or there were no events.
    Waiting,
    /// A full handshake is complete.
    Full,
    /// A session was resumed.
    Resumed,
    /// A fatal alert broke off a handshake.
    BrokenOff,
    /// An unknown message came during a handshake.
    Unknown,
    /// The events are no handshake, and can't become one.
    NoHandshake,
    /// A handshake of TLS 1.3 reached its ServerHello.
    Tls13 {
        /// The server requested a second ClientHello by a HelloRetryRequest.
        retried: bool,
        /// The client sent encrypted records before the ServerHello.
        early_data: bool,
    },
}

impl Outcome {
    pub(crate) fn of_number(number: u32) -> Self {
        match number {
            0 => Outcome::Waiting,
            1 => Outcome::Full,
            2 => Outcome::Resumed,
            3 => Outcome::BrokenOff,
            4 => Outcome::Unknown,
            6 => Outcome::Tls13 { retried: false, early_data: false },
            7 => Outcome::Tls13 { retried: true, early_data: false },
            8 => Outcome::Tls13 { retried: false, early_data: true },
            9 => Outcome::Tls13 { retried: true, early_data: true },
            _ => Outcome::NoHandshake,
        }
    }
}

/// The outcome of a conversation with these events (RFC 5246, section 7.3; RFC 8446, section 2; RFC
/// 6347, section 4.2). Once it isn't [`Outcome::Waiting`], no event changes it.
///
/// ```
/// use wispuddera::{outcome, Event, EventKind, Outcome};
///
/// let hello = Event::new(EventKind::ClientHello, true);
/// assert_eq!(outcome(&[hello]), Outcome::Waiting);
/// let alert = Event::new(EventKind::of_alert(2, 40), false);
/// assert_eq!(outcome(&[hello, alert]), Outcome::BrokenOff);
/// ```
pub fn outcome(events: &[Event]) -> Outcome {
    // SAFETY: the pointer and the length are those of a slice.
    Outcome::of_number(unsafe { sys::wispuddera_outcome(events.as_ptr(), events.len()) })
}

/// Follows a conversation event by event. Its state is one number.
///
/// ```
/// use wispuddera::{Event, EventKind, Flow, Outcome};
///
/// let mut flow = Flow::new();
/// flow.step(Event::new(EventKind::ClientHello, true));
/// assert_eq!(flow.outcome(), Outcome::Waiting);
/// flow.step(Event::new(EventKind::ServerHello13, false));
/// assert_eq!(flow.outcome(), Outcome::Tls13 { retried: false, early_data: false });
/// ```
#[derive(Clone, Copy, Debug, PartialEq, Eq, Hash)]
pub struct Flow(sys::Flow);

impl Flow {
    /// Begins a conversation without events.
    pub fn new() -> Self {
        let mut flow = sys::Flow { state: 0 };
        // SAFETY: the pointer is from a mutable reference.
        unsafe { sys::wispuddera_flow_start(&mut flow) };
        Flow(flow)
    }

    /// Follows one more event.
    pub fn step(&mut self, event: Event) {
        // SAFETY: the pointers are from references, the first from a mutable one.
        unsafe { sys::wispuddera_flow_step(&mut self.0, &event) }
    }

    /// The outcome by the events so far, as [`outcome`] returns it.
    pub fn outcome(&self) -> Outcome {
        // SAFETY: the pointer is from a reference.
        Outcome::of_number(unsafe { sys::wispuddera_flow_outcome(&self.0) })
    }
}

impl Default for Flow {
    fn default() -> Self {
        Flow::new()
    }
}

#[cfg(test)]
mod tests {
    use super::*;

    #[test]
    fn kinds_stand_at_their_numbers() {
        for (number, kind) in KINDS.iter().enumerate() {
            assert_eq!(*kind as usize, number);
        }
    }
}
