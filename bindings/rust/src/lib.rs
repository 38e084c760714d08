//! Parses TLS, DTLS and X.509 in place, by the proved library of `wispuddera.h`.
//!
//! Calls take slices, and return numbers and slices of the same bytes. Nothing is allocated,
//! nothing is kept between calls, and this crate needs no `std`. A call that reads the first item
//! returns it with the bytes after it. What is absent is `None`. An [`Error`] has the count of
//! missing bytes, or the kind of rule that the bytes break.
//!
//! ```
//! use wispuddera::{messages, records, server_name_of_hello, ClientHello, Error};
//!
//! /// Prints the name that each hello of these records asks for.
//! fn show_names(bytes: &[u8]) -> Result<(), Error> {
//!     for record in records(bytes) {
//!         let record = record?;
//!         if record.content_type != 22 {
//!             continue;
//!         }
//!         for message in messages(record.fragment) {
//!             let message = message?;
//!             if message.kind == 1 {
//!                 let (hello, _) = ClientHello::read(message.body)?;
//!                 let name = server_name_of_hello(message.body)?;
//!                 println!("{} suites, for {name:?}", hello.cipher_suites.len());
//!             }
//!         }
//!     }
//!     Ok(())
//! }
//! # assert_eq!(show_names(&[0x16, 3, 1, 0, 1]), Err(Error::Incomplete { missing: 1 }));
//! # assert_eq!(show_names(&[]), Ok(()));
//! ```
//!
//! [`RecordStream`] and [`MessageStream`] reassemble streams that arrive in pieces, in a buffer of
//! the caller. [`Conversation`] takes the pieces of both sides and returns their events and the
//! outcome. For events that the caller has, [`outcome`] returns it at once, and [`Flow`] event by
//! event.
//!
//! The library is proved (`crates/wispuddera_c`); this crate is a wrapper written by hand. Each
//! place that the library returns is bounds-checked against the caller's slice, so memory safety
//! doesn't depend on it.
#![no_std]
#![warn(missing_docs, unsafe_op_in_unsafe_fn)]

#[cfg(not(target_pointer_width = "64"))]
compile_error!("libwispuddera.a is made for processors of 64 bits");

mod certificate;
mod conversation;
mod detection;
mod dtls;
mod error;
mod fingerprint;
mod found;
mod hello;
mod number;
mod outcome;
mod part;
mod stream;
mod sys;

pub use certificate::{x509_extensions, x509_names, PublicKey, X509Extension, X509Name, SUBJECT_ALT_NAME, X509};
pub use conversation::{Conversation, ConversationEvent, EventContent, Fault, NoRoom, Side, Stop};
pub use detection::looks_like_tls;
pub use dtls::{dtls_messages, dtls_records, DtlsClientHello, DtlsMessage, DtlsRecord};
pub use error::{Error, Kind};
pub use fingerprint::{dtls_ja3, dtls_ja3s, dtls_ja4, ja3, ja3s, ja4, quic_ja4, Fingerprint};
pub use found::{find_body, find_extension, server_name, server_name_of_hello, server_name_of_record};
pub use hello::{ClientHello, ServerHello};
pub use number::{best_version, groups, signature_schemes, versions, Numbers};
pub use outcome::{outcome, Event, EventKind, Flow, Outcome};
pub use part::{
    certificates, extensions, key_shares, messages, protocols, records, Certificate, Extension, Items, KeyShare, Message, Protocol, Read,
    Record,
};
pub use stream::{MessageStream, RecordStream, RECORD_ROOM};
