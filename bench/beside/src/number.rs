//! Hashes answers to numbers, as `bench/calls/number.rt.in` does on the other side.

use tls_parser::nom::error::{Error, ErrorKind};
use tls_parser::nom::{Err, Needed};
use tls_parser::*;

/// Combines two numbers.
#[inline(always)]
pub fn then(h: u64, x: u64) -> u64 {
    h.wrapping_mul(31).wrapping_add(x)
}

/// A type that can be hashed to a number.
pub trait Told {
    fn told(&self) -> u64;
}

fn refusal(e: &Err<Error<&[u8]>>) -> u64 {
    match e {
        Err::Incomplete(Needed::Size(n)) => then(2, n.get() as u64),
        Err::Incomplete(Needed::Unknown) => 3,
        Err::Error(e) | Err::Failure(e) => then(4, kind(e.code)),
    }
}

fn kind(code: ErrorKind) -> u64 {
    match code {
        ErrorKind::TooLarge => 1,
        ErrorKind::LengthValue => 2,
        ErrorKind::Verify => 3,
        ErrorKind::Switch => 4,
        ErrorKind::Tag => 5,
        ErrorKind::Complete => 6,
        _ => 99,
    }
}

/// The number of an answer.
#[inline(always)]
pub fn answer<T: Told>(given: &IResult<&[u8], T>) -> u64 {
    match given {
        Ok((rest, value)) => then(then(1, rest.len() as u64), value.told()),
        Err(e) => refusal(e),
    }
}

#[inline(always)]
fn length_of(block: Option<&[u8]>) -> u64 {
    match block {
        Some(bytes) => bytes.len() as u64,
        None => 0,
    }
}

impl<T: Told> Told for Vec<T> {
    /// Combines the first and the last item.
    fn told(&self) -> u64 {
        let count = self.len();
        match self.as_slice() {
            [first, .., last] => then(then(count as u64, first.told()), last.told()),
            [only] => then(1, only.told()),
            [] => 0,
        }
    }
}

impl Told for TlsMessageHandshake<'_> {
    fn told(&self) -> u64 {
        match self {
            TlsMessageHandshake::HelloRequest => 10,
            TlsMessageHandshake::ClientHello(h) => {
                let lists = then(h.ciphers.len() as u64, h.comp.len() as u64);
                then(then(h.version.0 as u64, lists), length_of(h.ext))
            }
            TlsMessageHandshake::ServerHello(h) => {
                then(then(h.version.0 as u64, h.cipher.0 as u64), length_of(h.ext))
            }
            TlsMessageHandshake::Certificate(c) => then(11, c.cert_chain.len() as u64),
            TlsMessageHandshake::CertificateRequest(r) => {
                then(r.cert_types.len() as u64, r.unparsed_ca.len() as u64)
            }
            TlsMessageHandshake::ServerKeyExchange(k) => k.parameters.len() as u64,
            TlsMessageHandshake::ServerDone(b) => then(12, b.len() as u64),
            TlsMessageHandshake::Finished(b) => then(13, b.len() as u64),
            _ => 14,
        }
    }
}

impl Told for TlsMessage<'_> {
    fn told(&self) -> u64 {
        match self {
            TlsMessage::Handshake(h) => h.told(),
            TlsMessage::ChangeCipherSpec => 20,
            TlsMessage::Alert(a) => then(a.severity.0 as u64, a.code.0 as u64),
            TlsMessage::ApplicationData(d) => then(21, d.blob.len() as u64),
            TlsMessage::Heartbeat(h) => then(22, h.payload.len() as u64),
        }
    }
}

impl Told for TlsPlaintext<'_> {
    fn told(&self) -> u64 {
        then(self.hdr.len as u64, self.msg.told())
    }
}

impl Told for TlsRawRecord<'_> {
    fn told(&self) -> u64 {
        then(self.hdr.record_type.0 as u64, self.data.len() as u64)
    }
}

impl Told for DTLSMessage<'_> {
    fn told(&self) -> u64 {
        match self {
            DTLSMessage::Handshake(h) => {
                let place = then(h.fragment_offset as u64, h.fragment_length as u64);
                let body = match &h.body {
                    DTLSMessageHandshakeBody::ClientHello(c) => {
                        then(c.ciphers.len() as u64, c.cookie.len() as u64)
                    }
                    DTLSMessageHandshakeBody::HelloVerifyRequest(r) => r.cookie.len() as u64,
                    _ => 30,
                };
                then(place, body)
            }
            DTLSMessage::ChangeCipherSpec => 31,
            DTLSMessage::Alert(a) => then(a.severity.0 as u64, a.code.0 as u64),
            DTLSMessage::ApplicationData(d) => d.blob.len() as u64,
            DTLSMessage::Heartbeat(h) => h.payload.len() as u64,
        }
    }
}

impl Told for DTLSPlaintext<'_> {
    fn told(&self) -> u64 {
        then(self.header.sequence_number, self.messages.told())
    }
}

impl Told for TlsExtension<'_> {
    fn told(&self) -> u64 {
        TlsExtensionType::from(self).0 as u64
    }
}

impl Told for ServerDHParams<'_> {
    fn told(&self) -> u64 {
        then(then(self.dh_p.len() as u64, self.dh_g.len() as u64), self.dh_ys.len() as u64)
    }
}

impl Told for ServerECDHParams<'_> {
    fn told(&self) -> u64 {
        then(self.curve_params.curve_type.0 as u64, self.public.point.len() as u64)
    }
}

impl Told for DigitallySigned<'_> {
    fn told(&self) -> u64 {
        then(self.alg.is_some() as u64, self.data.len() as u64)
    }
}

impl Told for SignedCertificateTimestamp<'_> {
    fn told(&self) -> u64 {
        then(self.timestamp, self.signature.data.len() as u64)
    }
}
