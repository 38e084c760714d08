//! Prints the host name of each ClientHello in a client's stream of records: names < STREAM
//!
//! The stream is read in pieces of any length, and a hello may be split over several records.
use std::io::{self, Read};
use std::process::ExitCode;
use wispuddera::{server_name_of_hello, Error, Kind, MessageStream, RecordStream, RECORD_ROOM};

const CHANGE_CIPHER_SPEC: u8 = 20;
const HANDSHAKE: u8 = 22;
const CLIENT_HELLO: u8 = 1;

fn show_name(hello: &[u8]) {
    match server_name_of_hello(hello) {
        Ok(Some(name)) => println!("{}", name.escape_ascii()),
        Ok(None) => println!("-"),
        Err(e) => println!("refused: {e}"),
    }
}

/// The buffered bytes of one direction.
struct Direction {
    records: RecordStream<[u8; RECORD_ROOM]>,
    messages: MessageStream<[u8; 65540]>,
}

impl Direction {
    /// Prints the names of the hellos that are complete with this piece. Returns whether the
    /// handshake is still in the clear.
    fn take_piece(&mut self, mut piece: &[u8]) -> Result<bool, Error> {
        while !piece.is_empty() {
            piece = &piece[self.records.feed(piece)..];
            while let Some(record) = self.records.next_record()? {
                if record.content_type == CHANGE_CIPHER_SPEC {
                    return Ok(false);
                }
                if record.content_type != HANDSHAKE {
                    continue;
                }
                if self.messages.feed(record.fragment) < record.fragment.len() {
                    return Err(Error::Refused(Kind::TooLarge));
                }
                while let Some(message) = self.messages.next_message()? {
                    if message.kind == CLIENT_HELLO {
                        show_name(message.body);
                    }
                }
            }
        }
        Ok(true)
    }
}

fn main() -> io::Result<ExitCode> {
    let mut client = Direction { records: RecordStream::new([0; RECORD_ROOM]), messages: MessageStream::new([0; 65540]) };
    let mut piece = [0; 700];
    loop {
        let count = io::stdin().read(&mut piece)?;
        match client.take_piece(&piece[..count]) {
            Ok(true) if count > 0 => (),
            Ok(_) => return Ok(ExitCode::SUCCESS),
            Err(e) => {
                println!("refused: {e}");
                return Ok(ExitCode::FAILURE);
            }
        }
    }
}
