//! Prints where a proxy would send a connection, by its host name: route NAME=PLACE.. < STREAM
//!
//! It prints the place of the name, or `-` if none matches, and reads only the client's first
//! message.
use std::env;
use std::io::{self, BufRead};
use std::process::ExitCode;
use wispuddera::{server_name_of_hello, Error, Kind, MessageStream, RecordStream, RECORD_ROOM};

const HANDSHAKE: u8 = 22;
const CLIENT_HELLO: u8 = 1;
const LIMIT: usize = 65536;

/// The host name in the first message, if it is a ClientHello and has one.
fn name_asked(bytes: impl BufRead) -> Result<Option<Vec<u8>>, Error> {
    let mut records = RecordStream::new([0; RECORD_ROOM]);
    let mut messages = MessageStream::new([0; LIMIT]);
    for byte in bytes.bytes().take(LIMIT).map_while(Result::ok) {
        records.feed(&[byte]);
        let Some(record) = records.next_record()? else {
            continue;
        };
        if record.content_type != HANDSHAKE {
            return Ok(None);
        }
        messages.feed(record.fragment);
        if let Some(message) = messages.next_message()? {
            if message.kind != CLIENT_HELLO {
                return Ok(None);
            }
            return match server_name_of_hello(message.body) {
                // The message is complete: more bytes couldn't help.
                Err(Error::Incomplete { .. }) => Err(Error::Refused(Kind::Complete)),
                name => Ok(name?.map(<[u8]>::to_vec)),
            };
        }
    }
    Err(Error::Incomplete { missing: 1 })
}

fn main() -> ExitCode {
    let place = match name_asked(io::stdin().lock()) {
        Ok(name) => env::args().skip(1).find_map(|word| {
            let (wanted, place) = word.split_once('=')?;
            (name.as_deref() == Some(wanted.as_bytes())).then(|| place.to_owned())
        }),
        Err(e) => {
            println!("refused: {e}");
            return ExitCode::FAILURE;
        }
    };
    println!("{}", place.as_deref().unwrap_or("-"));
    ExitCode::SUCCESS
}
