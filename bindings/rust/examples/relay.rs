//! Relays two sockets that it inherits, and follows the handshake: relay CLIENT SERVER
//!
//! CLIENT and SERVER are file descriptors. It prints the outcome, whether the handshake is
//! established, and whether it resumed a session.
use std::io::{self, Read, Write};
use std::net::Shutdown;
use std::os::fd::{FromRawFd, OwnedFd, RawFd};
use std::os::unix::net::UnixStream;
use std::sync::Mutex;
use std::thread;
use wispuddera::{Conversation, Side};

const PIECE: usize = 16384;

type Followed = Conversation<Vec<u8>>;

/// Relays one direction until its sender closes.
fn pass_on(side: Side, mut from: &UnixStream, mut to: &UnixStream, conversation: &Mutex<Followed>) -> io::Result<()> {
    let mut piece = [0; PIECE];
    loop {
        let count = from.read(&mut piece)?;
        if count == 0 {
            return to.shutdown(Shutdown::Write);
        }
        {
            let mut conversation = conversation.lock().expect("no thread panics");
            conversation.feed(side, &piece[..count]).map_err(io::Error::other)?;
            while let Some(_event) = conversation.next_event(side) {
                // `event` is its kind, `content` its bytes.
            }
        }
        to.write_all(&piece[..count])?;
    }
}

/// Relays two sockets until both are closed, and returns the conversation.
fn relay(client: &UnixStream, server: &UnixStream) -> io::Result<Followed> {
    let room = || vec![0; 4 + Followed::LIMIT + 18437 + PIECE];
    let conversation = Mutex::new(Conversation::new(room(), room()));
    thread::scope(|scope| {
        let answers = scope.spawn(|| pass_on(Side::Server, server, client, &conversation));
        pass_on(Side::Client, client, server, &conversation)?;
        answers.join().expect("no thread panics")
    })?;
    Ok(conversation.into_inner().expect("no thread panics"))
}

fn main() -> io::Result<()> {
    let ends: Vec<UnixStream> = std::env::args()
        .skip(1)
        .map(|end| end.parse::<RawFd>().expect("the number of a socket"))
        // SAFETY: whoever runs this passes two sockets and gives them up.
        .map(|end| UnixStream::from(unsafe { OwnedFd::from_raw_fd(end) }))
        .collect();
    let conversation = relay(&ends[0], &ends[1])?;
    println!("{:?} {} {}", conversation.outcome(), conversation.is_established(), conversation.is_resumed());
    Ok(())
}
