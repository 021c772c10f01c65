//! Echoes frames over TCP on loopback: a server on a port of its own, and a client that sends a few frames, compares
//! what comes back, and ends both.
use iobufs::{FrameReader, FrameWriter, IoBuf, IoBufs};
use std::error::Error;
use std::net::{Shutdown, TcpListener, TcpStream};
use std::thread;

/// The longest body that is taken.
const MOST: usize = 1 << 20;

/// Sends each frame of a connection back, until the client shuts its side down.
fn serve(stream: TcpStream) -> Result<usize, Box<dyn Error + Send + Sync>> {
    let mut from = FrameReader::new(stream.try_clone()?, ..=MOST);
    let mut to = FrameWriter::new(stream, ..=MOST);
    let mut count = 0;
    while let Some(body) = from.next()? {
        to.put(body)?;
        to.send()?;
        count += 1;
    }
    Ok(count)
}

fn main() -> Result<(), Box<dyn Error + Send + Sync>> {
    let listener = TcpListener::bind("127.0.0.1:0")?;
    let stream = TcpStream::connect(listener.local_addr()?)?;
    let server = thread::spawn(move || serve(listener.accept()?.0));

    let bodies = [
        IoBufs::from(b"hello"),
        IoBufs::default(),
        IoBufs::from([IoBuf::from(b"two "), IoBuf::from(b"chunks")]),
        IoBufs::from(vec![b'x'; 100_000]),
    ];
    let mut from = FrameReader::new(stream.try_clone()?, ..=MOST);
    let mut to = FrameWriter::new(stream.try_clone()?, ..=MOST);
    for body in &bodies {
        to.put(body.clone())?;
        to.send()?;
        let back = from.next()?.ok_or("the server closed the connection")?;
        assert_eq!(*body, IoBufs::from(back));
    }
    stream.shutdown(Shutdown::Write)?;
    assert!(from.next()?.is_none());
    let count = server.join().map_err(|_| "the server panicked")??;
    println!("{count} frames came back");
    Ok(())
}
