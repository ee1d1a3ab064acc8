//! Streams that another program has left non-blocking, as ssh and Node.js do: what isn't ready is waited for.

use std::io::{self, ErrorKind, Read, Write};
use std::thread;
use std::time::Duration;

const PAUSE: Duration = Duration::from_millis(1);

/// A stream that is read and written as one that blocks.
pub struct Waiting<Stream>(pub Stream);

impl<Stream: Read> Read for Waiting<Stream> {
    fn read(&mut self, bytes: &mut [u8]) -> io::Result<usize> {
        when_ready(|| self.0.read(bytes))
    }
}

impl<Stream: Write> Write for Waiting<Stream> {
    fn write(&mut self, bytes: &[u8]) -> io::Result<usize> {
        when_ready(|| self.0.write(bytes))
    }

    fn flush(&mut self) -> io::Result<()> {
        when_ready(|| self.0.flush())
    }
}

fn when_ready<Done>(mut attempt: impl FnMut() -> io::Result<Done>) -> io::Result<Done> {
    loop {
        match attempt() {
            Err(error) if error.kind() == ErrorKind::WouldBlock => thread::sleep(PAUSE),
            done => return done,
        }
    }
}
