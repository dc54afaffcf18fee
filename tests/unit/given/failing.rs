//! A writer that fails, for the tests of what writes.

use std::io::{self, ErrorKind, Write};

// A writer that takes so many writes, or flushes, before it fails.
#[derive(Drop)]
pub(crate) struct Failing {
    pub(crate) left: usize,
}

impl Failing {
    fn step(&mut self) -> io::Result<()> {
        if self.left == 0 {
            return Err(io::Error::from(ErrorKind::BrokenPipe));
        }
        self.left -= 1;
        Ok(())
    }
}

impl Write for Failing {
    fn write(&mut self, buf: &[u8]) -> io::Result<usize> {
        self.step()?;
        Ok(buf.len())
    }

    fn flush(&mut self) -> io::Result<()> {
        self.step()
    }
}
