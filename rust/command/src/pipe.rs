//! A stream whose reader may go before the answer ends.
//!
//! The status of a call is what its answer says, and a script goes by it. So what is written to a
//! reader that has gone counts as written: the work goes on, and the status is that of all of it.

use std::io::{ErrorKind, Result, Write};

pub struct Pipe<'a> {
    to: &'a mut dyn Write,
    gone: bool,
}

impl<'a> Pipe<'a> {
    pub fn new(to: &'a mut dyn Write) -> Pipe<'a> {
        Pipe { to, gone: false }
    }

    /// What came of writing, with `done` in place of an error that says that the reader has gone.
    fn went<T>(&mut self, went: Result<T>, done: T) -> Result<T> {
        match went {
            Err(error) if error.kind() == ErrorKind::BrokenPipe => {
                self.gone = true;
                Ok(done)
            }
            went => went,
        }
    }
}

impl Write for Pipe<'_> {
    fn write(&mut self, bytes: &[u8]) -> Result<usize> {
        if self.gone {
            return Ok(bytes.len());
        }
        let written = self.to.write(bytes);
        self.went(written, bytes.len())
    }

    fn flush(&mut self) -> Result<()> {
        if self.gone {
            return Ok(());
        }
        let flushed = self.to.flush();
        self.went(flushed, ())
    }
}
