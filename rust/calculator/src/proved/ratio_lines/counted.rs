// Erased from crates/ratio_lines/src/counted.rt by rust/erase: not to be edited.
//! `Counted`: readers and writers whose calls a contract can follow, `Calls` for what these calls did, `Moments` for what had moved before
//! each read, and the traits `CalcRead` and `CalcWrite`.

use std::io;
use std::io::{ErrorKind, Read, Write};

/// What the calls of a reader or a writer did so far. The fields are unbounded numbers and lists. They
/// exist only in contracts and proofs, and take no memory. Only its own functions change them.
pub struct Calls {}

impl Calls {
    /// No call was made.
    #[inline]
    pub fn none() -> Calls {
        Calls {}
    }

    // Changes the calls to `next`, which the caller chooses. Nothing happens at run time.
    #[inline]
    fn note(&mut self, _bytes: &[u8]) {}

    /// A call moved these bytes.
    #[inline]
    pub fn note_moved(&mut self, bytes: &[u8]) {
        self.note(bytes)
    }

    /// A call failed.
    #[inline]
    pub fn note_failed(&mut self) {
        self.note(&[])
    }

    /// A write was interrupted, and may be tried again.
    #[inline]
    pub fn note_interrupted(&mut self) {
        self.note(&[])
    }

    /// A read said that the reader has ended.
    #[inline]
    pub fn note_ended(&mut self) {
        self.note(&[])
    }

    /// A flush returned `Ok`.
    #[inline]
    pub fn note_flushed(&mut self) {
        self.note(&[])
    }
}

/// What a reader had given and its writer had taken before each read so far. Its field exists only in contracts and proofs, and takes no
/// memory. Only its own functions change it.
pub struct Moments {}

impl Moments {
    /// No read was made.
    #[inline]
    pub fn none() -> Moments {
        Moments {}
    }

    /// A read begins: of a reader whose calls did this so far, and beside a writer whose calls did that.
    #[inline]
    pub fn note(&mut self, _given: &Calls, _taken: &Calls) {}
}

/// A reader whose calls are followed, beside those of the writer of its answers.
pub trait CalcRead<W: CalcWrite>: Read {
    /// Reads as `read` does. A call that returns `Err` has failed.
    fn read_counted(&mut self, buf: &mut [u8], writer: &W) -> io::Result<usize>;
}

/// A writer whose calls are followed.
pub trait CalcWrite: Write {
    /// Writes as `write` does. A call has failed if it returns
    /// `Err`, or takes no byte though there are some.
    fn write_counted(&mut self, buf: &[u8]) -> io::Result<usize>;

    /// Writes as `write_counted` does, but a call that was interrupted has not failed.
    fn write_tried(&mut self, buf: &[u8]) -> io::Result<usize>;

    /// What the calls did so far, for contracts alone.
    fn calls(&self) -> &Calls;

    /// Flushes as `flush` does.
    fn flush_counted(&mut self) -> io::Result<()>;
}

/// A reader or a writer with its calls followed. To follow them takes no memory.
pub struct Counted<D> {
    device: D,
    reads: Calls,
    moments: Moments,
    writes: Calls,
}

impl<D> Counted<D> {
    /// The device. No call has been made.
    #[inline]
    pub fn new(device: D) -> Counted<D> {
        Counted {
            device,
            reads: Calls::none(),
            moments: Moments::none(),
            writes: Calls::none(),
        }
    }

    /// The device.
    #[inline]
    pub fn into_inner(self) -> D {
        self.device
    }
}

impl<D: Read> Read for Counted<D> {
    /// Reads, and notes no moment, since it knows no writer.
    #[inline]
    fn read(&mut self, buf: &mut [u8]) -> io::Result<usize> {
        match self.device.read(buf) {
            Ok(0) if !buf.is_empty() => {
                self.reads.note_ended();
                Ok(0)
            }
            Ok(n) => {
                self.reads.note_moved(&buf[..n]);
                Ok(n)
            }
            Err(e) => {
                self.reads.note_failed();
                Err(e)
            }
        }
    }
}

impl<D: Read, W: CalcWrite> CalcRead<W> for Counted<D> {
    #[inline]
    fn read_counted(&mut self, buf: &mut [u8], writer: &W) -> io::Result<usize> {
        self.moments.note(&self.reads, writer.calls());
        self.read(buf)
    }
}

impl<D: Write> Write for Counted<D> {
    #[inline]
    fn write(&mut self, buf: &[u8]) -> io::Result<usize> {
        self.write_counted(buf)
    }

    #[inline]
    fn flush(&mut self) -> io::Result<()> {
        self.flush_counted()
    }
}

impl<D: Write> CalcWrite for Counted<D> {
    #[inline]
    fn write_counted(&mut self, buf: &[u8]) -> io::Result<usize> {
        match self.device.write(buf) {
            Ok(0) if !buf.is_empty() => {
                self.writes.note_failed();
                Ok(0)
            }
            Ok(n) => {
                self.writes.note_moved(&buf[..n]);
                Ok(n)
            }
            Err(e) => {
                self.writes.note_failed();
                Err(e)
            }
        }
    }

    #[inline]
    fn write_tried(&mut self, buf: &[u8]) -> io::Result<usize> {
        match self.device.write(buf) {
            Ok(0) if !buf.is_empty() => {
                self.writes.note_failed();
                Ok(0)
            }
            Ok(n) => {
                self.writes.note_moved(&buf[..n]);
                Ok(n)
            }
            Err(e) => {
                if e.kind() == ErrorKind::Interrupted {
                    self.writes.note_interrupted();
                } else {
                    self.writes.note_failed();
                }
                Err(e)
            }
        }
    }

    #[inline]
    fn calls(&self) -> &Calls {
        &self.writes
    }

    #[inline]
    fn flush_counted(&mut self) -> io::Result<()> {
        match self.device.flush() {
            Ok(()) => {
                self.writes.note_flushed();
                Ok(())
            }
            Err(e) => {
                self.writes.note_failed();
                Err(e)
            }
        }
    }
}
