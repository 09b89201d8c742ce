//! `embassy_sync::pipe`, recorded.
use std::future::Future;
use std::pin::{Pin, pin};
use std::task::{Context, Poll};

use embassy_sync::blocking_mutex::raw::RawMutex;
use embassy_sync::pipe as upstream;
pub use embassy_sync::pipe::{TryReadError, TryWriteError};

use super::limits::{PIPE_REQUESTS, ROW};
use super::name::{Phrase, phrase};
use super::request::{Answer, Held, Outcome, Ready, Request};
use super::runs::{Recorded, Run};
use super::tape::{Head, Recording, Tape};

/// The future of [`Pipe::write`] and [`Writer::write`].
pub type WriteFuture<'p, M, const N: usize> = Request<'p, upstream::WriteFuture<'p, M, N>, Count>;
/// The future of [`Pipe::read`].
pub type ReadFuture<'p, M, const N: usize> = Request<'p, Reading<'p, upstream::Pipe<M, N>>, Bytes>;
/// The future of [`Reader::read`].
pub type ReaderReadFuture<'p, M, const N: usize> = Request<'p, Reading<'p, upstream::Reader<'p, M, N>>, Bytes>;
/// The future of [`Reader::fill_buf`].
pub type FillBufFuture<'p, M, const N: usize> = Request<'p, upstream::FillBufFuture<'p, M, N>, Bytes>;
/// The future of [`DynamicWriter::write`].
pub type DynamicWriteFuture<'p> = Request<'p, upstream::DynamicWriteFuture<'p>, Count>;
/// The future of [`DynamicReader::read`].
pub type DynamicReadFuture<'p> = Request<'p, Reading<'p, upstream::DynamicReader<'p>>, Bytes>;
/// The future of [`DynamicReader::fill_buf`].
pub type DynamicFillBufFuture<'p> = Request<'p, upstream::DynamicFillBufFuture<'p>, Bytes>;

/// `embassy_sync::pipe::Pipe`, recorded.
pub struct Pipe<M: RawMutex, const N: usize> {
    inner: upstream::Pipe<M, N>,
    recording: Recording,
}

impl<M: RawMutex, const N: usize> Pipe<M, N> {
    /// Returns an empty pipe.
    #[track_caller]
    pub const fn new() -> Self {
        Pipe { inner: upstream::Pipe::new(), recording: Recording::new() }
    }

    fn tape(&self) -> &Tape {
        self.recording.tape(head::<N>)
    }

    /// Returns the two ends.
    pub fn split(&mut self) -> (Reader<'_, M, N>, Writer<'_, M, N>) {
        let tape = self.recording.tape(head::<N>);
        let (reader, writer) = self.inner.split();
        (Reader { inner: reader, tape }, Writer { inner: writer, tape })
    }

    /// Waits for room, and writes as many bytes as go in.
    pub fn write<'a>(&'a self, buf: &'a [u8]) -> WriteFuture<'a, M, N> {
        Request::start(self.tape(), &with_row("write", buf), self.inner.write(buf), Count)
    }

    /// Writes all bytes, in as many polls as it takes.
    pub fn write_all<'a>(&'a self, buf: &'a [u8]) -> impl Future<Output = ()> + 'a {
        Request::start(self.tape(), &phrase("write-all ").bytes(buf), self.inner.write_all(buf), Ready)
    }

    /// Writes as many bytes as go in, where there is room.
    pub fn try_write(&self, buf: &[u8]) -> Result<usize, TryWriteError> {
        self.tape().try_write(buf, || self.inner.try_write(buf))
    }

    /// Waits for bytes, and reads as many as there are.
    pub fn read<'a>(&'a self, buf: &'a mut [u8]) -> ReadFuture<'a, M, N> {
        self.tape().read(&self.inner, buf)
    }

    /// Reads as many bytes as there are, where there are some.
    pub fn try_read(&self, buf: &mut [u8]) -> Result<usize, TryReadError> {
        self.tape().try_read(buf, |buf| self.inner.try_read(buf))
    }

    /// Drops the bytes.
    pub fn clear(&self) {
        self.tape().clear(|| self.inner.clear());
    }

    /// Returns whether there is no room.
    pub fn is_full(&self) -> bool {
        self.tape().is_full(|| self.inner.is_full(), || self.inner.free_capacity())
    }

    /// Returns whether there is no byte.
    pub fn is_empty(&self) -> bool {
        self.tape().is_empty(|| self.inner.is_empty(), || self.inner.len())
    }

    /// Returns the capacity.
    pub fn capacity(&self) -> usize {
        self.inner.capacity()
    }

    /// Returns how many bytes there are.
    pub fn len(&self) -> usize {
        self.tape().len(|| self.inner.len())
    }

    /// Returns for how many bytes there is room.
    pub fn free_capacity(&self) -> usize {
        self.tape().free_capacity(|| self.inner.free_capacity())
    }
}

impl<M: RawMutex, const N: usize> Recorded for Pipe<M, N> {
    fn run(&self) -> Run {
        self.tape().run()
    }
}

fn head<const N: usize>() -> Head {
    Head { requests: PIPE_REQUESTS, ..Head::of_capacity("pipe", N) }
}

/// The end of a [`Pipe`] that writes.
pub struct Writer<'p, M: RawMutex, const N: usize> {
    inner: upstream::Writer<'p, M, N>,
    tape: &'p Tape,
}

impl<M: RawMutex, const N: usize> Clone for Writer<'_, M, N> {
    fn clone(&self) -> Self {
        *self
    }
}

impl<M: RawMutex, const N: usize> Copy for Writer<'_, M, N> {}

impl<M: RawMutex, const N: usize> Writer<'_, M, N> {
    /// Waits for room, and writes as many bytes as go in.
    pub fn write<'a>(&'a self, buf: &'a [u8]) -> WriteFuture<'a, M, N> {
        Request::start(self.tape, &with_row("write", buf), self.inner.write(buf), Count)
    }

    /// Writes as many bytes as go in, where there is room.
    pub fn try_write(&self, buf: &[u8]) -> Result<usize, TryWriteError> {
        self.tape.try_write(buf, || self.inner.try_write(buf))
    }
}

/// A writer that doesn't name the capacity.
pub struct DynamicWriter<'p> {
    inner: upstream::DynamicWriter<'p>,
    tape: &'p Tape,
}

impl Clone for DynamicWriter<'_> {
    fn clone(&self) -> Self {
        *self
    }
}

impl Copy for DynamicWriter<'_> {}

impl<'p, M: RawMutex, const N: usize> From<Writer<'p, M, N>> for DynamicWriter<'p> {
    fn from(writer: Writer<'p, M, N>) -> Self {
        DynamicWriter { inner: writer.inner.into(), tape: writer.tape }
    }
}

impl DynamicWriter<'_> {
    /// Waits for room, and writes as many bytes as go in.
    pub fn write<'a>(&'a self, buf: &'a [u8]) -> DynamicWriteFuture<'a> {
        Request::start(self.tape, &with_row("write", buf), self.inner.write(buf), Count)
    }

    /// Writes as many bytes as go in, where there is room.
    pub fn try_write(&self, buf: &[u8]) -> Result<usize, TryWriteError> {
        self.tape.try_write(buf, || self.inner.try_write(buf))
    }
}

/// The end of a [`Pipe`] that reads.
pub struct Reader<'p, M: RawMutex, const N: usize> {
    inner: upstream::Reader<'p, M, N>,
    tape: &'p Tape,
}

/// The calls of a reader, whose fill has this future.
macro_rules! reader {
    ($Read:ty, $Fill:ty) => {
        /// Waits for bytes, and reads as many as there are.
        pub fn read<'a>(&'a self, buf: &'a mut [u8]) -> $Read {
            self.tape.read(&self.inner, buf)
        }

        /// Reads as many bytes as there are, where there are some.
        pub fn try_read(&self, buf: &mut [u8]) -> Result<usize, TryReadError> {
            self.tape.try_read(buf, |buf| self.inner.try_read(buf))
        }

        /// Waits for bytes, and shows those that lie side by side.
        pub fn fill_buf<'a>(&'a mut self) -> $Fill {
            Request::start(self.tape, &phrase("fill"), self.inner.fill_buf(), Bytes)
        }

        /// Shows the bytes that lie side by side, where there are some.
        pub fn try_fill_buf(&mut self) -> Result<&[u8], TryReadError> {
            let inner = &mut self.inner;
            self.tape.call(phrase("try-fill"), move || inner.try_fill_buf(), |filled| read(*filled))
        }

        /// Takes so many of the bytes that a fill showed.
        pub fn consume(&mut self, amount: usize) {
            self.tape.done(phrase(format_args!("consume {amount}")), || self.inner.consume(amount));
        }
    };
}

impl<'p, M: RawMutex, const N: usize> Reader<'p, M, N> {
    reader!(ReaderReadFuture<'a, M, N>, FillBufFuture<'a, M, N>);
}

/// A reader that doesn't name the capacity.
pub struct DynamicReader<'p> {
    inner: upstream::DynamicReader<'p>,
    tape: &'p Tape,
}

impl<'p, M: RawMutex, const N: usize> From<Reader<'p, M, N>> for DynamicReader<'p> {
    fn from(reader: Reader<'p, M, N>) -> Self {
        DynamicReader { inner: reader.inner.into(), tape: reader.tape }
    }
}

impl<'p> DynamicReader<'p> {
    reader!(DynamicReadFuture<'a>, DynamicFillBufFuture<'a>);
}

/// What upstream's calls that read have in common.
pub trait Source {
    /// Polls once for bytes.
    fn poll_read(&self, buf: &mut [u8], cx: &mut Context<'_>) -> Poll<usize>;
}

impl<M: RawMutex, const N: usize> Source for upstream::Pipe<M, N> {
    fn poll_read(&self, buf: &mut [u8], cx: &mut Context<'_>) -> Poll<usize> {
        pin!(self.read(buf)).poll(cx)
    }
}

impl<M: RawMutex, const N: usize> Source for upstream::Reader<'_, M, N> {
    fn poll_read(&self, buf: &mut [u8], cx: &mut Context<'_>) -> Poll<usize> {
        pin!(self.read(buf)).poll(cx)
    }
}

impl Source for upstream::DynamicReader<'_> {
    fn poll_read(&self, buf: &mut [u8], cx: &mut Context<'_>) -> Poll<usize> {
        pin!(self.read(buf)).poll(cx)
    }
}

/// A read that also gives the bytes. Upstream's future has no state of its own, and is made for each poll.
pub struct Reading<'p, S> {
    source: &'p S,
    buf: &'p mut [u8],
}

impl<S: Source> Future for Reading<'_, S> {
    type Output = Vec<u8>;

    fn poll(self: Pin<&mut Self>, cx: &mut Context<'_>) -> Poll<Vec<u8>> {
        let Reading { source, buf } = self.get_mut();
        source.poll_read(buf, cx).map(|count| buf[..count].to_vec())
    }
}

impl Tape {
    fn read<'a, S: Source>(&'a self, source: &'a S, buf: &'a mut [u8]) -> Request<'a, Reading<'a, S>, Bytes> {
        let ask = with_room("read", buf);
        Request::start(self, &ask, Reading { source, buf }, Bytes)
    }

    fn try_read(
        &self,
        buf: &mut [u8],
        try_read: impl FnOnce(&mut [u8]) -> Result<usize, TryReadError>,
    ) -> Result<usize, TryReadError> {
        let step = self.step(with_room("try-read", buf));
        let count = try_read(buf);
        step.end(read(count.map(|count| &buf[..count])), None);
        count
    }

    fn try_write(
        &self,
        buf: &[u8],
        try_write: impl FnOnce() -> Result<usize, TryWriteError>,
    ) -> Result<usize, TryWriteError> {
        self.call(with_row("try-write", buf), try_write, |written| match written {
            Ok(count) => phrase(format_args!("Ok({count})")),
            Err(TryWriteError::Full) => phrase("Err(Full)"),
        })
    }
}

/// Names the bytes that are to be written. No pipe that can be recorded takes more than those that a run can name.
fn with_row(command: &str, buf: &[u8]) -> Phrase {
    phrase(command).text(" ").bytes(&buf[..buf.len().min(ROW)])
}

/// Names for how many bytes there is room. No pipe that can be recorded has more than a run can name.
fn with_room(command: &str, buf: &[u8]) -> Phrase {
    phrase(format_args!("{command} {}", buf.len().min(ROW)))
}

/// Returns the answer of a call that shows bytes.
fn read(bytes: Result<&[u8], TryReadError>) -> Phrase {
    match bytes {
        Ok(bytes) => phrase("Ok(").bytes(bytes).text(")"),
        Err(TryReadError::Empty) => phrase("Err(Empty)"),
    }
}

/// The answer of a request that gives a number of bytes.
pub struct Count;

impl Outcome<'_, usize> for Count {
    type Output = usize;

    fn answer(&self, count: &usize) -> Answer {
        Answer::Over(phrase(format_args!("Ready({count})")))
    }

    fn hand_over(&self, count: usize, _held: Held<'_>) -> usize {
        count
    }
}

/// The answer of a request that shows bytes, or gives their number.
pub struct Bytes;

impl Outcome<'_, Vec<u8>> for Bytes {
    type Output = usize;

    fn answer(&self, bytes: &Vec<u8>) -> Answer {
        Answer::Over(phrase("Ready(").bytes(bytes).text(")"))
    }

    fn hand_over(&self, bytes: Vec<u8>, _held: Held<'_>) -> usize {
        bytes.len()
    }
}

impl<'a> Outcome<'_, &'a [u8]> for Bytes {
    type Output = &'a [u8];

    fn answer(&self, bytes: &&'a [u8]) -> Answer {
        Answer::Over(phrase("Ready(").bytes(bytes).text(")"))
    }

    fn hand_over(&self, bytes: &'a [u8], _held: Held<'_>) -> &'a [u8] {
        bytes
    }
}
