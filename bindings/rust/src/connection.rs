//! Replies as they come, from pieces of bytes or from a connection.
use crate::error::Error;
use crate::replies::{Claimed, ClaimedIds, Entries, Shape, Streams, Tables, Value};
use std::fmt;
use std::io::{self, Read, Write};

/// Bytes that come in pieces, and the replies in them, one after the other.
///
/// A reading returns the reply at the head of the bytes, and `None` if it is not whole yet. What it returns borrows from
/// the decoder; the next call takes its bytes off. [`Error::Server`] and [`Error::OtherReply`] are taken off too. An
/// [`Error::Protocol`] stays, and comes again. Each reading looks at the bytes from their head on, so large pieces are
/// cheaper than small ones.
///
/// ```
/// use redis_streams::Decoder;
///
/// let mut decoder = Decoder::new();
/// decoder.feed(b"*1\r\n*2\r\n$3\r\n1-0\r\n*2\r\n$4\r\nitem");
/// assert!(decoder.range()?.is_none());
/// decoder.feed(b"\r\n$3\r\ntea\r\n");
/// assert_eq!(decoder.range()?.unwrap().get(0).unwrap().id(), "1-0");
/// # Ok::<(), redis_streams::Error>(())
/// ```
#[derive(Debug, Default)]
pub struct Decoder {
    buffer: Vec<u8>,
    taken: usize,
    /// Whether the last look found that the bytes end too early.
    short: bool,
    tables: Tables,
}

impl Decoder {
    pub fn new() -> Decoder {
        Decoder::default()
    }

    /// Adds bytes that came.
    pub fn feed(&mut self, bytes: &[u8]) {
        self.drop_taken();
        self.buffer.extend_from_slice(bytes);
    }

    /// How many bytes came that are not taken off.
    pub fn len(&self) -> usize {
        self.buffer.len() - self.taken
    }

    pub fn is_empty(&self) -> bool {
        self.len() == 0
    }

    /// The reply of XREAD or XREADGROUP.
    pub fn streams(&mut self) -> Result<Option<Streams<'_>>, Error> {
        Ok(self.find(Shape::Streams)?.then(|| self.tables.streams(&self.buffer)))
    }

    /// The reply of XRANGE, XREVRANGE or XCLAIM.
    pub fn range(&mut self) -> Result<Option<Entries<'_>>, Error> {
        Ok(self.find(Shape::Range)?.then(|| self.tables.entries(&self.buffer)))
    }

    /// The reply of XAUTOCLAIM.
    pub fn autoclaim(&mut self) -> Result<Option<Claimed<'_>>, Error> {
        Ok(self.find(Shape::Autoclaim)?.then(|| self.tables.claimed(&self.buffer)))
    }

    /// The reply of XAUTOCLAIM with JUSTID.
    pub fn justid(&mut self) -> Result<Option<ClaimedIds<'_>>, Error> {
        Ok(self.find(Shape::JustId)?.then(|| self.tables.claimed(&self.buffer).ids()))
    }

    /// Any reply.
    pub fn value(&mut self) -> Result<Option<Value<'_>>, Error> {
        Ok(self.find(Shape::Any)?.then(|| self.tables.value(&self.buffer)))
    }

    fn drop_taken(&mut self) {
        self.buffer.drain(..self.taken);
        self.taken = 0;
    }

    /// Whether a whole reply is at the head of the bytes. Then its places are in the tables.
    fn find(&mut self, shape: Shape) -> Result<bool, Error> {
        self.drop_taken();
        if self.short && Tables::is_short(&self.buffer) {
            return Ok(false);
        }
        let found = self.tables.find(shape, &self.buffer);
        self.short = matches!(found, Ok(false));
        self.taken = match &found {
            Ok(true) => self.tables.reply_len(),
            Ok(false) => 0,
            Err(error) => error.reply_len().unwrap_or(0),
        };
        found
    }
}

/// An error of a connection: of its reader and writer, or of a reply.
#[derive(Debug)]
pub enum ConnectionError {
    Io(io::Error),
    Reply(Error),
}

impl fmt::Display for ConnectionError {
    fn fmt(&self, f: &mut fmt::Formatter<'_>) -> fmt::Result {
        match self {
            ConnectionError::Io(error) => error.fmt(f),
            ConnectionError::Reply(error) => error.fmt(f),
        }
    }
}

impl std::error::Error for ConnectionError {
    fn source(&self) -> Option<&(dyn std::error::Error + 'static)> {
        match self {
            ConnectionError::Io(error) => Some(error),
            ConnectionError::Reply(error) => Some(error),
        }
    }
}

impl From<io::Error> for ConnectionError {
    fn from(error: io::Error) -> ConnectionError {
        ConnectionError::Io(error)
    }
}

impl From<Error> for ConnectionError {
    fn from(error: Error) -> ConnectionError {
        ConnectionError::Reply(error)
    }
}

/// Commands and replies over anything that reads and writes, such as a `TcpStream` that is logged in.
///
/// Each reading waits for a whole reply. After an error of the reader or writer a reply may be under way: then the
/// connection is to be closed.
#[derive(Debug)]
pub struct Connection<S> {
    stream: S,
    decoder: Decoder,
    piece: Vec<u8>,
}

impl<S: Read + Write> Connection<S> {
    pub fn new(stream: S) -> Connection<S> {
        Connection { stream, decoder: Decoder::new(), piece: vec![0; 65536] }
    }

    pub fn send(&mut self, command: &[u8]) -> io::Result<()> {
        self.stream.write_all(command)?;
        self.stream.flush()
    }

    /// The next reply, if it is one of XREAD or XREADGROUP.
    pub fn streams(&mut self) -> Result<Streams<'_>, ConnectionError> {
        self.wait(Shape::Streams)?;
        Ok(self.decoder.tables.streams(&self.decoder.buffer))
    }

    /// The next reply, if it is one of XRANGE, XREVRANGE or XCLAIM.
    pub fn range(&mut self) -> Result<Entries<'_>, ConnectionError> {
        self.wait(Shape::Range)?;
        Ok(self.decoder.tables.entries(&self.decoder.buffer))
    }

    /// The next reply, if it is one of XAUTOCLAIM.
    pub fn autoclaim(&mut self) -> Result<Claimed<'_>, ConnectionError> {
        self.wait(Shape::Autoclaim)?;
        Ok(self.decoder.tables.claimed(&self.decoder.buffer))
    }

    /// The next reply, if it is one of XAUTOCLAIM with JUSTID.
    pub fn justid(&mut self) -> Result<ClaimedIds<'_>, ConnectionError> {
        self.wait(Shape::JustId)?;
        Ok(self.decoder.tables.claimed(&self.decoder.buffer).ids())
    }

    /// The next reply, whatever it is.
    pub fn value(&mut self) -> Result<Value<'_>, ConnectionError> {
        self.wait(Shape::Any)?;
        Ok(self.decoder.tables.value(&self.decoder.buffer))
    }

    /// Reads until a whole reply is at the head of the bytes. A long reply is read in larger pieces.
    fn wait(&mut self, shape: Shape) -> Result<(), ConnectionError> {
        while !self.decoder.find(shape)? {
            if self.piece.len() < self.decoder.len() {
                self.piece.resize(self.decoder.len().min(1 << 24), 0);
            }
            let len = match self.stream.read(&mut self.piece) {
                Ok(0) => return Err(io::Error::from(io::ErrorKind::UnexpectedEof).into()),
                Ok(len) => len,
                Err(error) if error.kind() == io::ErrorKind::Interrupted => continue,
                Err(error) => return Err(error.into()),
            };
            self.decoder.feed(&self.piece[..len]);
        }
        Ok(())
    }
}
