//! Replies in place: entries and fields that borrow from the bytes of a connection.
use crate::error::{Error, INCOMPLETE, OK, ROOM};
use crate::raw;
use std::str;

/// Tables of places. They are kept from reply to reply, so that a reply takes no memory once they are large enough.
///
/// ```
/// use redis_streams::Tables;
///
/// let bytes = b"*1\r\n*2\r\n$6\r\norders\r\n*1\r\n*2\r\n$3\r\n1-0\r\n*2\r\n$4\r\nitem\r\n$3\r\ntea\r\n";
/// let mut tables = Tables::new();
/// assert!(tables.find_streams(&bytes[..20])?.is_none(), "it is not whole yet");
/// let streams = tables.find_streams(bytes)?.expect("a whole reply");
/// for stream in streams.iter() {
///     for entry in stream.entries().iter() {
///         println!("{} {}", stream.name(), entry.id());
///         for (name, value) in entry.fields() {
///             println!("  {}={}", String::from_utf8_lossy(name), String::from_utf8_lossy(value));
///         }
///     }
/// }
/// assert_eq!(streams.entries().iter().next().unwrap().get("item"), Some(&b"tea"[..]));
/// assert_eq!(streams.reply_len(), bytes.len());
/// # Ok::<(), redis_streams::Error>(())
/// ```
#[derive(Debug, Default)]
pub struct Tables {
    streams: Vec<raw::Stream>,
    entries: Vec<raw::Entry>,
    fields: Vec<raw::Field>,
    nodes: Vec<raw::Node>,
    found: raw::Found,
    claim: raw::Claim,
}

/// Which reply is looked for.
#[derive(Clone, Copy, Debug)]
pub(crate) enum Shape {
    Streams,
    Range,
    Autoclaim,
    JustId,
    Any,
}

fn grow<T: Default + Clone>(table: &mut Vec<T>, room: usize) {
    if table.len() < room {
        table.resize(room, T::default());
    }
}

fn text(bytes: &[u8], span: raw::Span) -> &[u8] {
    &bytes[span.start..][..span.len]
}

fn utf8(bytes: &[u8], span: raw::Span) -> &str {
    str::from_utf8(text(bytes, span)).expect("the library returns only UTF-8 here")
}

impl Tables {
    pub fn new() -> Tables {
        Tables::default()
    }

    fn call(&mut self, shape: Shape, bytes: &[u8]) -> u32 {
        let Tables { streams, entries, fields, nodes, found, claim } = self;
        match shape {
            Shape::Streams => raw::find_streams(bytes, streams, entries, fields, found),
            Shape::Range => raw::find_range(bytes, entries, fields, found),
            Shape::Autoclaim => raw::find_autoclaim(bytes, entries, fields, claim, found),
            Shape::JustId => raw::find_justid(bytes, entries, claim, found),
            Shape::Any => {
                *found = raw::Found::default();
                raw::find_nodes(bytes, nodes, &mut found.len, &mut found.entries)
            }
        }
    }

    /// Fills the tables, which grow to what the reply has. Returns whether the reply is whole.
    pub(crate) fn find(&mut self, shape: Shape, bytes: &[u8]) -> Result<bool, Error> {
        loop {
            match self.call(shape, bytes) {
                OK => return Ok(true),
                INCOMPLETE => return Ok(false),
                ROOM if matches!(shape, Shape::Any) => grow(&mut self.nodes, self.found.entries),
                ROOM => {
                    grow(&mut self.streams, self.found.streams);
                    grow(&mut self.entries, self.found.entries);
                    grow(&mut self.fields, self.found.fields);
                }
                number => return Err(Error::of(number, self.found.len, text(bytes, self.found.error))),
            }
        }
    }

    /// Whether the bytes end before their first reply does, whatever it is. It is cheaper than a reading that fails.
    pub(crate) fn is_short(bytes: &[u8]) -> bool {
        let (mut len, mut count) = (0, 0);
        raw::find_nodes(bytes, &mut [], &mut len, &mut count) == INCOMPLETE
    }

    /// How many bytes the reply has that was found last.
    pub(crate) fn reply_len(&self) -> usize {
        self.found.len
    }

    pub(crate) fn streams<'a>(&'a self, bytes: &'a [u8]) -> Streams<'a> {
        Streams { streams: &self.streams[..self.found.streams], entries: self.entries(bytes), len: self.found.len }
    }

    pub(crate) fn entries<'a>(&'a self, bytes: &'a [u8]) -> Entries<'a> {
        Entries { bytes, rows: &self.entries[..self.found.entries], fields: &self.fields, len: self.found.len }
    }

    pub(crate) fn claimed<'a>(&'a self, bytes: &'a [u8]) -> Claimed<'a> {
        let all = self.entries(bytes);
        let (claimed, deleted) = all.rows.split_at(self.claim.claimed);
        let ids = ClaimedIds { bytes, next_id: utf8(bytes, self.claim.next), claimed, deleted, len: self.found.len };
        Claimed { ids, entries: Entries { rows: claimed, ..all } }
    }

    pub(crate) fn value<'a>(&self, bytes: &'a [u8]) -> Value<'a> {
        value_at(&self.nodes[..self.found.entries], 0, bytes).0
    }

    /// Finds the reply of XREAD or XREADGROUP at the head of the bytes. `None` says that the bytes end before it does.
    pub fn find_streams<'a>(&'a mut self, bytes: &'a [u8]) -> Result<Option<Streams<'a>>, Error> {
        Ok(self.find(Shape::Streams, bytes)?.then(|| self.streams(bytes)))
    }

    /// The same of the reply of XRANGE, XREVRANGE or XCLAIM.
    pub fn find_range<'a>(&'a mut self, bytes: &'a [u8]) -> Result<Option<Entries<'a>>, Error> {
        Ok(self.find(Shape::Range, bytes)?.then(|| self.entries(bytes)))
    }

    /// The same of the reply of XAUTOCLAIM.
    pub fn find_autoclaim<'a>(&'a mut self, bytes: &'a [u8]) -> Result<Option<Claimed<'a>>, Error> {
        Ok(self.find(Shape::Autoclaim, bytes)?.then(|| self.claimed(bytes)))
    }

    /// The same of the reply of XAUTOCLAIM with JUSTID.
    pub fn find_justid<'a>(&'a mut self, bytes: &'a [u8]) -> Result<Option<ClaimedIds<'a>>, Error> {
        Ok(self.find(Shape::JustId, bytes)?.then(|| self.claimed(bytes).ids))
    }

    /// Finds any reply at the head of the bytes, and how many bytes it has. An error of the server is a
    /// [`Value::Error`].
    ///
    /// ```
    /// use redis_streams::{Tables, Value};
    ///
    /// let mut tables = Tables::new();
    /// assert_eq!(tables.find_value(b":3\r\n+OK\r\n")?, Some((Value::Int(3), 4)));
    /// # Ok::<(), redis_streams::Error>(())
    /// ```
    pub fn find_value<'a>(&mut self, bytes: &'a [u8]) -> Result<Option<(Value<'a>, usize)>, Error> {
        Ok(self.find(Shape::Any, bytes)?.then(|| (self.value(bytes), self.found.len)))
    }
}

/// The reply of XREAD or XREADGROUP: streams, in its order. There are none if it is nil.
#[derive(Clone, Copy, Debug)]
pub struct Streams<'a> {
    streams: &'a [raw::Stream],
    entries: Entries<'a>,
    len: usize,
}

impl<'a> Streams<'a> {
    pub fn iter(&self) -> impl ExactSizeIterator<Item = Stream<'a>> + 'a {
        let all = self.entries;
        self.streams.iter().map(move |stream| Stream {
            name: stream.name,
            entries: Entries { rows: &all.rows[stream.from..stream.to], ..all },
        })
    }

    /// The entries of all streams.
    pub fn entries(&self) -> Entries<'a> {
        self.entries
    }

    /// How many streams there are.
    pub fn len(&self) -> usize {
        self.streams.len()
    }

    pub fn is_empty(&self) -> bool {
        self.streams.is_empty()
    }

    /// How many bytes the reply has: the next one is after them.
    pub fn reply_len(&self) -> usize {
        self.len
    }
}

/// A stream of a reply.
#[derive(Clone, Copy, Debug)]
pub struct Stream<'a> {
    name: raw::Span,
    entries: Entries<'a>,
}

impl<'a> Stream<'a> {
    pub fn name(&self) -> &'a str {
        utf8(self.entries.bytes, self.name)
    }

    pub fn entries(&self) -> Entries<'a> {
        self.entries
    }
}

/// Entries of a reply, in its order.
#[derive(Clone, Copy, Debug)]
pub struct Entries<'a> {
    bytes: &'a [u8],
    rows: &'a [raw::Entry],
    fields: &'a [raw::Field],
    len: usize,
}

impl<'a> Entries<'a> {
    pub fn iter(&self) -> impl ExactSizeIterator<Item = Entry<'a>> + 'a {
        let Entries { bytes, fields, .. } = *self;
        self.rows.iter().map(move |row| Entry { bytes, row, fields })
    }

    /// The entry at an index.
    pub fn get(&self, index: usize) -> Option<Entry<'a>> {
        self.rows.get(index).map(|row| Entry { bytes: self.bytes, row, fields: self.fields })
    }

    pub fn last(&self) -> Option<Entry<'a>> {
        self.rows.len().checked_sub(1).and_then(|index| self.get(index))
    }

    /// How many entries there are.
    pub fn len(&self) -> usize {
        self.rows.len()
    }

    pub fn is_empty(&self) -> bool {
        self.rows.is_empty()
    }

    /// How many bytes the whole reply has: the next one is after them.
    pub fn reply_len(&self) -> usize {
        self.len
    }
}

/// An entry of a reply.
#[derive(Clone, Copy, Debug)]
pub struct Entry<'a> {
    bytes: &'a [u8],
    row: &'a raw::Entry,
    fields: &'a [raw::Field],
}

impl<'a> Entry<'a> {
    pub fn id(&self) -> &'a str {
        utf8(self.bytes, self.row.id)
    }

    /// Names and values, any bytes each, in their order; a name may be there twice.
    pub fn fields(&self) -> impl ExactSizeIterator<Item = (&'a [u8], &'a [u8])> + 'a {
        let bytes = self.bytes;
        self.fields[self.row.from..self.row.to].iter().map(move |it| (text(bytes, it.name), text(bytes, it.value)))
    }

    /// The value of the last field of this name.
    pub fn get(&self, name: impl AsRef<[u8]>) -> Option<&'a [u8]> {
        let name = name.as_ref();
        self.fields().filter(|(own, _)| *own == name).last().map(|(_, value)| value)
    }

    /// Whether nil is in place of the fields: the entry was deleted.
    pub fn is_deleted(&self) -> bool {
        self.row.deleted != 0
    }
}

/// The reply of XAUTOCLAIM.
#[derive(Clone, Copy, Debug)]
pub struct Claimed<'a> {
    ids: ClaimedIds<'a>,
    entries: Entries<'a>,
}

impl<'a> Claimed<'a> {
    /// The entries that were claimed.
    pub fn entries(&self) -> Entries<'a> {
        self.entries
    }

    /// Their ids, and the rest of the reply.
    pub fn ids(&self) -> ClaimedIds<'a> {
        self.ids
    }
}

/// The reply of XAUTOCLAIM with JUSTID, and what each reply of XAUTOCLAIM has.
#[derive(Clone, Copy, Debug)]
pub struct ClaimedIds<'a> {
    bytes: &'a [u8],
    next_id: &'a str,
    claimed: &'a [raw::Entry],
    deleted: &'a [raw::Entry],
    len: usize,
}

impl<'a> ClaimedIds<'a> {
    /// The id from which the next XAUTOCLAIM goes on: `0-0` at the end.
    pub fn next_id(&self) -> &'a str {
        self.next_id
    }

    /// The ids that were claimed.
    pub fn claimed(&self) -> impl ExactSizeIterator<Item = &'a str> + 'a {
        let bytes = self.bytes;
        self.claimed.iter().map(move |row| utf8(bytes, row.id))
    }

    /// The ids that were pending and are no longer in the stream.
    pub fn deleted(&self) -> impl ExactSizeIterator<Item = &'a str> + 'a {
        let bytes = self.bytes;
        self.deleted.iter().map(move |row| utf8(bytes, row.id))
    }

    /// How many bytes the reply has: the next one is after them.
    pub fn reply_len(&self) -> usize {
        self.len
    }
}

/// Any reply. Attributes are left out.
#[derive(Clone, Debug, PartialEq)]
#[non_exhaustive]
pub enum Value<'a> {
    Null,
    Int(i64),
    Bool(bool),
    Double(f64),
    /// A big number, as its digits.
    BigNumber(&'a [u8]),
    /// A simple string, a bulk string, or a verbatim string without its kind.
    Text(&'a [u8]),
    /// An error of the server.
    Error(&'a [u8]),
    /// An array, a set or a push.
    Array(Vec<Value<'a>>),
    Map(Vec<(Value<'a>, Value<'a>)>),
}

/// The value of a node with its members, and the index of the node after them.
fn value_at<'a>(nodes: &[raw::Node], index: usize, bytes: &'a [u8]) -> (Value<'a>, usize) {
    let node = nodes[index];
    if !matches!(node.kind, b'*' | b'~' | b'>' | b'%' | b'|') {
        return (scalar(node.kind, text(bytes, node.text)), node.end);
    }
    let mut members = Vec::new();
    let mut next = index + 1;
    while next < node.end {
        let (member, after) = value_at(nodes, next, bytes);
        members.push(member);
        next = after;
    }
    let value = match node.kind {
        b'|' => members.pop().unwrap_or(Value::Null),
        b'%' => Value::Map(pairs(members)),
        _ => Value::Array(members),
    };
    (value, node.end)
}

fn pairs<'a>(members: Vec<Value<'a>>) -> Vec<(Value<'a>, Value<'a>)> {
    let mut members = members.into_iter();
    let mut pairs = Vec::with_capacity(members.len() / 2);
    while let (Some(key), Some(value)) = (members.next(), members.next()) {
        pairs.push((key, value));
    }
    pairs
}

fn scalar(kind: u8, text: &[u8]) -> Value<'_> {
    let parsed = str::from_utf8(text).unwrap_or_default();
    match kind {
        b':' => parsed.parse().map_or(Value::Text(text), Value::Int),
        b',' => parsed.parse().map_or(Value::Text(text), Value::Double),
        b'(' => Value::BigNumber(text),
        b'#' => Value::Bool(text == b"t"),
        b'_' => Value::Null,
        b'-' | b'!' => Value::Error(text),
        b'=' => Value::Text(text.get(4..).unwrap_or_default()),
        _ => Value::Text(text),
    }
}
