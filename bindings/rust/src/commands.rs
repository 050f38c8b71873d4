//! Commands with their options, as the bytes that a server reads.
//!
//! Texts are any bytes, but the ids and producers in options are UTF-8. Times are milliseconds.
//!
//! ```
//! use redis_streams::commands::{Ack, Add, Bound, ReadGroup};
//!
//! let add = Add::new("orders").trim(Bound::MaxLen(1000).approximate()).field("item", "tea").pack()?;
//! let read = ReadGroup::new("workers", "ann").count(100).block(5000).stream("orders", ">").pack()?;
//! let ack = Ack::new("orders", "workers").id("1-0").id("2-0").pack()?;
//! assert_eq!(ack, b"*5\r\n$4\r\nXACK\r\n$6\r\norders\r\n$7\r\nworkers\r\n$3\r\n1-0\r\n$3\r\n2-0\r\n");
//! # Ok::<(), redis_streams::Error>(())
//! ```
use crate::error::{Error, OK, ROOM};
use crate::raw;

/// A command of any words, for what no builder here writes.
///
/// ```
/// assert_eq!(redis_streams::commands::pack(["XLEN", "orders"]), b"*2\r\n$4\r\nXLEN\r\n$6\r\norders\r\n");
/// ```
pub fn pack<T: AsRef<[u8]>>(words: impl IntoIterator<Item = T>) -> Vec<u8> {
    let mut count = 0;
    let mut body = Vec::new();
    for word in words {
        let word = word.as_ref();
        body.extend_from_slice(format!("${}\r\n", word.len()).as_bytes());
        body.extend_from_slice(word);
        body.extend_from_slice(b"\r\n");
        count += 1;
    }
    let mut command = format!("*{count}\r\n").into_bytes();
    command.append(&mut body);
    command
}

/// The bytes that a call writes, in a buffer that is as large as the call wants it.
pub(crate) fn packed(call: impl Fn(&mut [u8], &mut usize) -> u32) -> Result<Vec<u8>, Error> {
    let mut out = vec![0; 256];
    loop {
        let mut len = 0;
        match call(&mut out, &mut len) {
            OK => {
                out.truncate(len);
                return Ok(out);
            }
            ROOM => out.resize(len, 0),
            number => return Err(Error::of(number, 0, b"")),
        }
    }
}

/// Texts one after the other, each at a place.
#[derive(Clone, Debug, Default)]
struct Texts(Vec<u8>);

impl Texts {
    fn add(&mut self, text: impl AsRef<[u8]>) -> raw::Span {
        let start = self.0.len();
        self.0.extend_from_slice(text.as_ref());
        raw::Span { start, len: self.0.len() - start }
    }

    fn pair(&mut self, name: impl AsRef<[u8]>, value: impl AsRef<[u8]>) -> raw::Field {
        raw::Field { name: self.add(name), value: self.add(value) }
    }

    fn entry(&mut self, id: impl AsRef<[u8]>) -> raw::Entry {
        raw::Entry { id: self.add(id), ..raw::Entry::default() }
    }
}

fn owned(text: impl AsRef<[u8]>) -> Vec<u8> {
    text.as_ref().to_vec()
}

/// What a stream is trimmed to.
#[derive(Clone, Debug, PartialEq, Eq)]
pub enum Bound {
    /// So many entries are left.
    MaxLen(usize),
    /// Entries from this id on are left.
    MinId(String),
}

impl Bound {
    /// `=`: exactly to the bound.
    pub fn exactly(self) -> Trimming {
        Trimming { bound: self, approximate: false, limit: None }
    }

    /// `~`: some entries more may stay.
    pub fn approximate(self) -> Trimming {
        Trimming { bound: self, approximate: true, limit: None }
    }
}

/// How a stream is trimmed.
#[derive(Clone, Debug, PartialEq, Eq)]
pub struct Trimming {
    bound: Bound,
    approximate: bool,
    limit: Option<usize>,
}

impl Trimming {
    /// LIMIT: one call removes at most so many entries.
    pub fn limit(mut self, limit: usize) -> Trimming {
        self.limit = Some(limit);
        self
    }

    fn set(&self, texts: &mut Texts, settings: &mut raw::TrimSettings) {
        settings.approximate = self.approximate;
        settings.has_limit = self.limit.is_some();
        settings.limit = self.limit.unwrap_or(0);
        match &self.bound {
            Bound::MaxLen(maxlen) => (settings.bound, settings.maxlen) = (1, *maxlen),
            Bound::MinId(id) => (settings.bound, settings.minid) = (2, texts.add(id)),
        }
    }
}

/// What happens to a deleted entry that is in the list of pending entries of a group.
#[derive(Clone, Copy, Debug, PartialEq, Eq)]
pub enum Policy {
    KeepRef = 1,
    DelRef = 2,
    Acked = 3,
}

/// XADD.
#[derive(Clone, Debug)]
pub struct Add {
    key: Vec<u8>,
    id: Vec<u8>,
    settings: raw::AddSettings,
    texts: Texts,
    fields: Vec<raw::Field>,
}

impl Add {
    /// An entry with an id that the server makes.
    pub fn new(key: impl AsRef<[u8]>) -> Add {
        Add {
            key: owned(key),
            id: owned("*"),
            settings: Default::default(),
            texts: Texts::default(),
            fields: Vec::new(),
        }
    }

    pub fn id(mut self, id: impl AsRef<[u8]>) -> Add {
        self.id = owned(id);
        self
    }

    /// One more field; there has to be one at least.
    pub fn field(mut self, name: impl AsRef<[u8]>, value: impl AsRef<[u8]>) -> Add {
        self.fields.push(self.texts.pair(name, value));
        self
    }

    /// A stream that does not exist is not made.
    pub fn nomkstream(mut self) -> Add {
        self.settings.nomkstream = true;
        self
    }

    pub fn policy(mut self, policy: Policy) -> Add {
        self.settings.trim.policy = policy as u32;
        self
    }

    /// IDMP: a duplicate has the same producer and the same item.
    pub fn idmp(mut self, producer: &str, item: &str) -> Add {
        self.settings.idempotency = 1;
        (self.settings.producer, self.settings.idempotent_id) = (self.texts.add(producer), self.texts.add(item));
        self
    }

    /// IDMPAUTO: a duplicate has the same producer and the same fields.
    pub fn idmpauto(mut self, producer: &str) -> Add {
        self.settings.idempotency = 2;
        self.settings.producer = self.texts.add(producer);
        self
    }

    pub fn trim(mut self, trimming: Trimming) -> Add {
        trimming.set(&mut self.texts, &mut self.settings.trim);
        self
    }

    pub fn pack(&self) -> Result<Vec<u8>, Error> {
        packed(|out, len| raw::xadd(&self.key, &self.id, &self.settings, &self.texts.0, &self.fields, out, len))
    }
}

/// XTRIM.
#[derive(Clone, Debug)]
pub struct Trim {
    key: Vec<u8>,
    settings: raw::TrimSettings,
    texts: Texts,
}

impl Trim {
    pub fn new(key: impl AsRef<[u8]>, trimming: Trimming) -> Trim {
        let mut trim = Trim { key: owned(key), settings: Default::default(), texts: Texts::default() };
        trimming.set(&mut trim.texts, &mut trim.settings);
        trim
    }

    pub fn policy(mut self, policy: Policy) -> Trim {
        self.settings.policy = policy as u32;
        self
    }

    pub fn pack(&self) -> Result<Vec<u8>, Error> {
        packed(|out, len| raw::xtrim(&self.key, &self.settings, &self.texts.0, out, len))
    }
}

/// XREAD.
#[derive(Clone, Debug, Default)]
pub struct Read {
    settings: raw::ReadSettings,
    texts: Texts,
    streams: Vec<raw::Field>,
}

impl Read {
    pub fn new() -> Read {
        Read::default()
    }

    /// One more stream, and the id after which it is read; there has to be one at least.
    pub fn stream(mut self, key: impl AsRef<[u8]>, id: impl AsRef<[u8]>) -> Read {
        self.streams.push(self.texts.pair(key, id));
        self
    }

    pub fn count(mut self, count: usize) -> Read {
        (self.settings.has_count, self.settings.count) = (true, count);
        self
    }

    /// The read waits so many milliseconds for entries, and 0 without end.
    pub fn block(mut self, block: usize) -> Read {
        (self.settings.has_block, self.settings.block) = (true, block);
        self
    }

    pub fn pack(&self) -> Result<Vec<u8>, Error> {
        packed(|out, len| raw::xread(&self.settings, &self.texts.0, &self.streams, out, len))
    }
}

/// XREADGROUP.
#[derive(Clone, Debug)]
pub struct ReadGroup {
    group: Vec<u8>,
    consumer: Vec<u8>,
    read: Read,
}

impl ReadGroup {
    pub fn new(group: impl AsRef<[u8]>, consumer: impl AsRef<[u8]>) -> ReadGroup {
        ReadGroup { group: owned(group), consumer: owned(consumer), read: Read::new() }
    }

    /// One more stream: with `>` it is read for entries that no consumer was given yet.
    pub fn stream(mut self, key: impl AsRef<[u8]>, id: impl AsRef<[u8]>) -> ReadGroup {
        self.read = self.read.stream(key, id);
        self
    }

    pub fn count(mut self, count: usize) -> ReadGroup {
        self.read = self.read.count(count);
        self
    }

    /// The read waits so many milliseconds for entries, and 0 without end.
    pub fn block(mut self, block: usize) -> ReadGroup {
        self.read = self.read.block(block);
        self
    }

    /// What is read needs no acknowledgement, and is lost if the consumer is.
    pub fn noack(mut self) -> ReadGroup {
        self.read.settings.noack = true;
        self
    }

    /// CLAIM of Redis 8.4: entries that are idle for so long come first. The reply has four values an entry, which
    /// [`Tables::find_value`](crate::Tables::find_value) reads, and `find_streams` does not.
    pub fn claim(mut self, min_idle: usize) -> ReadGroup {
        (self.read.settings.has_claim, self.read.settings.claim) = (true, min_idle);
        self
    }

    pub fn pack(&self) -> Result<Vec<u8>, Error> {
        let Read { settings, texts, streams } = &self.read;
        packed(|out, len| raw::xreadgroup(settings, &self.group, &self.consumer, &texts.0, streams, out, len))
    }
}

/// XACK.
#[derive(Clone, Debug)]
pub struct Ack {
    key: Vec<u8>,
    group: Vec<u8>,
    texts: Texts,
    ids: Vec<raw::Entry>,
}

impl Ack {
    pub fn new(key: impl AsRef<[u8]>, group: impl AsRef<[u8]>) -> Ack {
        Ack { key: owned(key), group: owned(group), texts: Texts::default(), ids: Vec::new() }
    }

    /// One more id; there has to be one at least.
    pub fn id(mut self, id: impl AsRef<[u8]>) -> Ack {
        self.ids.push(self.texts.entry(id));
        self
    }

    pub fn ids<T: AsRef<[u8]>>(self, ids: impl IntoIterator<Item = T>) -> Ack {
        ids.into_iter().fold(self, Ack::id)
    }

    pub fn pack(&self) -> Result<Vec<u8>, Error> {
        packed(|out, len| raw::xack(&self.key, &self.group, &self.texts.0, &self.ids, out, len))
    }
}

/// XCLAIM.
#[derive(Clone, Debug)]
pub struct Claim {
    key: Vec<u8>,
    group: Vec<u8>,
    consumer: Vec<u8>,
    min_idle: usize,
    settings: raw::ClaimSettings,
    texts: Texts,
    ids: Vec<raw::Entry>,
}

impl Claim {
    /// Entries that are pending for at least `min_idle` milliseconds.
    pub fn new(key: impl AsRef<[u8]>, group: impl AsRef<[u8]>, consumer: impl AsRef<[u8]>, min_idle: usize) -> Claim {
        Claim {
            key: owned(key),
            group: owned(group),
            consumer: owned(consumer),
            min_idle,
            settings: Default::default(),
            texts: Texts::default(),
            ids: Vec::new(),
        }
    }

    /// One more id; there has to be one at least.
    pub fn id(mut self, id: impl AsRef<[u8]>) -> Claim {
        self.ids.push(self.texts.entry(id));
        self
    }

    pub fn ids<T: AsRef<[u8]>>(self, ids: impl IntoIterator<Item = T>) -> Claim {
        ids.into_iter().fold(self, Claim::id)
    }

    /// IDLE: the entries count as idle for so many milliseconds.
    pub fn idle(mut self, idle: usize) -> Claim {
        (self.settings.has_idle, self.settings.idle) = (true, idle);
        self
    }

    /// TIME: they count as last delivered so many milliseconds after the start of 1970.
    pub fn time(mut self, time: usize) -> Claim {
        (self.settings.has_time, self.settings.time) = (true, time);
        self
    }

    /// RETRYCOUNT: they count as delivered so often.
    pub fn retrycount(mut self, count: usize) -> Claim {
        (self.settings.has_retry, self.settings.retry) = (true, count);
        self
    }

    /// An entry that is pending for nobody is claimed too.
    pub fn force(mut self) -> Claim {
        self.settings.force = true;
        self
    }

    /// The reply has only the ids.
    pub fn justid(mut self) -> Claim {
        self.settings.justid = true;
        self
    }

    /// LASTID: this id is noted as the one that the group was delivered last.
    pub fn lastid(mut self, id: &str) -> Claim {
        (self.settings.has_lastid, self.settings.lastid) = (true, self.texts.add(id));
        self
    }

    pub fn pack(&self) -> Result<Vec<u8>, Error> {
        let Claim { key, group, consumer, min_idle, .. } = self;
        let by = raw::Claimer { key, group, consumer, min_idle: *min_idle };
        packed(|out, len| raw::xclaim(&by, &self.settings, &self.texts.0, &self.ids, out, len))
    }
}

/// XAUTOCLAIM.
#[derive(Clone, Debug)]
pub struct Autoclaim {
    key: Vec<u8>,
    group: Vec<u8>,
    consumer: Vec<u8>,
    min_idle: usize,
    start: Vec<u8>,
    settings: raw::AutoclaimSettings,
}

impl Autoclaim {
    /// Entries that are pending for at least `min_idle` milliseconds, from the first one on.
    pub fn new(
        key: impl AsRef<[u8]>,
        group: impl AsRef<[u8]>,
        consumer: impl AsRef<[u8]>,
        min_idle: usize,
    ) -> Autoclaim {
        Autoclaim {
            key: owned(key),
            group: owned(group),
            consumer: owned(consumer),
            min_idle,
            start: owned("0-0"),
            settings: Default::default(),
        }
    }

    /// The id to begin with: the `next_id` of the reply before.
    pub fn start(mut self, id: impl AsRef<[u8]>) -> Autoclaim {
        self.start = owned(id);
        self
    }

    pub fn count(mut self, count: usize) -> Autoclaim {
        (self.settings.has_count, self.settings.count) = (true, count);
        self
    }

    /// The reply has only the ids: [`Tables::find_justid`](crate::Tables::find_justid) reads it.
    pub fn justid(mut self) -> Autoclaim {
        self.settings.justid = true;
        self
    }

    pub fn pack(&self) -> Result<Vec<u8>, Error> {
        let Autoclaim { key, group, consumer, min_idle, .. } = self;
        let by = raw::Claimer { key, group, consumer, min_idle: *min_idle };
        packed(|out, len| raw::xautoclaim(&by, &self.start, &self.settings, out, len))
    }
}

/// XPENDING with a range: [`read_pending`](crate::records::read_pending) reads its reply.
#[derive(Clone, Debug)]
pub struct Pending {
    key: Vec<u8>,
    group: Vec<u8>,
    start: Vec<u8>,
    end: Vec<u8>,
    count: usize,
    consumer: Vec<u8>,
    settings: raw::PendingSettings,
}

impl Pending {
    /// At most `count` of all pending entries.
    pub fn new(key: impl AsRef<[u8]>, group: impl AsRef<[u8]>, count: usize) -> Pending {
        Pending {
            key: owned(key),
            group: owned(group),
            start: owned("-"),
            end: owned("+"),
            count,
            consumer: Vec::new(),
            settings: Default::default(),
        }
    }

    /// Those from one id to another.
    pub fn range(mut self, start: impl AsRef<[u8]>, end: impl AsRef<[u8]>) -> Pending {
        (self.start, self.end) = (owned(start), owned(end));
        self
    }

    /// Those that are pending for so many milliseconds.
    pub fn idle(mut self, idle: usize) -> Pending {
        (self.settings.has_idle, self.settings.idle) = (true, idle);
        self
    }

    /// Those of one consumer.
    pub fn consumer(mut self, consumer: impl AsRef<[u8]>) -> Pending {
        (self.settings.has_consumer, self.consumer) = (true, owned(consumer));
        self
    }

    pub fn pack(&self) -> Result<Vec<u8>, Error> {
        let Pending { key, group, start, end, count, consumer, .. } = self;
        let of = raw::Pending { key, group, start, end, count: *count, consumer };
        packed(|out, len| raw::xpending(&of, &self.settings, out, len))
    }
}

/// XPENDING without a range: [`read_summary`](crate::records::read_summary) reads its reply.
pub fn pending_summary(key: impl AsRef<[u8]>, group: impl AsRef<[u8]>) -> Result<Vec<u8>, Error> {
    packed(|out, len| raw::xpending_summary(key.as_ref(), group.as_ref(), out, len))
}

/// XRANGE and XREVRANGE: [`Tables::find_range`](crate::Tables::find_range) reads the reply.
#[derive(Clone, Debug)]
pub struct Range {
    key: Vec<u8>,
    start: Vec<u8>,
    end: Vec<u8>,
    count: Option<usize>,
    is_reversed: bool,
}

impl Range {
    /// All entries, the least id first.
    pub fn new(key: impl AsRef<[u8]>) -> Range {
        Range { key: owned(key), start: owned("-"), end: owned("+"), count: None, is_reversed: false }
    }

    /// Those from one id to another, both included.
    pub fn between(mut self, start: impl AsRef<[u8]>, end: impl AsRef<[u8]>) -> Range {
        (self.start, self.end) = (owned(start), owned(end));
        self
    }

    /// At most so many of them.
    pub fn count(mut self, count: usize) -> Range {
        self.count = Some(count);
        self
    }

    /// The greatest id first.
    pub fn reversed(mut self) -> Range {
        self.is_reversed = true;
        self
    }

    pub fn pack(&self) -> Result<Vec<u8>, Error> {
        let Range { key, start, end, .. } = self;
        packed(|out, len| match (self.is_reversed, self.count) {
            (false, None) => raw::xrange(key, start, end, out, len),
            (false, Some(count)) => raw::xrange_count(key, start, end, count, out, len),
            (true, None) => raw::xrevrange(key, end, start, out, len),
            (true, Some(count)) => raw::xrevrange_count(key, end, start, count, out, len),
        })
    }
}

/// XLEN: how many entries there are.
pub fn length(key: impl AsRef<[u8]>) -> Result<Vec<u8>, Error> {
    packed(|out, len| raw::xlen(key.as_ref(), out, len))
}

/// XDEL of these ids; there has to be one at least.
pub fn delete<T: AsRef<[u8]>>(key: impl AsRef<[u8]>, ids: impl IntoIterator<Item = T>) -> Result<Vec<u8>, Error> {
    let mut texts = Texts::default();
    let ids: Vec<raw::Entry> = ids.into_iter().map(|id| texts.entry(id)).collect();
    packed(|out, len| raw::xdel(key.as_ref(), &texts.0, &ids, out, len))
}

/// XGROUP CREATE: the group is given the entries after `id`. With `mkstream` a stream that does not exist is made too.
pub fn create_group(
    key: impl AsRef<[u8]>,
    group: impl AsRef<[u8]>,
    id: impl AsRef<[u8]>,
    mkstream: bool,
) -> Result<Vec<u8>, Error> {
    packed(|out, len| raw::xgroup_create(key.as_ref(), group.as_ref(), id.as_ref(), mkstream, out, len))
}

/// XGROUP SETID: from now on the group is given the entries after `id`.
pub fn set_group_id(key: impl AsRef<[u8]>, group: impl AsRef<[u8]>, id: impl AsRef<[u8]>) -> Result<Vec<u8>, Error> {
    packed(|out, len| raw::xgroup_setid(key.as_ref(), group.as_ref(), id.as_ref(), out, len))
}

/// XGROUP DESTROY: removes the group, and what is pending for it.
pub fn destroy_group(key: impl AsRef<[u8]>, group: impl AsRef<[u8]>) -> Result<Vec<u8>, Error> {
    packed(|out, len| raw::xgroup_destroy(key.as_ref(), group.as_ref(), out, len))
}

/// XINFO STREAM: [`Tables::find_value`](crate::Tables::find_value) reads the reply.
pub fn info_stream(key: impl AsRef<[u8]>) -> Result<Vec<u8>, Error> {
    packed(|out, len| raw::xinfo_stream(key.as_ref(), out, len))
}

/// XINFO GROUPS: [`read_groups`](crate::records::read_groups) reads the reply.
pub fn info_groups(key: impl AsRef<[u8]>) -> Result<Vec<u8>, Error> {
    packed(|out, len| raw::xinfo_groups(key.as_ref(), out, len))
}

/// XINFO CONSUMERS: [`Tables::find_value`](crate::Tables::find_value) reads the reply.
pub fn info_consumers(key: impl AsRef<[u8]>, group: impl AsRef<[u8]>) -> Result<Vec<u8>, Error> {
    packed(|out, len| raw::xinfo_consumers(key.as_ref(), group.as_ref(), out, len))
}
