//! Replies, whole, in pieces, and changed at random, beside the reader of `resp`.
mod resp;

use redis_streams::{Decoder, Entries, Error, Fault, Tables, Value};
use resp::{Entry, Found, Kind, Outcome};

const MUTATIONS: usize = 100_000;

fn bulk(text: &[u8]) -> Vec<u8> {
    [format!("${}\r\n", text.len()).as_bytes(), text, b"\r\n"].concat()
}

fn group(members: &[Vec<u8>]) -> Vec<u8> {
    [format!("*{}\r\n", members.len()).into_bytes(), members.concat()].concat()
}

fn entry(id: &str, fields: &[&[u8]]) -> Vec<u8> {
    group(&[bulk(id.as_bytes()), group(&fields.iter().map(|it| bulk(it)).collect::<Vec<_>>())])
}

fn rows() -> Vec<u8> {
    let octets: Vec<u8> = (0..40).collect();
    group(&[
        entry("1-0", &[b"item", b"tea", b"cups", b"2"]),
        entry("2-0", &[b"item", b"\r\nmilk"]),
        [b"*2\r\n", &bulk(b"3-0")[..], b"*-1\r\n"].concat(),
        entry("4-1", &[b"\xff", b"v", b"n", b"\xfe", b"\xff", b""]),
        entry("1526919030474-55", &["naïve".as_bytes(), &octets, b"", b"", b"item", b"1", b"item", b"2"]),
    ])
}

/// Replies as servers send them, each with the reading that they are of.
fn stored() -> Vec<(Kind, Vec<u8>)> {
    let (orders, more) = (bulk(b"orders"), bulk(b"more"));
    let ids = group(&[bulk(b"4-0"), bulk(b"4-1")]);
    let mut found = vec![
        (Kind::Streams, group(&[group(&[orders.clone(), rows()])])),
        (Kind::Streams, group(&[group(&[orders.clone(), rows()]), group(&[more.clone(), group(&[])])])),
        (Kind::Streams, [b"%2\r\n", &orders[..], &rows(), &more, &rows()].concat()),
        (Kind::Range, rows()),
        (Kind::Claim, group(&[bulk(b"5-0"), rows(), ids.clone()])),
        (Kind::Claim, group(&[bulk(b"0-0"), rows()])),
        (Kind::Ids, group(&[bulk(b"5-0"), ids.clone(), ids])),
        (Kind::Ids, group(&[bulk(b"0-0"), group(&[]), group(&[])])),
    ];
    for text in ["*-1\r\n", "_\r\n", "-NOGROUP no such group\r\n"] {
        found.push((Kind::Streams, text.into()));
    }
    for text in [
        "+OK\r\n",
        ":12\r\n",
        "#t\r\n",
        ",1.5e3\r\n",
        "(12345678901234567890\r\n",
        "=7\r\ntxt:abc\r\n",
        "!5\r\nERR x\r\n",
        "~2\r\n:1\r\n:2\r\n",
        "%2\r\n+first\r\n*3\r\n:1\r\n$2\r\nab\r\n*-1\r\n+last\r\n-ERR no\r\n",
        "|1\r\n+ttl\r\n:5\r\n$2\r\nok\r\n",
        ">2\r\n+message\r\n$2\r\nhi\r\n",
        "*1\r\n*2\r\n$1\r\nk\r\n*1\r\n*4\r\n$3\r\n1-0\r\n*0\r\n:60000\r\n:3\r\n",
    ] {
        found.push((Kind::Value, text.into()));
    }
    found
}

struct Random(u64);

impl Random {
    fn below(&mut self, most: usize) -> usize {
        self.0 ^= self.0 << 13;
        self.0 ^= self.0 >> 7;
        self.0 ^= self.0 << 17;
        (self.0 % most as u64) as usize
    }

    fn mutated(&mut self, data: &[u8]) -> Vec<u8> {
        const MARKS: &[u8] = b"0123456789-+$*:%~>|#_,(!=\r\n?";
        let mut data = data.to_vec();
        for _ in 0..[1, 1, 1, 2, 3][self.below(5)] {
            let at = self.below(data.len() + 1);
            match self.below(6) {
                0 if at < data.len() => data[at] = self.below(256) as u8,
                1 if at < data.len() => data[at] = MARKS[self.below(MARKS.len())],
                2 => drop(data.drain(at..data.len().min(at + 1 + self.below(3)))),
                3 => data.insert(at, MARKS[self.below(MARKS.len())]),
                4 => data.truncate(at),
                _ => drop(data.splice(at..at, data[..data.len().min(1 + self.below(8))].to_vec())),
            }
        }
        data
    }
}

fn entries(found: Entries<'_>) -> Vec<Entry> {
    let fields = |it: redis_streams::Entry<'_>| it.fields().map(|(name, value)| (name.into(), value.into())).collect();
    found.iter().map(|it| (it.id().into(), (!it.is_deleted()).then(|| fields(it)))).collect()
}

fn value(found: &Value<'_>) -> resp::Value {
    match found {
        Value::Null => resp::Value::Null,
        Value::Int(number) => resp::Value::Int(*number),
        Value::Bool(truth) => resp::Value::Bool(*truth),
        Value::Double(number) => resp::Value::Double(number.to_string().into()),
        Value::BigNumber(text) => resp::Value::Big(text.to_vec()),
        Value::Text(text) => resp::Value::Text(text.to_vec()),
        Value::Error(text) => resp::Value::Error(text.to_vec()),
        Value::Array(members) => resp::Value::Array(members.iter().map(value).collect()),
        Value::Map(pairs) => resp::Value::Map(pairs.iter().flat_map(|(key, it)| [value(key), value(it)]).collect()),
        _ => panic!("a value of no kind"),
    }
}

/// Doubles as Rust shows them, so that `1.50` is `1.5`.
fn with_doubles(found: resp::Value) -> resp::Value {
    let all = |members: Vec<resp::Value>| members.into_iter().map(with_doubles).collect();
    match found {
        resp::Value::Double(text) => {
            resp::Value::Double(String::from_utf8(text).unwrap().parse::<f64>().unwrap().to_string().into())
        }
        resp::Value::Array(members) => resp::Value::Array(all(members)),
        resp::Value::Map(members) => resp::Value::Map(all(members)),
        other => other,
    }
}

fn owned<'a>(ids: impl Iterator<Item = &'a str>) -> Vec<String> {
    ids.map(String::from).collect()
}

fn in_place(tables: &mut Tables, kind: Kind, data: &[u8]) -> Result<Option<(Found, usize)>, Error> {
    Ok(match kind {
        Kind::Streams => tables.find_streams(data)?.map(|it| {
            let streams = it.iter().map(|one| (one.name().into(), entries(one.entries()))).collect();
            (Found::Streams(streams), it.reply_len())
        }),
        Kind::Range => tables.find_range(data)?.map(|it| (Found::Range(entries(it)), it.reply_len())),
        Kind::Claim => tables.find_autoclaim(data)?.map(|it| {
            let ids = it.ids();
            assert_eq!(owned(ids.claimed()), owned(it.entries().iter().map(|one| one.id())));
            let gone = owned(ids.deleted());
            (Found::Claim(ids.next_id().into(), entries(it.entries()), gone), ids.reply_len())
        }),
        Kind::Ids => tables
            .find_justid(data)?
            .map(|it| (Found::Ids(it.next_id().into(), owned(it.claimed()), owned(it.deleted())), it.reply_len())),
        Kind::Value => tables.find_value(data)?.map(|(it, len)| (Found::Value(value(&it)), len)),
    })
}

/// What the crate says of bytes: an error of no other kind than these.
fn outcome(tables: &mut Tables, kind: Kind, data: &[u8]) -> Outcome {
    match in_place(tables, kind, data) {
        Ok(Some((found, len))) => Outcome::Found(found, len),
        Ok(None) => Outcome::NotYet,
        Err(Error::Server { text, len }) => Outcome::Error(text, len),
        Err(Error::OtherReply { len }) => Outcome::Other(len),
        Err(Error::Protocol(_)) => Outcome::Refused,
        Err(error) => panic!("{error}"),
    }
}

fn agree(tables: &mut Tables, kind: Kind, data: &[u8]) -> Outcome {
    let wanted = match resp::outcome(kind, data) {
        Outcome::Found(Found::Value(it), len) => Outcome::Found(Found::Value(with_doubles(it)), len),
        other => other,
    };
    assert_eq!(outcome(tables, kind, data), wanted, "{kind:?} {:?}", String::from_utf8_lossy(data));
    wanted
}

#[test]
fn stored_replies() {
    let mut tables = Tables::new();
    for (kind, reply) in stored() {
        for data in [reply.clone(), [&reply[..], b"+OK\r\n"].concat()] {
            let found = agree(&mut tables, kind, &data);
            assert!(matches!(&found, Outcome::Found(..) | Outcome::Error(..)), "{found:?}");
        }
        for end in 0..reply.len() {
            assert_eq!(agree(&mut tables, kind, &reply[..end]), Outcome::NotYet);
        }
        for other in [Kind::Streams, Kind::Range, Kind::Claim, Kind::Ids, Kind::Value] {
            agree(&mut tables, other, &reply);
        }
    }
}

#[test]
fn mutated_replies() {
    let (stored, mut random, mut tables) = (stored(), Random(20261126), Tables::new());
    let mut tally = [0; 5];
    for _ in 0..MUTATIONS {
        let (kind, reply) = &stored[random.below(stored.len())];
        let index = match agree(&mut tables, *kind, &random.mutated(reply)) {
            Outcome::Found(..) => 0,
            Outcome::Error(..) => 1,
            Outcome::Other(..) => 2,
            Outcome::Refused => 3,
            Outcome::NotYet => 4,
        };
        tally[index] += 1;
    }
    assert!(tally.iter().all(|count| *count > 0), "{tally:?}");
}

#[test]
fn in_pieces() {
    let data: Vec<u8> = (0..3).flat_map(|_| rows()).collect();
    for size in [1, 7, 1000] {
        let (mut decoder, mut count) = (Decoder::new(), 0);
        for piece in data.chunks(size) {
            decoder.feed(piece);
            while let Some(found) = decoder.range().unwrap() {
                assert_eq!(found.get(0).unwrap().get("item"), Some(&b"tea"[..]));
                assert_eq!(found.last().unwrap().get("item"), Some(&b"2"[..]));
                count += 1;
            }
        }
        assert_eq!((count, decoder.is_empty()), (3, true));
    }
}

#[test]
fn after_an_error() {
    let mut decoder = Decoder::new();
    decoder.feed(b"-ERR no\r\n:1\r\n*-1\r\n?");
    assert_eq!(decoder.streams().unwrap_err(), Error::Server { text: b"ERR no".to_vec(), len: 9 });
    assert_eq!(decoder.streams().unwrap_err(), Error::OtherReply { len: 4 });
    assert!(decoder.streams().unwrap().unwrap().is_empty());
    for _ in 0..2 {
        assert_eq!(decoder.streams().unwrap_err(), Error::Protocol(Fault::UnknownType));
    }
}

#[test]
fn faults_by_name() {
    let deep = "*1\r\n".repeat(200);
    let long = format!("+{}", "a".repeat(70_000));
    for (data, fault) in [
        ("?", Fault::UnknownType),
        ("$?\r\n", Fault::StreamedValue),
        ("$1\r\nab", Fault::BadEnd),
        ("$x\r\n", Fault::BadLength),
        ("$999999999\r\n", Fault::TooLong),
        (&long, Fault::LongLine),
        (&deep, Fault::TooDeep),
        (":x\r\n", Fault::BadNumber),
        ("_x\r\n", Fault::BadNull),
        ("#x\r\n", Fault::BadBoolean),
        ("=1\r\nx\r\n", Fault::BadVerbatim),
        (">0\r\n", Fault::BadPush),
    ] {
        assert_eq!(Tables::new().find_value(data.as_bytes()), Err(Error::Protocol(fault)));
        assert!(Error::Protocol(fault).to_string().contains(&fault.to_string()));
    }
    assert_eq!(Tables::new().find_value(b">1\r\n$1\r\n\xff\r\n"), Err(Error::Protocol(Fault::NotUtf8)));
}
