//! A small reader of the protocol, written apart from the library: what the tests compare it with.

const DEPTH: usize = 128;
const LENGTH: u64 = 512 << 20;
const LINE: usize = 64 << 10;

#[derive(Clone, Debug, PartialEq)]
pub enum Value {
    Null,
    Int(i64),
    Bool(bool),
    /// As it is written.
    Double(Vec<u8>),
    Big(Vec<u8>),
    Text(Vec<u8>),
    Error(Vec<u8>),
    Array(Vec<Value>),
    Map(Vec<Value>),
}

#[derive(Debug, PartialEq)]
pub enum Stop {
    Short,
    Refused,
    OtherShape,
}

pub type Fields = Option<Vec<(Vec<u8>, Vec<u8>)>>;
pub type Entry = (String, Fields);

/// What is found in place.
#[derive(Clone, Debug, PartialEq)]
pub enum Found {
    Streams(Vec<(String, Vec<Entry>)>),
    Range(Vec<Entry>),
    Claim(String, Vec<Entry>, Vec<String>),
    Ids(String, Vec<String>, Vec<String>),
    Value(Value),
}

#[derive(Clone, Debug, PartialEq)]
pub enum Outcome {
    Found(Found, usize),
    Error(Vec<u8>, usize),
    Other(usize),
    Refused,
    NotYet,
}

#[derive(Clone, Copy, Debug, PartialEq)]
pub enum Kind {
    Streams,
    Range,
    Claim,
    Ids,
    Value,
}

pub struct Reader<'a> {
    data: &'a [u8],
    at: usize,
}

type Read<T> = Result<T, Stop>;

fn all_digits(text: &[u8]) -> bool {
    !text.is_empty() && text.iter().all(u8::is_ascii_digit)
}

fn unsigned(text: &[u8]) -> &[u8] {
    text.strip_prefix(b"-").or(text.strip_prefix(b"+")).unwrap_or(text)
}

fn is_double(text: &[u8]) -> bool {
    if text.strip_prefix(b"-").unwrap_or(text) == b"inf" || text.strip_prefix(b"-").unwrap_or(text) == b"nan" {
        return true;
    }
    let (number, exponent) = match text.iter().position(|c| *c == b'e' || *c == b'E') {
        Some(at) => (&text[..at], Some(&text[at + 1..])),
        None => (text, None),
    };
    let number = unsigned(number);
    let is_number = match number.iter().position(|c| *c == b'.') {
        Some(at) => all_digits(&number[..at]) && all_digits(&number[at + 1..]),
        None => all_digits(number),
    };
    is_number && exponent.map_or(true, |it| all_digits(unsigned(it)))
}

fn shaped(condition: bool) -> Read<()> {
    condition.then_some(()).ok_or(Stop::OtherShape)
}

impl<'a> Reader<'a> {
    fn end(&mut self, at: usize) -> Read<()> {
        match &self.data[at..] {
            [] | [b'\r'] => Err(Stop::Short),
            [b'\r', b'\n', ..] => {
                self.at = at + 2;
                Ok(())
            }
            _ => Err(Stop::Refused),
        }
    }

    fn line(&mut self) -> Read<&'a [u8]> {
        let rest = &self.data[self.at..];
        let size = rest.iter().position(|c| *c == b'\r' || *c == b'\n').unwrap_or(rest.len());
        if size > LINE {
            return Err(Stop::Refused);
        }
        self.end(self.at + size)?;
        Ok(&rest[..size])
    }

    fn length(&mut self) -> Read<Option<usize>> {
        let text = self.line()?;
        if text == b"-1" {
            return Ok(None);
        }
        let number = std::str::from_utf8(text).ok().and_then(|it| it.parse::<u64>().ok());
        match number {
            Some(number) if all_digits(text) && number <= LENGTH => Ok(Some(number as usize)),
            _ => Err(Stop::Refused),
        }
    }

    fn bulk(&mut self, size: usize) -> Read<&'a [u8]> {
        let text = self.data[self.at..].get(..size).ok_or(Stop::Short)?;
        self.end(self.at + size)?;
        Ok(text)
    }

    fn value(&mut self, depth: usize) -> Read<Value> {
        if depth == 0 {
            return Err(Stop::Refused);
        }
        let kind = *self.data.get(self.at).ok_or(Stop::Short)?;
        self.at += 1;
        match kind {
            b'+' | b'-' | b':' | b'_' | b'#' | b',' | b'(' => {
                let text = self.line()?;
                scalar(kind, text)
            }
            b'$' | b'!' | b'=' => self.text(kind),
            b'*' | b'~' | b'%' | b'|' => self.group(kind, depth),
            _ => Err(Stop::Refused),
        }
    }

    fn text(&mut self, kind: u8) -> Read<Value> {
        let Some(size) = self.length()? else {
            return if kind == b'$' { Ok(Value::Null) } else { Err(Stop::Refused) };
        };
        let text = self.bulk(size)?;
        match kind {
            b'=' if text.get(3) != Some(&b':') => Err(Stop::Refused),
            b'=' => Ok(Value::Text(text[4..].to_vec())),
            b'!' => Ok(Value::Error(text.to_vec())),
            _ => Ok(Value::Text(text.to_vec())),
        }
    }

    fn group(&mut self, kind: u8, depth: usize) -> Read<Value> {
        let Some(size) = self.length()? else {
            return if kind == b'*' { Ok(Value::Null) } else { Err(Stop::Refused) };
        };
        let count = match kind {
            b'%' => 2 * size,
            b'|' => 2 * size + 1,
            _ => size,
        };
        let mut members = Vec::new();
        for _ in 0..count {
            members.push(self.value(depth - 1)?);
        }
        Ok(match kind {
            b'|' => members.pop().unwrap(),
            b'%' => Value::Map(members),
            _ => Value::Array(members),
        })
    }

    /// A value, or a message that the server pushes: its kind is a text.
    fn reply(&mut self) -> Read<Value> {
        if self.data.first() != Some(&b'>') {
            return self.value(DEPTH);
        }
        self.at = 1;
        let size = self.length()?.filter(|size| *size > 0).ok_or(Stop::Refused)?;
        match self.data.get(self.at) {
            None => return Err(Stop::Short),
            Some(b'+' | b'$') => (),
            Some(_) => return Err(Stop::Refused),
        }
        let kind = self.value(DEPTH)?;
        if !matches!(&kind, Value::Text(text) if std::str::from_utf8(text).is_ok()) {
            return Err(Stop::Refused);
        }
        let mut members = vec![kind];
        for _ in 1..size {
            members.push(self.value(DEPTH - 1)?);
        }
        Ok(Value::Array(members))
    }

    fn head(&mut self, kind: u8) -> Read<usize> {
        shaped(self.data.get(self.at) == Some(&kind))?;
        self.at += 1;
        self.length()?.ok_or(Stop::OtherShape)
    }

    fn octets(&mut self) -> Read<Vec<u8>> {
        let size = self.head(b'$')?;
        Ok(self.bulk(size)?.to_vec())
    }

    fn name(&mut self) -> Read<String> {
        String::from_utf8(self.octets()?).map_err(|_| Stop::OtherShape)
    }

    fn nil(&mut self) -> Read<bool> {
        let begun = self.at;
        let kind = self.data.get(begun).copied();
        if matches!(kind, Some(b'*' | b'$' | b'_')) {
            self.at += 1;
            if if kind == Some(b'_') { self.line()?.is_empty() } else { self.length()?.is_none() } {
                return Ok(true);
            }
        }
        self.at = begun;
        Ok(false)
    }

    fn entry(&mut self) -> Read<Entry> {
        shaped(self.head(b'*')? == 2)?;
        let id = self.name()?;
        if self.nil()? {
            return Ok((id, None));
        }
        let size = self.head(b'*')?;
        shaped(size % 2 == 0)?;
        let mut fields = Vec::new();
        for _ in 0..size / 2 {
            fields.push((self.octets()?, self.octets()?));
        }
        Ok((id, Some(fields)))
    }

    fn entries(&mut self) -> Read<Vec<Entry>> {
        (0..self.head(b'*')?).map(|_| self.entry()).collect()
    }

    fn ids(&mut self) -> Read<Vec<String>> {
        (0..self.head(b'*')?).map(|_| self.name()).collect()
    }

    fn streams(&mut self) -> Read<Found> {
        if self.nil()? {
            return Ok(Found::Streams(Vec::new()));
        }
        let in_map = self.data.first() == Some(&b'%');
        let mut found = Vec::new();
        for _ in 0..self.head(if in_map { b'%' } else { b'*' })? {
            shaped(in_map || self.head(b'*')? == 2)?;
            found.push((self.name()?, self.entries()?));
        }
        Ok(Found::Streams(found))
    }

    fn claim(&mut self, of_ids: bool) -> Read<Found> {
        let size = self.head(b'*')?;
        shaped(size == 2 || size == 3)?;
        let next = self.name()?;
        let (ids, entries) = if of_ids { (self.ids()?, Vec::new()) } else { (Vec::new(), self.entries()?) };
        let gone = if size == 3 { self.ids()? } else { Vec::new() };
        Ok(if of_ids { Found::Ids(next, ids, gone) } else { Found::Claim(next, entries, gone) })
    }

    fn in_place(&mut self, kind: Kind) -> Read<Found> {
        match kind {
            Kind::Streams => self.streams(),
            Kind::Range => self.entries().map(Found::Range),
            Kind::Claim => self.claim(false),
            Kind::Ids => self.claim(true),
            Kind::Value => Err(Stop::OtherShape),
        }
    }
}

fn scalar(kind: u8, text: &[u8]) -> Read<Value> {
    let owned = text.to_vec();
    match kind {
        b':' => {
            let number = std::str::from_utf8(text).ok().and_then(|it| it.parse().ok());
            number.filter(|_| all_digits(unsigned(text))).map(Value::Int).ok_or(Stop::Refused)
        }
        b'_' if text.is_empty() => Ok(Value::Null),
        b'#' if text == b"t" || text == b"f" => Ok(Value::Bool(text == b"t")),
        b',' if is_double(text) => Ok(Value::Double(owned)),
        b'(' if all_digits(unsigned(text)) => Ok(Value::Big(owned)),
        b'-' => Ok(Value::Error(owned)),
        b'+' => Ok(Value::Text(owned)),
        _ => Err(Stop::Refused),
    }
}

/// What is at the head of the bytes.
pub fn outcome(kind: Kind, data: &[u8]) -> Outcome {
    let mut reader = Reader { data, at: 0 };
    if let Ok(found) = reader.in_place(kind) {
        return Outcome::Found(found, reader.at);
    }
    let mut reader = Reader { data, at: 0 };
    match reader.reply() {
        Err(Stop::Short) => Outcome::NotYet,
        Err(_) => Outcome::Refused,
        Ok(value) if kind == Kind::Value => Outcome::Found(Found::Value(value), reader.at),
        Ok(Value::Error(text)) => Outcome::Error(text, reader.at),
        Ok(_) => Outcome::Other(reader.at),
    }
}
