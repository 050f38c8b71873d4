//! Reads entries for a consumer of a group, prints them, and acknowledges what it printed: at least once.
//!
//! usage: consumer HOST:PORT KEY GROUP CONSUMER
//!
//! It begins with the entries that this consumer was given and did not acknowledge.
use redis_streams::commands::{Ack, ReadGroup};
use redis_streams::{Connection, ConnectionError};
use std::error::Error;
use std::io::Write;
use std::net::TcpStream;

/// Reads once, after an id, and returns the ids of what it printed.
fn read(
    connection: &mut Connection<TcpStream>,
    read: &ReadGroup,
    out: &mut impl Write,
) -> Result<Vec<String>, ConnectionError> {
    connection.send(&read.pack()?)?;
    let mut ids = Vec::new();
    for entry in connection.streams()?.entries().iter() {
        write!(out, "{}", entry.id())?;
        for (name, value) in entry.fields() {
            write!(out, " {}={}", String::from_utf8_lossy(name), String::from_utf8_lossy(value))?;
        }
        writeln!(out)?;
        ids.push(entry.id().to_string());
    }
    out.flush()?;
    Ok(ids)
}

fn main() -> Result<(), Box<dyn Error>> {
    let words: Vec<String> = std::env::args().skip(1).collect();
    let [address, key, group, consumer] = &words[..] else {
        return Err("usage: consumer HOST:PORT KEY GROUP CONSUMER".into());
    };
    let mut connection = Connection::new(TcpStream::connect(address)?);
    let mut out = std::io::stdout().lock();
    let asked = ReadGroup::new(group, consumer).count(100).block(5000);
    let mut after = String::from("0-0");
    loop {
        let ids = read(&mut connection, &asked.clone().stream(key, &after), &mut out)?;
        match ids.last() {
            Some(last) if after != ">" => after.clone_from(last),
            None => after = String::from(">"),
            Some(_) => (),
        }
        if !ids.is_empty() {
            connection.send(&Ack::new(key, group).ids(&ids).pack()?)?;
            connection.value()?;
        }
    }
}
