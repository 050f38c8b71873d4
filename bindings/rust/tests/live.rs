//! A consumer over a connection to redis-server, if that is installed, in RESP2 and RESP3.
#![cfg(unix)]
use redis_streams::commands::{pack, Ack, Add, Autoclaim, Pending, ReadGroup};
use redis_streams::{Connection, ConnectionError, Error, Value};
use std::os::unix::net::UnixStream;
use std::path::PathBuf;
use std::process::{Child, Command, Stdio};
use std::time::Duration;

struct Server(Child, PathBuf);

impl Server {
    fn start() -> Option<Server> {
        let folder = std::env::temp_dir().join(format!("redis-streams-c-{}", std::process::id()));
        std::fs::create_dir_all(&folder).ok()?;
        let mut command = Command::new("redis-server");
        command.args(["--port", "0", "--save", "", "--unixsocket"]).arg(folder.join("socket"));
        let child = command.arg("--dir").arg(&folder).stdout(Stdio::null()).spawn().ok()?;
        Some(Server(child, folder))
    }

    fn connect(&self) -> Connection<UnixStream> {
        for _ in 0..600 {
            if let Ok(stream) = UnixStream::connect(self.1.join("socket")) {
                stream.set_read_timeout(Some(Duration::from_secs(60))).unwrap();
                return Connection::new(stream);
            }
            std::thread::sleep(Duration::from_millis(100));
        }
        panic!("redis-server does not listen");
    }
}

impl Drop for Server {
    fn drop(&mut self) {
        let _ = self.0.kill();
        let _ = self.0.wait();
        let _ = std::fs::remove_dir_all(&self.1);
    }
}

fn consume(connection: &mut Connection<UnixStream>, protocol: &str) -> Result<(), ConnectionError> {
    connection.send(&pack(["HELLO", protocol]))?;
    connection.value()?;
    let key = format!("orders{protocol}");
    connection.send(&pack(["XGROUP", "CREATE", &key, "g", "0", "MKSTREAM"]))?;
    assert_eq!(connection.value()?, Value::Text(b"OK"));
    let value: Vec<u8> = (0..=255).cycle().take(50_000).collect();
    for number in 0..200 {
        connection.send(&Add::new(&key).field("number", number.to_string()).field("value", &value).pack()?)?;
        connection.value()?;
    }
    let mut seen = 0;
    loop {
        connection.send(&ReadGroup::new("g", "ann").count(90).stream(&key, ">").pack()?)?;
        let streams = connection.streams()?;
        let mut ids = Vec::new();
        for entry in streams.entries().iter() {
            assert_eq!(entry.get("number"), Some(seen.to_string().as_bytes()));
            assert_eq!(entry.get("value"), Some(&value[..]));
            ids.push(entry.id().to_string());
            seen += 1;
        }
        if ids.is_empty() {
            break;
        }
        connection.send(&Ack::new(&key, "g").ids(&ids[1..]).pack()?)?;
        assert_eq!(connection.value()?, Value::Int(ids.len() as i64 - 1));
    }
    assert_eq!(seen, 200);
    connection.send(&Pending::new(&key, "g", 10).pack()?)?;
    assert!(matches!(connection.value()?, Value::Array(rows) if rows.len() == 3));
    connection.send(&Autoclaim::new(&key, "g", "bob", 0).pack()?)?;
    let claimed = connection.autoclaim()?;
    assert_eq!((claimed.entries().len(), claimed.ids().next_id()), (3, "0-0"));
    connection.send(&Autoclaim::new(&key, "g", "ann", 0).justid().pack()?)?;
    assert_eq!(connection.justid()?.claimed().len(), 3);
    connection.send(&ReadGroup::new("other", "ann").stream(&key, ">").pack()?)?;
    match connection.streams() {
        Err(ConnectionError::Reply(Error::Server { text, .. })) => assert!(text.starts_with(b"NOGROUP")),
        other => panic!("{other:?}"),
    }
    Ok(())
}

#[test]
fn a_consumer() {
    let Some(server) = Server::start() else {
        eprintln!("redis-server is not installed");
        return;
    };
    for protocol in ["2", "3"] {
        consume(&mut server.connect(), protocol).unwrap();
    }
}
