//! What a server tells of groups and of what is pending.
use redis_streams::records::{read_groups, read_pending, read_summary, Group, PendingEntry, PendingSummary};
use redis_streams::Error;

const GROUP: &[u8] = b"*12\r\n$4\r\nname\r\n$2\r\ng1\r\n$9\r\nconsumers\r\n:2\r\n$7\r\npending\r\n:3\r\n\
    $17\r\nlast-delivered-id\r\n$3\r\n5-0\r\n$12\r\nentries-read\r\n:5\r\n$3\r\nlag\r\n:7\r\n";
const UNTOLD: &[u8] = b"%4\r\n+name\r\n$2\r\ng2\r\n+pending\r\n:0\r\n+consumers\r\n:0\r\n+lag\r\n_\r\n";

fn told() -> Group {
    Group {
        name: "g1".into(),
        consumers: 2,
        pending: 3,
        last_delivered_id: "5-0".into(),
        entries_read: Some(5),
        lag: Some(7),
    }
}

#[test]
fn groups() {
    let reply = [b"*2\r\n", GROUP, UNTOLD].concat();
    let untold = Group {
        name: "g2".into(),
        consumers: 0,
        pending: 0,
        last_delivered_id: Vec::new(),
        entries_read: None,
        lag: None,
    };
    assert_eq!(read_groups(&reply), Ok(Some((vec![told(), untold], reply.len()))));
    assert!((0..reply.len()).all(|end| read_groups(&reply[..end]) == Ok(None)));
    let many = [b"*100\r\n", &GROUP.repeat(100)[..]].concat();
    assert_eq!(read_groups(&many), Ok(Some((vec![told(); 100], many.len()))));
}

#[test]
fn pending() {
    let rows = b"*1\r\n*4\r\n$3\r\n1-0\r\n$3\r\nann\r\n:700\r\n:2\r\n";
    let entry = PendingEntry { id: "1-0".into(), consumer: "ann".into(), last_delivered_ms: 700, times_delivered: 2 };
    assert_eq!(read_pending(rows), Ok(Some((vec![entry], rows.len()))));
    let reply = b"*4\r\n:3\r\n$3\r\n1-0\r\n$3\r\n9-0\r\n*1\r\n*2\r\n$3\r\nann\r\n$1\r\n3\r\n";
    let summary =
        PendingSummary { count: 3, start_id: "1-0".into(), end_id: "9-0".into(), consumers: vec![("ann".into(), 3)] };
    assert_eq!(read_summary(reply), Ok(Some((summary, reply.len()))));
    let (nothing, _) = read_summary(b"*4\r\n:0\r\n$-1\r\n$-1\r\n*-1\r\n").unwrap().unwrap();
    assert_eq!((nothing.count, nothing.consumers.len()), (0, 0));
}

#[test]
fn other_replies() {
    assert_eq!(read_groups(b"+OK\r\n"), Err(Error::OtherReply { len: 5 }));
    assert_eq!(read_pending(b"-ERR no\r\n"), Err(Error::Server { text: b"ERR no".to_vec(), len: 9 }));
    assert_eq!(read_summary(b":1\r\n"), Err(Error::OtherReply { len: 4 }));
}
