//! Slots and partitions.
use redis_streams::cluster::{key_slot, partition_name, partition_of};
use redis_streams::Error;

/// As redis-server 7.0.15 told them by CLUSTER KEYSLOT.
const SLOTS: [(&[u8], u16); 13] = [
    (b"", 0),
    (b"foo", 12182),
    (b"user1000", 3443),
    (b"{user1000}.following", 3443),
    (b"foo{}{bar}", 8363),
    (b"foo{{bar}}zap", 4015),
    (b"foo{bar}{zap}", 5061),
    (b"{}", 15257),
    (b"{}a", 10875),
    (b"{{x}}", 11068),
    (b"}{", 12793),
    (b"123456789", 12739),
    (b"\xff\x00", 1023),
];

#[test]
fn slots() {
    for (key, slot) in SLOTS {
        assert_eq!(key_slot(key), slot, "{key:?}");
    }
}

#[test]
fn partitions() {
    let told = [("user1000", 12), ("user1000", 1), ("user1000", 65535), ("", 12), ("{a}b", 12), ("{a}c", 12)];
    let partitions = told.map(|(key, number)| partition_of(key, number).unwrap());
    assert_eq!(partitions, [3, 0, 19827, 0, 0, 1]);
    assert_eq!(partition_of("user1000", 0), Err(Error::NoPartition));
}

#[test]
fn names() {
    assert_eq!(partition_name("orders", 3).unwrap(), b"orders:{3}");
    let odd = [255; 1000];
    assert_eq!(partition_name(odd, 65535).unwrap(), [&odd[..], b":{65535}"].concat());
    let slots = ["orders", "events"].map(|name| key_slot(partition_name(name, 3).unwrap()));
    assert_eq!(slots, [1584, 1584]);
}
