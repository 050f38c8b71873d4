//! Commands, as their words.
use redis_streams::commands::{self, pack, Ack, Add, Autoclaim, Bound, Claim, Pending, Range, Read, ReadGroup};
use redis_streams::commands::{Policy, Trim};
use redis_streams::Error;

fn same(command: Result<Vec<u8>, Error>, words: &str) {
    assert_eq!(String::from_utf8(command.unwrap()).unwrap(), String::from_utf8(pack(words.split(' '))).unwrap());
}

#[test]
fn adding_and_trimming() {
    same(Add::new("k").field("item", "tea").field("cups", "2").pack(), "XADD k * item tea cups 2");
    let add = Add::new("k").id("5-*").nomkstream().policy(Policy::Acked).idmp("shop", "o-17");
    same(
        add.trim(Bound::MaxLen(1000).approximate().limit(50)).field("item", "tea").pack(),
        "XADD k NOMKSTREAM ACKED IDMP shop o-17 MAXLEN ~ 1000 LIMIT 50 5-* item tea",
    );
    let add = Add::new("k").field("a", "1").idmpauto("shop").trim(Bound::MinId("5-0".into()).exactly());
    same(add.pack(), "XADD k IDMPAUTO shop MINID = 5-0 * a 1");
    same(Trim::new("k", Bound::MaxLen(0).exactly()).pack(), "XTRIM k MAXLEN = 0");
    let trim = Trim::new("k", Bound::MinId("5-0".into()).approximate()).policy(Policy::DelRef);
    same(trim.pack(), "XTRIM k MINID ~ 5-0 DELREF");
}

#[test]
fn reading() {
    same(
        Read::new().stream("a", "0-0").stream("b", "$").count(2).block(0).pack(),
        "XREAD BLOCK 0 COUNT 2 STREAMS a b 0-0 $",
    );
    let read = ReadGroup::new("g", "ann").stream("a", ">").count(10).block(5).noack().claim(7);
    same(read.pack(), "XREADGROUP GROUP g ann BLOCK 5 COUNT 10 NOACK CLAIM 7 STREAMS a >");
}

#[test]
fn of_groups() {
    same(Ack::new("k", "g").id("1-0").ids(["2-0", "3-0"]).pack(), "XACK k g 1-0 2-0 3-0");
    let claim = Claim::new("k", "g", "ann", 9).ids(["1-0"]).idle(1).time(2).retrycount(3).force().justid();
    same(claim.lastid("9-0").pack(), "XCLAIM k g ann 9 1-0 IDLE 1 TIME 2 RETRYCOUNT 3 FORCE JUSTID LASTID 9-0");
    same(Autoclaim::new("k", "g", "ann", 60000).pack(), "XAUTOCLAIM k g ann 60000 0-0");
    same(
        Autoclaim::new("k", "g", "ann", 1).start("5-0").count(3).justid().pack(),
        "XAUTOCLAIM k g ann 1 5-0 COUNT 3 JUSTID",
    );
    same(Pending::new("k", "g", 10).pack(), "XPENDING k g - + 10");
    let pending = Pending::new("k", "g", 10).range("1-0", "2-0").idle(5).consumer("ann");
    same(pending.pack(), "XPENDING k g IDLE 5 1-0 2-0 10 ann");
}

#[test]
fn ranges() {
    same(commands::length("k"), "XLEN k");
    same(Range::new("k").pack(), "XRANGE k - +");
    same(Range::new("k").between("1-0", "2-0").count(0).pack(), "XRANGE k 1-0 2-0 COUNT 0");
    same(Range::new("k").reversed().pack(), "XREVRANGE k + -");
    same(Range::new("k").between("1-0", "2-0").count(1).reversed().pack(), "XREVRANGE k 2-0 1-0 COUNT 1");
    same(commands::delete("k", ["1-0", "2-0"]), "XDEL k 1-0 2-0");
    assert_eq!(commands::delete("k", [""; 0]), Err(Error::NothingGiven));
}

#[test]
fn groups_and_what_is_told() {
    same(commands::create_group("k", "g", "$", true), "XGROUP CREATE k g $ MKSTREAM");
    same(commands::create_group("k", "g", "0-0", false), "XGROUP CREATE k g 0-0");
    same(commands::set_group_id("k", "g", "5-0"), "XGROUP SETID k g 5-0");
    same(commands::destroy_group("k", "g"), "XGROUP DESTROY k g");
    same(commands::info_stream("k"), "XINFO STREAM k");
    same(commands::info_groups("k"), "XINFO GROUPS k");
    same(commands::info_consumers("k", "g"), "XINFO CONSUMERS k g");
    same(commands::pending_summary("k", "g"), "XPENDING k g");
}

#[test]
fn any_bytes_and_no_command() {
    let odd: Vec<u8> = (0..=255).cycle().take(5000).collect();
    let add = Add::new(&odd).field(&odd, &odd).pack().unwrap();
    assert_eq!(add, pack([&b"XADD"[..], &odd, b"*", &odd, &odd]));
    assert_eq!(Ack::new("k", "g").pack(), Err(Error::NothingGiven));
    assert_eq!(Add::new("k").pack(), Err(Error::NothingGiven));
    assert_eq!(Read::new().pack(), Err(Error::NothingGiven));
}
