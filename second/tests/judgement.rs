//! Each judgement, and the order of neighbouring ones.

mod common;

use common::*;
use second::kept::{self, Kept};

/// A channel that speaks 1 and has seen 5.
fn speaking() -> Kept {
    given("speaking 5 1+")
}

fn full() -> Kept {
    let queue: Vec<String> = (1..=16).map(|id| format!("{id}+")).collect();
    given(&format!("speaking 16 {}", queue.join(",")))
}

fn full_and_seen(id: u64) -> Kept {
    let mut channel = full();
    channel.0[kept::LAST] = id + 1;
    channel
}

const HI: &str = "Content-Type:text/plain|Content-Length:2||Hi";

/// Whole messages, and the answers on a channel that speaks 1 and has seen 5.
const WHILE_SPEAKING: &[(&str, &str)] = &[
    // 1
    ("MRCP/1.0 {L} STOP 6|{C}|", "502 COMPLETE"),
    ("MRCP/2.1 {L} STOP 6|{C}|", "502 COMPLETE"),
    ("MRCP/20.0 {L} STOP 6|{C}|", "502 COMPLETE"),
    ("MRCP/02.00 {L} STOP 6|{C}|", "200 COMPLETE 1"),
    // 2
    ("MRCP/2.0 {L} STOP 6|{C}bad|", "404 COMPLETE"),
    ("MRCP/2.0 {L} STOP 6|{C}", "404 COMPLETE"),
    (
        "MRCP/2.0 {L} STOP 6|{C}Logging-Tag:|Logging-Tag:||",
        "404 COMPLETE",
    ),
    ("MRCP/2.0 {L} STOP 6|{C}|x", "404 COMPLETE"),
    ("MRCP/2.0 {L} STOP 6|{C}Content-Length:2||x", "404 COMPLETE"),
    // 3
    ("MRCP/2.0 {L} STOP 6||", "406 COMPLETE"),
    // 4
    (
        "MRCP/2.0 {L} STOP 6|Channel-Identifier:7f3A@speechsynth||",
        "405 COMPLETE",
    ),
    ("MRCP/2.0 {L} STOP 6|Channel-Identifier:||", "405 COMPLETE"),
    (
        "MRCP/2.0 {L} STOP 6|channel-IDENTIFIER: 7f3a@speechsynth\t||",
        "200 COMPLETE 1",
    ),
    // 5
    ("MRCP/2.0 {L} STOP 5|{C}|", "410 COMPLETE"),
    ("MRCP/2.0 {L} STOP 0|{C}|", "410 COMPLETE"),
    ("MRCP/2.0 {L} STOP 4294967295|{C}|", "200 COMPLETE 1"),
    // 6
    (
        "MRCP/2.0 {L} STOP 6|{C}Active-Request-Id-List:1,||",
        "404 COMPLETE",
    ),
    (
        "MRCP/2.0 {L} STOP 6|{C}Active-Request-Id-List:||",
        "404 COMPLETE",
    ),
    (
        "MRCP/2.0 {L} STOP 6|{C}Active-Request-Id-List:1, 2||",
        "404 COMPLETE",
    ),
    (
        "MRCP/2.0 {L} STOP 6|{C}Active-Request-Id-List:4294967296||",
        "404 COMPLETE",
    ),
    // 7
    ("MRCP/2.0 {L} DEFINE-LEXICON 6|{C}|", "401 COMPLETE"),
    ("MRCP/2.0 {L} SPEAKS 6|{C}|", "401 COMPLETE"),
    // 11
    ("MRCP/2.0 {L} CONTROL 6|{C}Jump-Size:1||", "201 COMPLETE 1"),
    (
        "MRCP/2.0 {L} CONTROL 6|{C}Logging-Tag:|Proxy-Sync-Id:1||",
        "200 COMPLETE 1",
    ),
    (
        "MRCP/2.0 {L} PAUSE 6|{C}Kill-On-Barge-In:x||",
        "201 COMPLETE 1",
    ),
    (
        "MRCP/2.0 {L} PAUSE 6|{C}Active-Request-Id-List:x||",
        "201 COMPLETE 1",
    ),
    ("MRCP/2.0 {L} PAUSE 6|{C}Content-Type:x||", "201 COMPLETE 1"),
    (
        "MRCP/2.0 {L} PAUSE 6|{C}Content-Length:1||x",
        "200 COMPLETE 1",
    ),
];

/// The same for SPEAKs: what follows the Channel-Identifier.
const SPEAKS: &[(&str, &str)] = &[
    // 6
    (
        "Kill-On-Barge-In:yes|Content-Type:text/plain|Content-Length:2||Hi",
        "404 COMPLETE",
    ),
    (
        "Kill-On-Barge-In:|Content-Type:text/plain|Content-Length:2||Hi",
        "404 COMPLETE",
    ),
    (
        "Kill-On-Barge-In: fAlSe |Content-Type:text/plain|Content-Length:2||Hi",
        "200 PENDING",
    ),
    (
        "Kill-On-Barge-In:TRUE|Content-Type:text/plain|Content-Length:2||Hi",
        "200 PENDING",
    ),
    // 9
    ("|", "406 COMPLETE"),
    ("Content-Type:text/plain||", "406 COMPLETE"),
    ("Content-Length:2||Hi", "406 COMPLETE"),
    ("Content-Length:0||", "406 COMPLETE"),
    ("Content-Type:text/plain|Content-Length:0||", "408 COMPLETE"),
    ("Content-Type:text/html|Content-Length:0||", "408 COMPLETE"),
    (
        "Content-Type:text/html|Content-Length:2||Hi",
        "409 COMPLETE",
    ),
    ("Content-Type:|Content-Length:2||Hi", "409 COMPLETE"),
    (
        "Content-Type:text/plain;|Content-Length:2||Hi",
        "409 COMPLETE",
    ),
    (
        "Content-Type:text/plain;charset=utf-8|Content-Length:2||Hi",
        "409 COMPLETE",
    ),
    (
        "Content-Type: TEXT/Plain |Content-Length:2||Hi",
        "200 PENDING",
    ),
    (
        "Content-Type:application/SSML+xml|Content-Length:2||Hi",
        "200 PENDING",
    ),
    (
        "Content-Type:text/uri-LIST|Content-Length:2||Hi",
        "200 PENDING",
    ),
    // 11
    (
        "Voice-Age:25|Content-Type:text/plain|Content-Length:2||Hi",
        "201 PENDING",
    ),
    (
        "Active-Request-Id-List:x|Content-Type:text/plain|Content-Length:2||Hi",
        "201 PENDING",
    ),
    (
        "Logging-Tag:x|Content-Type:text/plain|Content-Length:2||Hi",
        "200 PENDING",
    ),
];

#[test]
fn each_judgement() {
    for (text, expected) in WHILE_SPEAKING {
        let mut channel = speaking();
        assert_eq!(answer(&mut channel, &wire(text)), *expected, "{text}");
    }
    for (fields, expected) in SPEAKS {
        let input = request(&format!("SPEAK 6|{{C}}{fields}"));
        assert_eq!(answer(&mut speaking(), &input), *expected, "{fields}");
    }
}

#[test]
fn methods_that_an_idle_channel_lacks() {
    for method in ["PAUSE", "RESUME", "CONTROL"] {
        let mut channel = opened();
        let input = request(&format!("{method} 6|{{C}}X:1||"));
        assert_eq!(answer(&mut channel, &input), "402 COMPLETE", "{method}");
        assert_eq!(shown(&channel), "idle 6 -", "{method}");
    }
}

#[test]
fn the_seventeenth_speak() {
    let mut channel = full();
    assert_eq!(answer(&mut channel, &speak(17, "")), "407 COMPLETE");
    assert_eq!(channel, full_and_seen(17));
    // The fifteenth and sixteenth pass.
    let mut channel = opened();
    for id in 1..=16 {
        let state = if id == 1 { "IN-PROGRESS" } else { "PENDING" };
        let expected = format!("200 {state}");
        assert_eq!(answer(&mut channel, &speak(id, "")), expected);
    }
    assert_eq!(answer(&mut channel, &speak(17, "")), "407 COMPLETE");
}

/// Two judgements fail at once, on the same channel.
const NEIGHBOURS: &[(&str, &str)] = &[
    // 1 and 2
    ("MRCP/1.0 {L} STOP 6|{C}bad|", "502 COMPLETE"),
    // 2 and 3
    ("MRCP/2.0 {L} STOP 6|bad||", "404 COMPLETE"),
    // 2 and 4
    (
        "MRCP/2.0 {L} STOP 6|Channel-Identifier:x|bad||",
        "404 COMPLETE",
    ),
    // 3 and 5
    ("MRCP/2.0 {L} STOP 5||", "406 COMPLETE"),
    // 4 and 5
    ("MRCP/2.0 {L} STOP 5|Channel-Identifier:x||", "405 COMPLETE"),
    // 5 and 6
    (
        "MRCP/2.0 {L} STOP 5|{C}Active-Request-Id-List:x||",
        "410 COMPLETE",
    ),
    // 5 and 7
    ("MRCP/2.0 {L} NOTHING 5|{C}|", "410 COMPLETE"),
    // 6 has nothing to judge with an unknown method, so 7
    (
        "MRCP/2.0 {L} NOTHING 6|{C}Kill-On-Barge-In:x||",
        "401 COMPLETE",
    ),
    // 6 and 9
    (
        "MRCP/2.0 {L} SPEAK 6|{C}Kill-On-Barge-In:x||",
        "404 COMPLETE",
    ),
    // within 9
    ("MRCP/2.0 {L} SPEAK 6|{C}Content-Length:0||", "406 COMPLETE"),
    (
        "MRCP/2.0 {L} SPEAK 6|{C}Content-Type:x|Content-Length:0||",
        "408 COMPLETE",
    ),
];

/// Where two judgements fail at once the earlier one answers.
#[test]
fn neighbouring_judgements() {
    for (text, expected) in NEIGHBOURS {
        assert_eq!(answer(&mut speaking(), &wire(text)), *expected, "{text}");
    }
    // 7 and 8: an unknown method while idle
    assert_eq!(
        answer(&mut opened(), &request("NOTHING 6|{C}|")),
        "401 COMPLETE"
    );
    // 9 and 10, 10 and 11
    let html = request("SPEAK 17|{C}Content-Type:text/html|Content-Length:2||Hi");
    assert_eq!(answer(&mut full(), &html), "409 COMPLETE");
    assert_eq!(answer(&mut full(), &speak(17, "X:1|")), "407 COMPLETE");
}

/// Judgements 1 to 5 do not move the last id; from 6 on it has moved.
#[test]
fn when_the_last_id_moves() {
    let rows = [
        ("MRCP/1.0 {L} STOP 6|{C}|", 5),
        ("MRCP/2.0 {L} STOP 6|{C}bad|", 5),
        ("MRCP/2.0 {L} STOP 6||", 5),
        ("MRCP/2.0 {L} STOP 6|Channel-Identifier:x||", 5),
        ("MRCP/2.0 {L} STOP 3|{C}|", 5),
        ("MRCP/2.0 {L} STOP 6|{C}Active-Request-Id-List:x||", 6),
        ("MRCP/2.0 {L} NOTHING 6|{C}|", 6),
        ("MRCP/2.0 {L} SPEAK 6|{C}|", 6),
        ("MRCP/2.0 {L} RESUME 9|{C}|", 9),
    ];
    for (text, last) in rows {
        let mut channel = speaking();
        handle(&mut channel, &wire(text));
        assert_eq!(shown(&channel), format!("speaking {last} 1+"), "{text}");
    }
    let mut channel = opened();
    assert_eq!(
        answer(&mut channel, &request("PAUSE 6|{C}|")),
        "402 COMPLETE"
    );
    assert_eq!(shown(&channel), "idle 6 -");
    let mut channel = full();
    handle(&mut channel, &request(&format!("SPEAK 20|{{C}}{HI}")));
    assert_eq!(channel, full_and_seen(20));
}
