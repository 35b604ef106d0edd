//! The sentences with two readings, and the reading that is decided: points 1
//! to 23. The few that are about a layout or a promise have no row.

mod common;

use common::*;
use second::read;

#[test]
fn points_1_to_3_framing() {
    let rows: &[(u32, &str, (u32, usize))] = &[
        (1, "MRCP/2.0 9999999999999999999", (1, 0)),
        (1, "MRCP/2.0 99999999999999999990", (2, 0)),
        (2, "\r\nMRCP/2.0 ", (2, 0)),
        (2, "mrcp/2.0", (2, 0)),
        (2, "MRCP/2.0\t", (2, 0)),
        (2, "MRCP/2.0  ", (2, 0)),
        (2, "MRCP/2.0 13  ", (0, 13)),
        (3, "MRCP/2.0 0000000000000000020 ", (4, 0)),
        (3, "MRCP/2.0 0000000000000000029 ", (0, 29)),
        (3, "MRCP/2.0 12 ", (0, 12)),
    ];
    for (point, input, expected) in rows {
        assert_eq!(framed(input.as_bytes()), *expected, "{point}: {input}");
    }
}

/// What a fresh channel answers, and the last id after it.
fn fresh(text: &str) -> String {
    let mut channel = opened();
    let answer = answer(&mut channel, &wire(text));
    let shown = shown(&channel);
    let last = shown.split(' ').nth(1).expect("the word after the state");
    format!("{answer}; {last}")
}

#[test]
fn points_2_to_6_start_line() {
    let name33 = format!("MRCP/2.0 {{L}} {} 9|{{C}}|", "Q".repeat(33));
    let rows: &[(u32, &str, &str)] = &[
        (2, "MRCP/2.0 {L}  STOP 9|{C}|", "refused 5; -"),
        (3, "MRCP/2.0 12 ", "refused 5; -"),
        (4, "MRCP/2.0 {L} STOP 9", "refused 5; -"),
        (4, "MRCP/2.0 {L} STOP 9\r", "refused 5; -"),
        (4, "MRCP/2.0 {L} STOP 9|", "404 COMPLETE; -"),
        (5, "MRCP/9.9 {L} STOP|bad", "refused 5; -"),
        (5, "MRCP/9.9 {L} 9 200 COMPLETE|bad", "refused 6; -"),
        (6, &name33, "refused 5; -"),
        (6, "MRCP/2.0 {L} STOP  9|{C}|", "refused 5; -"),
        (6, "MRCP/2.0 {L} STOP 9 |{C}|", "refused 5; -"),
        (6, "MRCP/2.0 {L} STOP 9\r|{C}|", "refused 5; -"),
        (6, "MRCP/2.0 {L} STOP\n9|{C}|", "refused 5; -"),
        (6, "MRCP/2.0 {L} A- 9|{C}|", "401 COMPLETE; 9"),
        (6, "MRCP/2.0 {L} STOP 0000000007|{C}|", "200 COMPLETE; 7"),
        (6, "MRCP/2.0 {L} STOP 00000000007|{C}|", "refused 5; -"),
        (6, "MRCP/02.00 {L} STOP 9|{C}|", "200 COMPLETE; 9"),
        (6, "MRCP/2.00 {L} STOP 9|{C}|", "200 COMPLETE; 9"),
        (6, "MRCP/2.0 {L} 9 000 COMPLETE||", "refused 6; -"),
        (6, "MRCP/2.0 {L} 9 999 COMPLETE||", "refused 6; -"),
    ];
    for (point, text, expected) in rows {
        assert_eq!(fresh(text), *expected, "{point}: {text}");
    }
}

#[test]
fn points_7_to_12_fields() {
    let speak = "Content-Type:text/plain|Content-Length:2||Hi";
    let many = |count: usize| format!("STOP 9|{{C}}{}|", "X:1|".repeat(count));
    let twenty = format!("STOP 9|{{C}}Content-Length:{:020}||", 0);
    let rows: &[(u32, &str, &str)] = &[
        (7, "STOP 9|{C} |", "404 COMPLETE; -"),
        (7, "STOP 9|\t|{C}|", "404 COMPLETE; -"),
        (7, "STOP 9|{C}X::y:||", "201 COMPLETE; 9"),
        (8, "STOP 9|{C}X:\u{0}||", "404 COMPLETE; -"),
        (8, "STOP 9|{C}Kill-On-Barge-In:\u{7f}||", "404 COMPLETE; -"),
        (8, "STOP 9|{C}Kill-On-Barge-In:?||", "201 COMPLETE; 9"),
        (
            9,
            "STOP 9|{C}Kill-On-Barge-In:true|KILL-ON-BARGE-IN:true||",
            "404 COMPLETE; -",
        ),
        (
            9,
            "STOP 9|{C}Logging-Tag:|Logging-Tag:||",
            "404 COMPLETE; -",
        ),
        (
            9,
            "STOP 9|{C}Proxy-Sync-Id:|Proxy-Sync-Id:||",
            "404 COMPLETE; -",
        ),
        (9, "STOP 9|{C}X:1|X:1||", "201 COMPLETE; 9"),
        (9, &many(31), "201 COMPLETE; 9"),
        (9, &many(32), "404 COMPLETE; -"),
        (10, "STOP 9|{C}Content-Type:text/plain||", "201 COMPLETE; 9"),
        (10, "STOP 9|{C}Content-Length:2||Hi", "200 COMPLETE; 9"),
        (
            10,
            "STOP 9|{C}Content-Length:2|Content-Type:x||Hi",
            "201 COMPLETE; 9",
        ),
        (11, "STOP 9|Channel-Identifier:||", "405 COMPLETE; -"),
        (11, "STOP 9|{C}Content-Length:||", "404 COMPLETE; -"),
        (
            11,
            "SPEAK 9|{C}Content-Type:|Content-Length:2||Hi",
            "409 COMPLETE; 9",
        ),
        (
            11,
            &format!("SPEAK 9|{{C}}Kill-On-Barge-In:|{speak}"),
            "404 COMPLETE; 9",
        ),
        (11, "STOP 9|{C}Active-Request-Id-List:||", "404 COMPLETE; 9"),
        (
            11,
            "STOP 9|Channel-Identifier:\t 7f3a@speechsynth ||",
            "200 COMPLETE; 9",
        ),
        (
            11,
            "STOP 9|{C}Active-Request-Id-List: 1,2\t||",
            "200 COMPLETE; 9",
        ),
        (12, &twenty, "404 COMPLETE; -"),
    ];
    for (point, text, expected) in rows {
        let text = format!("MRCP/2.0 {{L}} {text}");
        assert_eq!(fresh(&text), *expected, "{point}: {text}");
    }
}

const JUDGEMENT: &[(u32, &str, &str)] = &[
    (13, "X 9|{C}Kill-On-Barge-In:x||", "401 COMPLETE; 9"),
    (13, "X 9|{C}Active-Request-Id-List:x||", "401 COMPLETE; 9"),
    (14, "STOP 9||", "406 COMPLETE; -"),
    (14, "PAUSE 9|{C}|", "402 COMPLETE; 9"),
    (15, "STOP 0|{C}|", "200 COMPLETE; 0"),
    (
        16,
        "SPEAK 9|{C}Content-Type:text/plain||Hi",
        "404 COMPLETE; -",
    ),
    (
        16,
        "SPEAK 9|{C}Content-Type:text/plain||",
        "406 COMPLETE; 9",
    ),
    (16, "SPEAK 9|{C}Content-Length:0||", "406 COMPLETE; 9"),
    (
        16,
        "SPEAK 9|{C}Content-Type:x|Content-Length:0||",
        "408 COMPLETE; 9",
    ),
    (
        17,
        "STOP 9|{C}Active-Request-Id-List:9,9,0000000001||",
        "200 COMPLETE; 9",
    ),
    (
        17,
        "STOP 9|{C}Active-Request-Id-List:00000000001||",
        "404 COMPLETE; 9",
    ),
    (
        17,
        "STOP 9|{C}Active-Request-Id-List:4294967296||",
        "404 COMPLETE; 9",
    ),
];

#[test]
fn points_13_to_17_judgement() {
    for (point, text, expected) in JUDGEMENT {
        let text = format!("MRCP/2.0 {{L}} {text}");
        assert_eq!(fresh(&text), *expected, "{point}: {text}");
    }
    let mut channel = opened();
    assert_eq!(
        answer(&mut channel, &request("STOP 0|{C}|")),
        "200 COMPLETE"
    );
    assert_eq!(
        answer(&mut channel, &request("STOP 0|{C}|")),
        "410 COMPLETE"
    );
}

#[test]
fn point_18_ids_of_all_three_kinds() {
    let rows = [
        ("STOP 4294967295", true),
        ("STOP 4294967296", false),
        ("4294967295 200 COMPLETE", true),
        ("4294967296 200 COMPLETE", false),
        ("E 4294967295 COMPLETE", true),
        ("E 4294967296 COMPLETE", false),
        ("E 00000000000 COMPLETE", false),
    ];
    for (line, good) in rows {
        let input = request(&format!("{line}||"));
        assert_eq!(read(&input).is_ok(), good, "{line}");
    }
}

#[test]
fn point_19_states() {
    let rows = [
        (
            "paused 2 1+,2+",
            "PAUSE 9|{C}|",
            "200 COMPLETE 1",
            "paused 9 1+,2+",
        ),
        (
            "paused 2 1+,2+",
            "BARGE-IN-OCCURRED 9|{C}|",
            "200 COMPLETE 1,2",
            "idle 9 -",
        ),
        ("idle 2 -", "STOP 9|{C}X:||", "201 COMPLETE", "idle 9 -"),
        (
            "idle 2 -",
            "BARGE-IN-OCCURRED 9|{C}|",
            "200 COMPLETE",
            "idle 9 -",
        ),
        (
            "paused 3 1+,2+,3+",
            "STOP 9|{C}Active-Request-Id-List:1,2||",
            "200 COMPLETE 1,2",
            "paused 9 3+",
        ),
    ];
    for (before, text, expected, after) in rows {
        let mut channel = given(before);
        assert_eq!(answer(&mut channel, &request(text)), expected, "{text}");
        assert_eq!(shown(&channel), after, "{text}");
    }
}

#[test]
fn points_20_and_21_refusals() {
    let mut channel = given("idle 1 1+");
    assert_eq!(report_in(&mut channel, 9, 0).0.number, 21);
    assert!(!given("speaking 9 2+,2+").is_sound());
    // A failed answer of 67 bytes: exactly enough is enough.
    for (room, number) in [(66, 7), (67, 0)] {
        let mut channel = opened();
        let outcome = handle_in(&mut channel, &request("PAUSE 9|{C}|"), room).0;
        assert_eq!(outcome.number, number);
    }
}

#[test]
fn point_22_the_ledger_reads_the_first_frame() {
    use second::ledger::{entry_of_message, entry_of_report, Entry};
    let input = [speak(7, ""), speak(8, "")].concat();
    let written = wire("MRCP/2.0 {L} 7 200 IN-PROGRESS|{C}|");
    let entry = entry_of_message(&input, 0, &written);
    assert_eq!(entry, Ok(Entry::Accepted(7)));
    let event = |id: u32| {
        wire(&format!(
            "MRCP/2.0 {{L}} SPEAK-COMPLETE {id} COMPLETE|{{C}}|"
        ))
    };
    let entry = entry_of_report(0, &[event(7), event(8)].concat());
    assert_eq!(entry, Ok(Entry::Closed(vec![7, 8])));
    let input = request("STOP 0000000009|{C}|");
    let written = wire("MRCP/2.0 {L} 9 201 COMPLETE|{C}Active-Request-Id-List:0000000007,8||");
    let entry = entry_of_message(&input, 0, &written);
    assert_eq!(entry, Ok(Entry::Closed(vec![7, 8])));
}
