//! Each line of "States and queue".

mod common;

use common::*;

struct Row {
    before: &'static str,
    request: &'static str,
    answer: &'static str,
    after: &'static str,
}

const fn row(
    before: &'static str,
    request: &'static str,
    answer: &'static str,
    after: &'static str,
) -> Row {
    Row {
        before,
        request,
        answer,
        after,
    }
}

const SPEAK: &str = "SPEAK 9|{C}Content-Type:text/plain|Content-Length:2||Hi";
const KEPT: &str = "SPEAK 9|{C}Kill-On-Barge-In:false|Content-Type:text/plain|Content-Length:2||Hi";
const STOP: &str = "STOP 9|{C}|";
const BARGE: &str = "BARGE-IN-OCCURRED 9|{C}|";
const PAUSE: &str = "PAUSE 9|{C}|";
const RESUME: &str = "RESUME 9|{C}|";
const CONTROL: &str = "CONTROL 9|{C}|";

const ROWS: [Row; 41] = [
    row("idle - -", SPEAK, "200 IN-PROGRESS", "speaking 9 9+"),
    row("idle 8 -", KEPT, "200 IN-PROGRESS", "speaking 9 9-"),
    row("speaking 1 1+", SPEAK, "200 PENDING", "speaking 9 1+,9+"),
    row("paused 1 1+", KEPT, "200 PENDING", "paused 9 1+,9-"),
    row("idle - -", STOP, "200 COMPLETE", "idle 9 -"),
    row("speaking 1 1+", STOP, "200 COMPLETE 1", "idle 9 -"),
    row("paused 2 1-,2+", STOP, "200 COMPLETE 1,2", "idle 9 -"),
    row(
        "speaking 3 1+,2+,3+",
        "STOP 9|{C}Active-Request-Id-List:2||",
        "200 COMPLETE 2",
        "speaking 9 1+,3+",
    ),
    row(
        "speaking 3 1+,2+,3+",
        "STOP 9|{C}Active-Request-Id-List:3,1||",
        "200 COMPLETE 1,3",
        "speaking 9 2+",
    ),
    row(
        "paused 3 1+,2-,3+",
        "STOP 9|{C}Active-Request-Id-List:1||",
        "200 COMPLETE 1",
        "paused 9 2-,3+",
    ),
    row(
        "paused 3 1+,2+,3+",
        "STOP 9|{C}Active-Request-Id-List:2,1||",
        "200 COMPLETE 1,2",
        "paused 9 3+",
    ),
    row(
        "paused 2 1+,2+",
        "STOP 9|{C}Active-Request-Id-List:2,1,2,1||",
        "200 COMPLETE 1,2",
        "idle 9 -",
    ),
    row(
        "speaking 3 1+,3+",
        "STOP 9|{C}Active-Request-Id-List:2,9,4294967295||",
        "200 COMPLETE",
        "speaking 9 1+,3+",
    ),
    row(
        "speaking 3 1+,3+",
        "STOP 9|{C}Active-Request-Id-List:0000000003||",
        "200 COMPLETE 3",
        "speaking 9 1+",
    ),
    row(
        "idle 3 -",
        "STOP 9|{C}Active-Request-Id-List:3||",
        "200 COMPLETE",
        "idle 9 -",
    ),
    row("idle - -", BARGE, "200 COMPLETE", "idle 9 -"),
    row("speaking 1 1+", BARGE, "200 COMPLETE 1", "idle 9 -"),
    row("speaking 1 1-", BARGE, "200 COMPLETE", "speaking 9 1-"),
    row(
        "speaking 3 1+,2-,3-",
        BARGE,
        "200 COMPLETE 1,2,3",
        "idle 9 -",
    ),
    row(
        "speaking 3 1-,2+,3+",
        BARGE,
        "200 COMPLETE",
        "speaking 9 1-,2+,3+",
    ),
    row("paused 2 1+,2-", BARGE, "200 COMPLETE 1,2", "idle 9 -"),
    row("paused 2 1-,2+", BARGE, "200 COMPLETE", "paused 9 1-,2+"),
    // A list acts in STOP only.
    row(
        "speaking 2 1+,2+",
        "BARGE-IN-OCCURRED 9|{C}Active-Request-Id-List:2||",
        "201 COMPLETE 1,2",
        "idle 9 -",
    ),
    row("idle - -", PAUSE, "402 COMPLETE", "idle 9 -"),
    row(
        "speaking 2 1+,2+",
        PAUSE,
        "200 COMPLETE 1",
        "paused 9 1+,2+",
    ),
    row("paused 2 1+,2+", PAUSE, "200 COMPLETE 1", "paused 9 1+,2+"),
    row("idle - -", RESUME, "402 COMPLETE", "idle 9 -"),
    row(
        "paused 2 1+,2+",
        RESUME,
        "200 COMPLETE 1",
        "speaking 9 1+,2+",
    ),
    row(
        "speaking 2 1+,2+",
        RESUME,
        "200 COMPLETE",
        "speaking 9 1+,2+",
    ),
    row("idle - -", CONTROL, "402 COMPLETE", "idle 9 -"),
    row(
        "speaking 2 1+,2+",
        CONTROL,
        "200 COMPLETE 1",
        "speaking 9 1+,2+",
    ),
    row(
        "paused 2 1-,2+",
        CONTROL,
        "200 COMPLETE 1",
        "paused 9 1-,2+",
    ),
    // Failed ones change nothing but the last id.
    row(
        "paused 2 1+,2+",
        "STOP 9|{C}Active-Request-Id-List:1,x||",
        "404 COMPLETE",
        "paused 9 1+,2+",
    ),
    row(
        "paused 2 1+,2+",
        "SPEAK 9|{C}|",
        "406 COMPLETE",
        "paused 9 1+,2+",
    ),
    row(
        "speaking 2 1+,2+",
        "STOP 2|{C}|",
        "410 COMPLETE",
        "speaking 2 1+,2+",
    ),
    row(
        "speaking 2 1+,2+",
        "STOP 9||",
        "406 COMPLETE",
        "speaking 2 1+,2+",
    ),
    row(
        "speaking 2 1+,2+",
        "PAUSE 9|{C}bad||",
        "404 COMPLETE",
        "speaking 2 1+,2+",
    ),
    row(
        "paused 2 1+,2+",
        "RESUME 9|{C}X:1||",
        "201 COMPLETE 1",
        "speaking 9 1+,2+",
    ),
    row(
        "speaking 2 1+,2+",
        "RESUME 9|{C}X:1||",
        "201 COMPLETE",
        "speaking 9 1+,2+",
    ),
    row("idle - -", "STOP 0|{C}|", "200 COMPLETE", "idle 0 -"),
    row("speaking 0 0-", "STOP 1|{C}|", "200 COMPLETE 0", "idle 1 -"),
];

#[test]
fn methods_by_table() {
    for row in &ROWS {
        check_turn(given(row.before), row.request, row.answer, row.after);
    }
}

#[test]
fn reports_by_table() {
    let rows = [
        ("speaking 1 1+", 0, "000 normal", "idle 1 -"),
        ("speaking 2 1+,2-", 1, "001 barge-in", "speaking 2 2-"),
        ("speaking 2 1+,2-", 2, "002 parse-failure", "speaking 2 2-"),
        ("speaking 2 1+,2-", 3, "003 uri-failure", "speaking 2 2-"),
        ("speaking 2 1+,2-", 4, "004 error", "speaking 2 2-"),
        (
            "speaking 2 1+,2-",
            5,
            "005 language-unsupported",
            "speaking 2 2-",
        ),
        (
            "speaking 2 1+,2-",
            6,
            "006 lexicon-load-failure",
            "speaking 2 2-",
        ),
        ("speaking 9 1-", 7, "007 cancelled", "idle 9 -"),
    ];
    for (before, cause, words, after) in rows {
        let mut channel = given(before);
        let (outcome, written) = report_in(&mut channel, cause, 305);
        let event =
            format!("MRCP/2.0 {{L}} SPEAK-COMPLETE 1 COMPLETE|{{C}}Completion-Cause:{words}||");
        assert_eq!(written, wire(&event), "{cause}");
        assert_eq!((outcome.number, outcome.consumed), (0, 0));
        assert_eq!(outcome.written, written.len());
        assert_eq!(shown(&channel), after, "{cause}");
    }
}
