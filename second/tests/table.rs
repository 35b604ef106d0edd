//! The table to be proved, T1 to T14, and the two messages given in full.

mod common;

use common::*;

const SPEAK_7: &str = "MRCP/2.0 106 SPEAK 7|{C}Content-Type:text/plain|Content-Length:2||Hi";

#[test]
fn t1_to_t7_framing() {
    let twenty = format!("MRCP/2.0 {}", "1".repeat(20));
    let rows = [
        ("T1", "", 1),
        ("T2", "MRCP/2.x", 2),
        ("T3", "MRCP/2.0 0 ", 4),
        ("T4", "MRCP/2.0 10 ", 4),
        ("T5", "MRCP/2.0 16384 ", 1),
        ("T6", "MRCP/2.0 16385 ", 3),
        ("T7", &twenty, 2),
    ];
    for (name, input, number) in rows {
        assert_eq!(framed(input.as_bytes()), (number, 0), "{name}");
        let mut channel = opened();
        let (outcome, written) = handle(&mut channel, input.as_bytes());
        let expected = (number, 0, 0);
        let got = (outcome.number, outcome.consumed, outcome.written);
        assert_eq!(got, expected, "{name}");
        assert!(written.is_empty());
        assert_eq!(channel, opened(), "{name}");
    }
}

#[test]
fn t8_to_t11_in_turn_from_opening() {
    let rows = [
        (
            "T8",
            wire(SPEAK_7),
            wire("MRCP/2.0 70 7 200 IN-PROGRESS|{C}|"),
            70,
        ),
        (
            "T9",
            wire(SPEAK_7),
            wire("MRCP/2.0 67 7 410 COMPLETE|{C}|"),
            67,
        ),
        (
            "T10",
            speak(8, ""),
            wire("MRCP/2.0 66 8 200 PENDING|{C}|"),
            66,
        ),
        (
            "T11",
            request("BARGE-IN-OCCURRED 9|{C}|"),
            wire("MRCP/2.0 95 9 200 COMPLETE|{C}Active-Request-Id-List:7,8||"),
            95,
        ),
    ];
    let mut channel = opened();
    for (name, input, expected, size) in rows {
        let (outcome, written) = handle(&mut channel, &input);
        assert_eq!(outcome.number, 0, "{name}");
        assert_eq!(outcome.consumed, input.len(), "{name}");
        assert_eq!(outcome.written, size, "{name}");
        assert_eq!(written, expected, "{name}");
        assert_eq!(written.len(), size, "{name}");
    }
    assert_eq!(shown(&channel), "idle 9 -");
}

#[test]
fn t12_and_t13_the_length_with_its_own_digits() {
    let rows = [
        (9, 99, "MRCP/2.0 99 9 200 COMPLETE|"),
        (10, 101, "MRCP/2.0 101 10 200 COMPLETE|"),
    ];
    for (id, size, line) in rows {
        let mut channel = opened();
        for held in 1..=4 {
            handle(&mut channel, &speak(held, ""));
        }
        let (outcome, written) = handle(&mut channel, &request(&format!("STOP {id}|{{C}}|")));
        let expected = format!("{line}{{C}}Active-Request-Id-List:1,2,3,4||");
        assert_eq!(written, wire(&expected));
        assert_eq!(outcome.written, size);
    }
}

#[test]
fn t14_an_id_out_of_range() {
    let mut channel = opened();
    let input = request("STOP 4294967296|{C}|");
    let (outcome, _) = handle(&mut channel, &input);
    assert_eq!((outcome.number, outcome.consumed), (5, input.len()));
    assert_eq!(channel, opened());
}

#[test]
fn the_messages_given_in_full() {
    let mut channel = opened();
    let input = wire(SPEAK_7);
    assert_eq!(input.len(), 106);
    handle(&mut channel, &input);
    let (outcome, written) = report_in(&mut channel, 0, 305);
    let event = "MRCP/2.0 108 SPEAK-COMPLETE 7 COMPLETE|{C}Completion-Cause:000 normal||";
    assert_eq!(written, wire(event));
    assert_eq!((outcome.number, outcome.written), (0, 108));
    assert_eq!(shown(&channel), "idle 7 -");
}

#[test]
fn the_longest_answer_is_305_bytes() {
    let name = b"0123456789abcdefABCDEFGHIJKLMNOP@speechsynth";
    let queue: Vec<String> = (0..16).map(|n| format!("{}+", 4294967278u32 + n)).collect();
    let words = format!("speaking 4294967294 {}", queue.join(","));
    let text = String::from_utf8_lossy(name).into_owned();
    let stop = request(&format!("STOP 4294967295|Channel-Identifier:{text}||"));
    let mut longest = given_name(name, &words);
    assert!(longest.is_sound());
    let (outcome, written) = handle_in(&mut longest, &stop, 305);
    assert_eq!((outcome.number, outcome.written), (0, 305));
    assert!(written.starts_with(b"MRCP/2.0 305 4294967295 200 COMPLETE\r\n"));
    let mut again = given_name(name, &words);
    let before = again;
    let (outcome, _) = handle_in(&mut again, &stop, 304);
    assert_eq!((outcome.number, outcome.consumed), (7, 0));
    assert_eq!(again, before);
}
