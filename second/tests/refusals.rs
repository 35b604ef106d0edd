//! Each refusal, the order among them, opening, and each part of soundness.

mod common;

use common::*;
use second::{Kept, Refusal};

const NOT_SOUND: &str = "idle 1 1+";

#[test]
fn the_numbers() {
    let numbers: Vec<u32> = Refusal::ALL.iter().map(|r| r.number()).collect();
    assert_eq!(numbers, [1, 2, 3, 4, 5, 6, 7, 8, 9, 10, 11, 12, 21]);
    for number in numbers {
        assert_eq!(Refusal::of_number(number).unwrap().number(), number);
    }
}

/// Number and consumed count of a message; nothing is written or changed.
fn refused(before: &str, input: &[u8], room: usize) -> (u32, usize) {
    let mut channel = given(before);
    let (outcome, written) = handle_in(&mut channel, input, room);
    if outcome.number != 0 {
        assert!(written.is_empty());
        assert_eq!(channel, given(before));
    }
    (outcome.number, outcome.consumed)
}

#[test]
fn messages_by_table() {
    let stop = request("STOP 9|{C}|");
    let room = wire("MRCP/2.0 67 9 200 COMPLETE|{C}|").len();
    assert_eq!(room, 67);
    let response = request("9 200 COMPLETE|bad");
    let event = wire("MRCP/9.9 {L} E 9 COMPLETE|");
    let malformed = wire("MRCP/9.9 {L} STOP|");
    type Row<'a> = (&'a str, &'a [u8], usize, (u32, usize));
    let rows: &[Row] = &[
        ("idle 1 -", b"MRCP/2.0 5", 305, (1, 0)),
        ("idle 1 -", &stop[..stop.len() - 1], 305, (1, 0)),
        ("idle 1 -", b"MRCP/2.0 5x", 305, (2, 0)),
        ("idle 1 -", b"MRCP/2.0 16385 ", 305, (3, 0)),
        ("idle 1 -", b"MRCP/2.0 5 ", 305, (4, 0)),
        ("idle 1 -", &malformed, 305, (5, malformed.len())),
        ("idle 1 -", &response, 305, (6, response.len())),
        ("idle 1 -", &event, 305, (6, event.len())),
        ("idle 1 -", &stop, room - 1, (7, 0)),
        ("idle 1 -", &stop, room, (0, stop.len())),
        ("idle 1 -", &stop, 0, (7, 0)),
        // 1 to 6 before 7
        ("idle 1 -", b"", 0, (1, 0)),
        ("idle 1 -", b"x", 0, (2, 0)),
        ("idle 1 -", b"MRCP/2.0 16385 ", 0, (3, 0)),
        ("idle 1 -", b"MRCP/2.0 5 ", 0, (4, 0)),
        ("idle 1 -", &malformed, 0, (5, malformed.len())),
        ("idle 1 -", &response, 0, (6, response.len())),
        // 21 before all
        (NOT_SOUND, b"", 305, (21, 0)),
        (NOT_SOUND, b"x", 305, (21, 0)),
        (NOT_SOUND, b"MRCP/2.0 16385 ", 305, (21, 0)),
        (NOT_SOUND, b"MRCP/2.0 5 ", 305, (21, 0)),
        (NOT_SOUND, &malformed, 305, (21, 0)),
        (NOT_SOUND, &response, 305, (21, 0)),
        (NOT_SOUND, &stop, 0, (21, 0)),
        (NOT_SOUND, &stop, 305, (21, 0)),
    ];
    for (before, input, room, expected) in rows {
        let got = refused(before, input, *room);
        assert_eq!(got, *expected, "{before} {} {room}", input.escape_ascii());
    }
}

#[test]
fn reports_by_table() {
    let rows = [
        ("speaking 1 1+", 8, 305, 9),
        ("speaking 1 1+", 256, 305, 9),
        ("speaking 1 1+", u32::MAX, 305, 9),
        ("idle 1 -", 0, 305, 8),
        ("paused 1 1+", 7, 305, 8),
        ("speaking 1 1+", 0, 107, 7),
        ("speaking 1 1+", 0, 108, 0),
        // 9 before 8, 8 before 7, 9 before 7
        ("idle 1 -", 8, 305, 9),
        ("paused 1 1+", 8, 0, 9),
        ("idle 1 -", 0, 0, 8),
        ("paused 1 1+", 0, 0, 8),
        ("speaking 1 1+", 8, 0, 9),
        // 21 before all
        (NOT_SOUND, 0, 305, 21),
        (NOT_SOUND, 8, 305, 21),
        (NOT_SOUND, 0, 0, 21),
    ];
    for (before, cause, room, number) in rows {
        let mut channel = given(before);
        let (outcome, written) = report_in(&mut channel, cause, room);
        assert_eq!(outcome.number, number, "{before} {cause} {room}");
        assert_eq!(outcome.consumed, 0);
        if number != 0 {
            assert!(written.is_empty());
            assert_eq!(channel, given(before));
        }
    }
}

/// Refusal 7 keeps the last id too, and is about failed answers as well.
#[test]
fn no_room_for_a_failed_answer() {
    let mut channel = opened();
    let pause = request("PAUSE 3|{C}|");
    let (outcome, _) = handle_in(&mut channel, &pause, 66);
    assert_eq!((outcome.number, outcome.consumed), (7, 0));
    assert_eq!(channel, opened());
    let (outcome, _) = handle_in(&mut channel, &pause, 67);
    assert_eq!(outcome.number, 0);
    assert_eq!(shown(&channel), "idle 3 -");
}

#[test]
fn opening_by_table() {
    let longest = format!("{}@speechsynth", "a".repeat(32));
    let longer = format!("{}@speechsynth", "a".repeat(33));
    let longest_recognizer = format!("{}@speechrecog", "a".repeat(32));
    let longer_recognizer = format!("{}@speechrecog", "a".repeat(33));
    let rows = [
        ("7f3a@speechsynth", 0),
        ("a@speechsynth", 0),
        ("Z9@speechsynth", 0),
        (&longest, 0),
        (&longer, 10),
        ("@speechsynth", 10),
        ("", 10),
        ("7f3a", 10),
        ("7f3a@speechrecog", 0),
        (&longest_recognizer, 0),
        (&longer_recognizer, 10),
        ("@speechrecog", 10),
        ("7f3a@speechrecog ", 10),
        ("7f3a@speechReCog", 10),
        ("a@speechsynth@speechrecog", 10),
        ("a@speechrecog@speechsynth", 10),
        ("7f3a@Speechsynth", 10),
        ("7f3a@speechsynth ", 10),
        (" 7f3a@speechsynth", 10),
        ("7f-3a@speechsynth", 10),
        ("7f\u{e9}3a@speechsynth", 10),
        ("a@b@speechsynth", 10),
    ];
    for (name, number) in rows {
        let (channel, got) = Kept::open(name.as_bytes());
        assert_eq!(got, number, "{name}");
        assert_eq!(channel.is_sound(), number == 0, "{name}");
        assert_eq!(shown(&channel), "idle - -", "{name}");
        let kept = if number == 0 { name } else { "" };
        assert_eq!(channel.name_bytes(), kept.as_bytes());
    }
}

#[test]
fn soundness_by_table() {
    let sixteen: Vec<String> = (1..=16).map(|id| format!("{id}-")).collect();
    let sixteen = format!("speaking 16 {}", sixteen.join(","));
    let over = format!("{sixteen} 17");
    let rows: &[(&str, bool)] = &[
        ("idle - -", true),
        ("idle 0 -", true),
        ("speaking 1 1+", true),
        ("paused 9 1+,2-,9+", true),
        ("1 1 1+", true),
        ("2 1 1+", true),
        ("0 1 -", true),
        (&sixteen, true),
        // The state is one of three, and none of a recognizer's.
        ("3 1 1+", false),
        ("4 1 -", false),
        ("recognizing 1 1+", false),
        ("recognized 1 -", false),
        ("5 1 1+", false),
        ("255 1 1+", false),
        ("7 1 -", false),
        ("256 1 -", false),
        ("4294967297 1 1+", false),
        ("18446744073709551615 1 -", false),
        // Idle exactly when nothing is outstanding.
        ("idle 1 1+", false),
        ("speaking 1 -", false),
        ("paused 1 -", false),
        // At most 16 are.
        (&over, false),
        ("speaking 1 1+ 200", false),
        ("speaking 1 1+ 4294967295", false),
        ("speaking 1 1+ 4294967297", false),
        ("speaking 1 1+ 18446744073709551615", false),
        // Their ids rise.
        ("speaking 9 2+,2+", false),
        ("speaking 9 3+,2+", false),
        ("speaking 9 1+,2+,2+", false),
        // None above the last seen.
        ("speaking 1 2+", false),
        ("speaking 2 1+,3+", false),
        ("speaking 3 1+,3+", true),
        // Ids and the last seen are request-ids.
        ("speaking 4294967295 4294967295-", true),
        ("idle 4294967296 -", false),
        ("idle 18446744073709551614 -", false),
        ("speaking 4294967297 1+", false),
        ("speaking 4294967295 4294967296+", false),
        ("speaking 1 4294967297+", false),
        ("speaking 1 9223372036854775807+", false),
        // None seen: idle.
        ("speaking - 1+", false),
        ("speaking - 0-", false),
        ("paused - -", false),
        // A count that hides entries, or brings in ones that were not given.
        ("speaking 1 1+,9+ 1", true),
        ("idle 1 1+ 0", true),
        ("speaking 5 1+ 2", false),
        ("speaking 5 - 1", true),
    ];
    for (words, sound) in rows {
        assert_eq!(given(words).is_sound(), *sound, "{words}");
        let mut channel = given(words);
        let (outcome, _) = handle(&mut channel, &request("NOTHING 4294967295|{C}|"));
        assert_eq!(outcome.number == 21, !sound, "{words}");
        let mut channel = given(words);
        let (outcome, _) = report_in(&mut channel, 8, 305);
        assert_eq!(outcome.number, if *sound { 9 } else { 21 }, "{words}");
        assert_eq!(channel, given(words), "{words}");
    }
    for name in ["", "@speechsynth", "@speechrecog", "7-@speechsynth"] {
        assert!(
            !given_name(name.as_bytes(), "idle - -").is_sound(),
            "{name}"
        );
    }
}
