//! Recognizer channels: request K1 of document 02.

mod common;

use common::*;
use second::fields::Known;
use second::kept::{self, NUMBERS};
use second::level::Level;
use second::{read, Kept};

/// A channel of the recognizer from the words of a `channel` line after its name.
fn recognizer(words: &str) -> Kept {
    given_name(RECOGNIZER, words)
}

fn recognize(id: u32, fields: &str) -> Vec<u8> {
    request(&format!(
        "RECOGNIZE {id}|{{R}}Content-Type:application/srgs+xml|Content-Length:2|{fields}|Hi"
    ))
}

/// The events of a report: id and cause of each.
fn events(written: &[u8]) -> Vec<String> {
    let mut rest = written;
    let mut events = Vec::new();
    while !rest.is_empty() {
        let message = read(rest).unwrap();
        let text = String::from_utf8(rest[..message.length].to_vec()).unwrap();
        let words: Vec<&str> = text.split([' ', '\r', '\n', ':']).collect();
        assert_eq!(words[2], "RECOGNITION-COMPLETE");
        assert_eq!(words[4], "COMPLETE");
        let (_, cause) = text.split_once("Completion-Cause:").unwrap();
        events.push(format!("{} {}", words[3], cause.trim_end()));
        rest = &rest[message.length..];
    }
    events
}

/// What a handled report leaves: its events, and the channel.
fn reported(before: &str, cause: u32, score: f32) -> (String, String) {
    let mut channel = recognizer(before);
    let (outcome, written) = scored_in(&mut channel, cause, score.to_bits(), 1250);
    assert_eq!((outcome.number, outcome.consumed), (0, 0));
    (events(&written).join("; "), shown(&channel))
}

#[test]
fn levels_by_table() {
    let rows: &[(&str, Option<f32>)] = &[
        ("0", Some(0.0)),
        ("1", Some(1.0)),
        ("0.0", Some(0.0)),
        ("0.5", Some(0.5)),
        ("0.500000", Some(0.5)),
        ("0.3", Some(0.3)),
        ("0.000001", Some(0.000_001)),
        ("0.999999", Some(0.999_999)),
        ("1.0", Some(1.0)),
        ("1.000000", Some(1.0)),
        ("1.000001", None),
        ("1.1", None),
        ("2", None),
        ("9.000000", None),
        ("", None),
        (".", None),
        (".5", None),
        ("0.", None),
        ("1.", None),
        ("00.5", None),
        ("01", None),
        ("0.1234567", None),
        ("1.0000000", None),
        ("0.5 ", None),
        (" 0.5", None),
        ("-0", None),
        ("+1", None),
        ("0,5", None),
        ("0.5.0", None),
        ("0.x", None),
        ("1e0", None),
    ];
    for (text, expected) in rows {
        let bits = Level::of_value(text.as_bytes()).map(Level::bits);
        assert_eq!(bits, expected.map(f32::to_bits), "{text}");
    }
}

/// "All 1,000,001 levels are distinct singles", in the order of their numbers.
#[test]
fn levels_are_distinct() {
    let mut before = None;
    for millionths in 0..=1_000_000u32 {
        let (whole, part) = (millionths / 1_000_000, millionths % 1_000_000);
        let level = Level::of_value(format!("{whole}.{part:06}").as_bytes()).unwrap();
        assert_eq!(level.millionths(), millionths);
        let bits = level.bits();
        assert!(Some(bits) > before, "{millionths}");
        before = Some(bits);
        // The bits say which level it is, and those next to them are of none.
        assert_eq!(Level::of_bits(bits), Some(level), "{millionths}");
        assert_eq!(Level::of_bits(bits + 1), None, "{millionths}");
        assert_eq!(Level::of_bits(bits | 1 << 31), None, "{millionths}");
        // Division rounds once, so it gives the single next to the exact quotient.
        let exact = f64::from(millionths) / 1e6;
        assert_eq!(f32::from_bits(bits), exact as f32, "{millionths}");
    }
    assert_eq!(Level::of_millionths(1_000_001), None);
    assert_eq!(Level::of_millionths(1 << 32), None);
    let shorter = [("0.1", "0.100000"), ("0.25", "0.250"), ("1", "1.00000")];
    for (short, long) in shorter {
        let level = |text: &str| Level::of_value(text.as_bytes()).unwrap();
        assert_eq!(level(short), level(long), "{short}");
    }
}

/// On a recognizer that is recognizing 1 and has seen 5, what follows the Channel-Identifier.
const RECOGNIZES: &[(&str, &str)] = &[
    // 6
    ("Confidence-Threshold:|", "404 COMPLETE"),
    ("Confidence-Threshold:1.000001|", "404 COMPLETE"),
    ("Confidence-Threshold:.5|", "404 COMPLETE"),
    ("Confidence-Threshold:0.|", "404 COMPLETE"),
    ("Confidence-Threshold:00.5|", "404 COMPLETE"),
    ("Confidence-Threshold:0.1234567|", "404 COMPLETE"),
    ("Confidence-Threshold:0.5 0.5|", "404 COMPLETE"),
    ("Confidence-Threshold: 0.5\t|", "200 PENDING"),
    ("CONFIDENCE-threshold:1.000000|", "200 PENDING"),
    // 2
    (
        "Confidence-Threshold:0|Confidence-Threshold:0|",
        "404 COMPLETE",
    ),
    // 11
    ("Kill-On-Barge-In:perhaps|", "201 PENDING"),
    ("Active-Request-Id-List:x|", "201 PENDING"),
    ("Cancel-If-Queue:true|", "201 PENDING"),
    ("Logging-Tag:x|Proxy-Sync-Id:1|", "200 PENDING"),
];

#[test]
fn the_fields_of_recognize() {
    for (fields, expected) in RECOGNIZES {
        let mut channel = recognizer("recognizing 5 1:00000000");
        assert_eq!(answer(&mut channel, &recognize(6, fields)), *expected);
        let twice = fields.matches("Confidence").count() == 2;
        assert_eq!(channel.0[kept::LAST], if twice { 6 } else { 7 }, "{fields}");
    }
}

#[test]
fn the_content_of_recognize() {
    let rows = [
        ("|", "406 COMPLETE"),
        ("Content-Type:application/srgs+xml||", "406 COMPLETE"),
        ("Content-Length:2||Hi", "406 COMPLETE"),
        ("Content-Type:x|Content-Length:0||", "408 COMPLETE"),
        (
            "Content-Type:text/plain|Content-Length:2||Hi",
            "409 COMPLETE",
        ),
        (
            "Content-Type:application/ssml+xml|Content-Length:2||Hi",
            "409 COMPLETE",
        ),
        (
            "Content-Type:application/srgs+xml;v=1|Content-Length:2||Hi",
            "409 COMPLETE",
        ),
        ("Content-Type:|Content-Length:2||Hi", "409 COMPLETE"),
        (
            "Content-Type: Application/SRGS+xml |Content-Length:2||Hi",
            "200 IN-PROGRESS",
        ),
        (
            "Content-Type:text/URI-list|Content-Length:2||Hi",
            "200 IN-PROGRESS",
        ),
        // 6 before 9
        ("Confidence-Threshold:2||", "404 COMPLETE"),
    ];
    for (rest, expected) in rows {
        let mut channel = recognizer("recognized 5 -");
        let input = request(&format!("RECOGNIZE 6|{{R}}{rest}"));
        assert_eq!(answer(&mut channel, &input), expected, "{rest}");
    }
}

struct Row(&'static str, &'static str, &'static str, &'static str);

const ROWS: &[Row] = &[
    Row("idle - -", "STOP 9|{R}|", "200 COMPLETE", "idle 9 -"),
    // STOP in recognized: idle, whatever it lists.
    Row("recognized 5 -", "STOP 9|{R}|", "200 COMPLETE", "idle 9 -"),
    Row(
        "recognized 5 -",
        "STOP 9|{R}Active-Request-Id-List:5||",
        "200 COMPLETE",
        "idle 9 -",
    ),
    Row(
        "recognizing 5 1:3f000000,5:00000000",
        "STOP 9|{R}|",
        "200 COMPLETE 1,5",
        "idle 9 -",
    ),
    Row(
        "recognizing 5 1:3f000000,3:3f800000,5:00000000",
        "STOP 9|{R}Active-Request-Id-List:5,0000000001,5,7||",
        "200 COMPLETE 1,5",
        "recognizing 9 3:3f800000",
    ),
    Row(
        "recognizing 5 1:3f000000,5:358637bd",
        "STOP 9|{R}Active-Request-Id-List:2||",
        "200 COMPLETE",
        "recognizing 9 1:3f000000,5:358637bd",
    ),
    Row(
        "recognizing 5 1:3f000000",
        "STOP 9|{R}Active-Request-Id-List:1,||",
        "404 COMPLETE",
        "recognizing 9 1:3f000000",
    ),
    // START-INPUT-TIMERS: recognizing only.
    Row(
        "idle - -",
        "START-INPUT-TIMERS 9|{R}|",
        "402 COMPLETE",
        "idle 9 -",
    ),
    Row(
        "recognized 5 -",
        "START-INPUT-TIMERS 9|{R}|",
        "402 COMPLETE",
        "recognized 9 -",
    ),
    Row(
        "recognizing 5 1:3f000000,5:00000000",
        "START-INPUT-TIMERS 9|{R}|",
        "200 COMPLETE",
        "recognizing 9 1:3f000000,5:00000000",
    ),
    Row(
        "recognizing 5 1:3f000000",
        "START-INPUT-TIMERS 9|{R}Confidence-Threshold:2||",
        "201 COMPLETE",
        "recognizing 9 1:3f000000",
    ),
    Row(
        "recognizing 5 1:3f000000",
        "START-INPUT-TIMERS 9|{R}Content-Type:x||",
        "201 COMPLETE",
        "recognizing 9 1:3f000000",
    ),
    // Nothing acts in a method that the kind lacks.
    Row(
        "idle - -",
        "SPEAK 9|{R}Kill-On-Barge-In:x||",
        "401 COMPLETE",
        "idle 9 -",
    ),
    Row(
        "recognizing 5 1:3f000000",
        "BARGE-IN-OCCURRED 9|{R}|",
        "401 COMPLETE",
        "recognizing 9 1:3f000000",
    ),
    Row("idle - -", "PAUSE 9|{R}|", "401 COMPLETE", "idle 9 -"),
    Row("idle - -", "STOP 9|{C}|", "405 COMPLETE", "idle - -"),
];

#[test]
fn states_by_table() {
    for Row(before, text, expected, after) in ROWS {
        check_turn(recognizer(before), text, expected, after);
    }
}

#[test]
fn recognize_is_active_or_waits() {
    let rows = [
        ("idle - -", "200 IN-PROGRESS", "recognizing 9 9:3f000000"),
        (
            "recognized 5 -",
            "200 IN-PROGRESS",
            "recognizing 9 9:3f000000",
        ),
        (
            "recognizing 5 5:00000000",
            "200 PENDING",
            "recognizing 9 5:00000000,9:3f000000",
        ),
    ];
    for (before, expected, after) in rows {
        let mut channel = recognizer(before);
        let input = recognize(9, "Confidence-Threshold:0.5|");
        assert_eq!(answer(&mut channel, &input), expected);
        assert_eq!(shown(&channel), after);
    }
    // Eight pass, with no threshold 0; the ninth is 407, after 409.
    let (mut channel, _) = Kept::open(RECOGNIZER);
    for id in 1..=8 {
        let state = if id == 1 { "IN-PROGRESS" } else { "PENDING" };
        assert_eq!(
            answer(&mut channel, &recognize(id, "")),
            format!("200 {state}")
        );
    }
    let queue: Vec<String> = (1..=8).map(|id| format!("{id}:00000000")).collect();
    let queue = queue.join(",");
    assert_eq!(shown(&channel), format!("recognizing 8 {queue}"));
    let html = request("RECOGNIZE 9|{R}Content-Type:text/html|Content-Length:2||Hi");
    assert_eq!(answer(&mut channel, &html), "409 COMPLETE");
    assert_eq!(answer(&mut channel, &recognize(10, "X:|")), "407 COMPLETE");
    assert_eq!(shown(&channel), format!("recognizing 10 {queue}"));
}

/// A synthesizer has none of it, but knows the name of the field.
#[test]
fn what_a_synthesizer_makes_of_it() {
    let rows = [
        ("RECOGNIZE 9|{C}Confidence-Threshold:x||", "401 COMPLETE"),
        ("START-INPUT-TIMERS 9|{C}|", "401 COMPLETE"),
        ("STOP 9|{C}Confidence-Threshold:x||", "201 COMPLETE 1"),
        (
            "STOP 9|{C}Confidence-Threshold:1|confidence-threshold:1||",
            "404 COMPLETE",
        ),
        (
            "SPEAK 9|{C}Confidence-Threshold:x|Content-Type:text/plain|Content-Length:2||Hi",
            "201 PENDING",
        ),
        (
            "SPEAK 9|{C}Content-Type:application/srgs+xml|Content-Length:2||Hi",
            "409 COMPLETE",
        ),
        ("STOP 9|{R}|", "405 COMPLETE"),
    ];
    for (text, expected) in rows {
        let mut channel = given("speaking 5 1+");
        assert_eq!(answer(&mut channel, &request(text)), expected, "{text}");
    }
    // Its score is not looked at, and 8 to 15 are no causes of it.
    for score in [0, 0x7fc0_0000, 0xff80_0000] {
        let mut channel = given("speaking 5 1+");
        let (outcome, _) = scored_in(&mut channel, 0, score, 305);
        assert_eq!(outcome.number, 0);
        let mut channel = given("speaking 5 1+");
        assert_eq!(scored_in(&mut channel, 8, score, 305).0.number, 9);
    }
}

const THREE: &str = "recognizing 9 3:3f000000,5:00000000,7:3f800000";

#[test]
fn every_cause() {
    let words = [
        "000 success",
        "001 no-match",
        "002 no-input-timeout",
        "003 hotword-maxtime",
        "004 grammar-load-failure",
        "005 grammar-compilation-failure",
        "006 recognizer-error",
        "007 speech-too-early",
        "008 success-maxtime",
        "009 uri-failure",
        "010 language-unsupported",
        "011 cancelled",
        "012 semantics-failure",
        "013 partial-match",
        "014 partial-match-maxtime",
        "015 no-match-maxtime",
    ];
    for (cause, word) in words.into_iter().enumerate() {
        let (events, after) = reported(THREE, cause as u32, 0.75);
        if cause == 0 || cause == 8 {
            assert_eq!(events, format!("3 {word}"));
            assert_eq!(after, "recognizing 9 5:00000000,7:3f800000");
        } else {
            let rest = "5 011 cancelled; 7 011 cancelled";
            assert_eq!(events, format!("3 {word}; {rest}"));
            assert_eq!(after, "recognized 9 -");
        }
        // The last one leaves a recognizer that has recognized.
        let (events, after) = reported("recognizing 9 3:3f000000", cause as u32, 0.75);
        assert_eq!(events, format!("3 {word}"));
        assert_eq!(after, "recognized 9 -");
    }
}

/// Whether 000 and 008 count, by threshold and score; the threshold is the active one's own.
#[test]
fn what_counts_as_no_match() {
    let half = 0.5f32.to_bits();
    let rows: &[(u32, u32, bool)] = &[
        (half, half, false),
        (half, half + 1, true),
        (half, half - 1, false),
        (half, f32::INFINITY.to_bits(), true),
        (half, f32::NEG_INFINITY.to_bits(), false),
        (0, 0, false),
        (0, 0x8000_0000, false),
        (0, 1, true),
        (0, 0x8000_0001, false),
        (0x3f80_0000, 0x3f80_0000, false),
        (0x3f80_0000, 0x3f80_0001, true),
        // One millionth.
        (0x3586_37bd, 0x3586_37bd, false),
        (0x3586_37bd, 0x3586_37be, true),
        (0x3586_37bd, 0x3586_37bc, false),
    ];
    for (threshold, score, greater) in rows {
        for (cause, word) in [(0, "000 success"), (8, "008 success-maxtime")] {
            let before = format!("recognizing 9 3:{threshold:08x},5:00000000");
            let (events, after) = reported(&before, cause, f32::from_bits(*score));
            let row = format!("{threshold:08x} {score:08x}");
            if *greater {
                assert_eq!(events, format!("3 {word}"), "{row}");
                assert_eq!(after, "recognizing 9 5:00000000", "{row}");
            } else {
                assert_eq!(events, "3 001 no-match; 5 011 cancelled", "{row}");
                assert_eq!(after, "recognized 9 -", "{row}");
            }
        }
    }
}

#[test]
fn chains_of_each_length() {
    for count in 1..=8u32 {
        let queue: Vec<String> = (1..=count).map(|id| format!("{id}:00000000")).collect();
        let (events, after) = reported(&format!("recognizing 9 {}", queue.join(",")), 2, 1.0);
        let mut expected = vec!["1 002 no-input-timeout".to_string()];
        expected.extend((2..=count).map(|id| format!("{id} 011 cancelled")));
        assert_eq!(events, expected.join("; "));
        assert_eq!(after, "recognized 9 -");
    }
}

/// 172 and 7 times 154 bytes; and the longest answer of a recognizer.
#[test]
fn sizes() {
    let name = format!("{}@speechrecog", "a".repeat(32));
    let queue: Vec<String> = (0..8u32)
        .map(|n| format!("{}:00000000", u32::MAX - 8 + n))
        .collect();
    let words = format!("recognizing {} {}", u32::MAX - 1, queue.join(","));
    let before = || given_name(name.as_bytes(), &words);
    let mut most = 0;
    for cause in 0..16 {
        let (outcome, _) = scored_in(&mut before(), cause, 0, 1250);
        assert_eq!(outcome.number, 0, "{cause}");
        most = most.max(outcome.written);
    }
    assert_eq!(most, 1250);
    for room in [0, 172, 326, 1249] {
        let mut channel = before();
        let (outcome, written) = scored_in(&mut channel, 5, 0, room);
        assert_eq!((outcome.number, written.len()), (7, 0), "{room}");
        assert_eq!(channel, before());
    }
    let (_, written) = scored_in(&mut before(), 5, 0, 1250);
    let lengths: Vec<usize> = second::ledger::messages(&written)
        .map(|message| message.unwrap().length)
        .collect();
    assert_eq!(lengths, [172, 154, 154, 154, 154, 154, 154, 154]);
    let stop = request(&format!("STOP 4294967295|Channel-Identifier:{name}||"));
    let (outcome, written) = handle_in(&mut before(), &stop, 305);
    assert_eq!(outcome.number, 0);
    assert!(written.len() < 305);
    // Sixteen of a synthesizer are the longest answer still.
    let queue: Vec<String> = (0..16u32)
        .map(|n| format!("{}+", u32::MAX - 16 + n))
        .collect();
    let words = format!("speaking {} {}", u32::MAX - 1, queue.join(","));
    let name = name.replace("recog", "synth");
    let stop = request(&format!("STOP 4294967295|Channel-Identifier:{name}||"));
    for (room, number) in [(304, 7), (305, 0)] {
        let mut channel = given_name(name.as_bytes(), &words);
        assert_eq!(handle_in(&mut channel, &stop, room).0.number, number);
    }
}

/// 21, 9, 11, 8, 7 in that order.
#[test]
fn refusals_of_reports() {
    const NO_NUMBER: u32 = 0x7fc0_0000;
    let one = "recognizing 9 3:3f000000";
    let rows = [
        ("idle 9 3:00000000", 16, NO_NUMBER, 0, 21),
        (one, 16, NO_NUMBER, 0, 9),
        (one, u32::MAX, 0, 1250, 9),
        ("idle 9 -", 16, 0, 0, 9),
        (one, 15, NO_NUMBER, 0, 11),
        (one, 0, 0x7f80_0001, 1250, 11),
        (one, 0, 0xffc0_0000, 1250, 11),
        ("idle 9 -", 1, NO_NUMBER, 0, 11),
        ("recognized 9 -", 0, NO_NUMBER, 1250, 11),
        ("idle 9 -", 0, 0, 0, 8),
        ("recognized 9 -", 15, 0x7f80_0000, 0, 8),
        (one, 0, 0x3f80_0000, 114, 7),
        (one, 0, 0x3f80_0000, 115, 0),
    ];
    for (before, cause, score, room, number) in rows {
        let mut channel = recognizer(before);
        let (outcome, written) = scored_in(&mut channel, cause, score, room);
        assert_eq!(
            outcome.number, number,
            "{before} {cause} {score:08x} {room}"
        );
        if number != 0 {
            assert!(written.is_empty());
            assert_eq!(channel, recognizer(before));
        }
    }
}

#[test]
fn soundness_by_table() {
    let eight: Vec<String> = (1..=8).map(|id| format!("{id}:3f800000")).collect();
    let eight = format!("recognizing 8 {}", eight.join(","));
    let nine = format!("{eight} 9");
    let rows: &[(&str, bool)] = &[
        ("idle - -", true),
        ("idle 5 -", true),
        ("recognized 5 -", true),
        ("3 5 1:00000000", true),
        ("4 5 -", true),
        (&eight, true),
        (&nine, false),
        ("recognizing 5 1:00000000 16", false),
        ("recognizing 5 1:00000000 4294967297", false),
        // Recognizing exactly while any is outstanding.
        ("recognizing 5 -", false),
        ("recognized 5 1:00000000", false),
        ("idle 5 1:00000000", false),
        // None seen: idle.
        ("recognized - -", false),
        ("recognizing - 0:00000000", false),
        // The states of the other kind, and none.
        ("speaking 5 1:00000000", false),
        ("paused 5 1:00000000", false),
        ("speaking 5 -", false),
        ("5 5 -", false),
        ("259 5 1:00000000", false),
        // The rest as in 01.
        ("recognizing 5 1:00000000,1:00000000", false),
        ("recognizing 5 2:00000000,1:00000000", false),
        ("recognizing 5 6:00000000", false),
        ("recognizing 5 4294967297:00000000", false),
        ("recognizing 5 - 1", true),
        ("recognizing 5 1:00000000,9:00000000 1", true),
        // Thresholds that reading can give, and others.
        ("recognizing 5 1:3f800000,2:358637bd", true),
        ("recognizing 5 1:80000000", false),
        ("recognizing 5 1:3f800001", false),
        ("recognizing 5 1:00000001", false),
        ("recognizing 5 1:3eaaaaab", false),
        ("recognizing 5 1:bf000000", false),
        ("recognizing 5 1:7f800000", false),
        ("recognizing 5 1:00000000,2:7fc00000", false),
        ("recognizing 5 1:00000000,2:7fc00000 1", true),
    ];
    for (words, sound) in rows {
        let mut channel = recognizer(words);
        assert_eq!(channel.is_sound(), *sound, "{words}");
        let (outcome, _) = handle(&mut channel, &request("NOTHING 4294967295|{R}|"));
        assert_eq!(outcome.number == 21, !sound, "{words}");
        let (outcome, _) = scored_in(&mut recognizer(words), 16, 0, 1250);
        assert_eq!(outcome.number, if *sound { 9 } else { 21 }, "{words}");
    }
}

/// 4 to 11 are the entries' numbers, 12 to 19 the millionths of their thresholds.
#[test]
fn the_places() {
    let mut expected = [0; NUMBERS];
    expected[..6].copy_from_slice(&[3, 6, 2, 16, 3, 7]);
    expected[12] = 500_000;
    expected[13] = 0;
    expected[64] = 1;
    for (number, byte) in expected[20..].iter_mut().zip(RECOGNIZER) {
        *number = u64::from(*byte);
    }
    let (mut channel, _) = Kept::open(RECOGNIZER);
    handle(&mut channel, &recognize(1, "Confidence-Threshold:0.5|"));
    handle(&mut channel, &recognize(3, ""));
    handle(&mut channel, &request("START-INPUT-TIMERS 5|{R}|"));
    assert_eq!(channel.0, expected);
    let words = "recognizing 5 1:3f000000,3:00000000";
    assert_eq!(channel, recognizer(words));
    // A threshold is at most one, a synthesizer's places there are its queue's.
    let mut channel = recognizer(words);
    channel.0[13] = 1_000_000;
    assert!(channel.is_sound());
    for value in [1_000_001, 0x3f00_0000, 1 << 32, u64::MAX] {
        let mut channel = recognizer(words);
        channel.0[13] = value;
        assert!(!channel.is_sound());
        channel.0[kept::COUNT] = 1;
        assert!(channel.is_sound());
    }
    // Numbers past the count are not looked at, and a handled call makes them 0.
    let mut channel = recognizer(words);
    (channel.0[6], channel.0[11], channel.0[14], channel.0[19]) = (7, u64::MAX, 1, u64::MAX);
    handle(&mut channel, &request("START-INPUT-TIMERS 6|{R}|"));
    assert_eq!(channel, recognizer("recognizing 6 1:3f000000,3:00000000"));
    // The last bit of an entry says nothing here, and stays.
    let mut channel = recognizer(words);
    (channel.0[4], channel.0[5]) = (2, 6);
    let stop = request("STOP 6|{R}Active-Request-Id-List:1||");
    assert_eq!(answer(&mut channel, &stop), "200 COMPLETE 1");
    assert_eq!((channel.0[4], channel.0[5]), (6, 0));
}

/// What is shown where the numbers are no sound channel.
#[test]
fn what_is_shown() {
    let mut channel = recognizer("recognizing 5 1:3f000000 9");
    assert_eq!(
        shown(&channel),
        format!("recognizing 5 1:3f000000{} 9", ",0:00000000".repeat(7))
    );
    channel.0[kept::COUNT] = 1;
    // Millionths as the bits of their level, any other number as its last 32.
    let numbers = [
        (250_000, "3e800000"),
        (1_000_000, "3f800000"),
        (1_000_001, "000f4241"),
        ((7 << 32) + 0xabcd, "0000abcd"),
    ];
    for (number, bits) in numbers {
        channel.0[12] = number;
        assert_eq!(shown(&channel), format!("recognizing 5 1:{bits}"));
    }
    // A name that does not end so is read and shown as a synthesizer's.
    channel.0[kept::SIZE] -= 1;
    assert_eq!(shown(&channel), "recognizing 5 1+");
    let malformed = given_name(b"-@speechrecog", "paused 5 1:ffffffff");
    assert_eq!(shown(&malformed), "paused 5 1:ffffffff");
}

#[test]
fn the_ledger_of_a_recognizer() {
    let mut board = second::play::Board::new();
    assert_eq!(board.open(RECOGNIZER), 0);
    for id in 1..=5 {
        assert!(board.message(305, &recognize(id, "")).entry.is_ok());
    }
    use second::ledger::Entry::{Accepted, Closed};
    let call = board.message(305, &recognize(6, ""));
    assert_eq!(call.entry, Ok(Accepted(6)));
    let stop = request("STOP 7|{R}Active-Request-Id-List:6,2||");
    assert_eq!(board.message(305, &stop).entry, Ok(Closed(vec![2, 6])));
    let one = 1f32.to_bits();
    assert_eq!(board.report(0, one, 1250).entry, Ok(Closed(vec![1])));
    assert_eq!(board.report(9, one, 1250).entry, Ok(Closed(vec![3, 4, 5])));
    assert_eq!(shown(&board.channel), "recognized 7 -");
}

/// Its events are read back whole.
#[test]
fn events_are_read_back() {
    let mut channel = recognizer(THREE);
    let (_, written) = scored_in(&mut channel, 1, 0, 1250);
    for message in second::ledger::messages(&written) {
        let message = message.unwrap();
        let fields = message.fields.unwrap();
        let identifier = fields.value(Known::ChannelIdentifier);
        assert_eq!(identifier.as_deref(), Some(RECOGNIZER));
        assert!(fields.body.is_empty());
        assert_eq!(fields.all().len(), 2);
    }
}
