//! Continued field lines (K2, and point 25 of the readings).

mod common;

use common::*;
use second::fields::Known;
use second::read;

/// What reading gives after the start line: `bad`, or fields as they are handed back and body.
fn fields_of(rest: &str) -> String {
    let input = request(&format!("STOP 9|{rest}"));
    let message = read(&input).expect("a good start line");
    let Some(fields) = message.fields else {
        return "bad".to_string();
    };
    let field = |field: &second::fields::Field| {
        let (name, raw) = (field.name.escape_ascii(), field.raw.escape_ascii());
        format!("{name}={raw};")
    };
    let all: String = fields.all().iter().map(field).collect();
    // One character for CRLF, as in the rows.
    format!("{all}{}", fields.body.escape_ascii()).replace("\\r\\n", "|")
}

#[test]
fn raw_parts_by_table() {
    let rows: &[(&str, &str)] = &[
        ("A:v| w||", "A=v| w;"),
        ("A:v|\tw||", "A=v|\\tw;"),
        ("A:v \t| \t w||", "A=v \\t| \\t w;"),
        ("A:v| w| x|B:y||", "A=v| w| x;B=y;"),
        // Off its ends, however many and whatever they are made of.
        ("A:| v||", "A=v;"),
        ("A:v| ||", "A=v;"),
        ("A: |\t| v\t| |\t ||", "A=v;"),
        ("A:| ||", "A=;"),
        ("A: | | ||", "A=;"),
        ("A:| |\t|B:w||", "A=;B=w;"),
        // A line of blanks alone continues the field, in its middle too.
        ("A:v| | w||", "A=v| | w;"),
        // A colon in a continued line is value.
        ("A:v| B:w||", "A=v| B:w;"),
        ("A:v| :||", "A=v| :;"),
        (
            "Logging-Tag:v| Logging-Tag:w||",
            "Logging-Tag=v| Logging-Tag:w;",
        ),
        // Before any field, in a name, behind it.
        (" ||", "bad"),
        (" A:v||", "bad"),
        (" |A:v||", "bad"),
        ("A| B:v||", "bad"),
        ("A| :v||", "bad"),
        ("A|\t||", "bad"),
        ("A:v|B| ||", "bad"),
        // Every byte of the joined value is a value byte.
        ("A:v\r| w||", "bad"),
        ("A:v\n| w||", "bad"),
        ("A:v|\r w||", "bad"),
        ("A:v|\n w||", "bad"),
        ("A:v| \rw||", "bad"),
        ("A:v| w\n||", "bad"),
        ("A:v\r w||", "bad"),
        ("A:v\n w||", "bad"),
        ("A:v| \u{7f}||", "bad"),
        ("A:v|\u{0}||", "bad"),
    ];
    for (rest, expected) in rows {
        assert_eq!(fields_of(rest), *expected, "{rest}");
    }
}

/// "The block still ends at the first empty line."
#[test]
fn the_first_empty_line_ends_the_block() {
    let rows: &[(&str, &str)] = &[
        // The body's first blank continues nothing.
        ("Content-Length:2|| x", "Content-Length=2; x"),
        ("Content-Length:2||\tx", "Content-Length=2;\\tx"),
        ("|", ""),
        ("| ", "bad"),
        // A fold that brings an empty line: what follows is body.
        ("Content-Length:6|A:v|| w||", "Content-Length=6;A=v; w||"),
        ("Content-Length:7|A:v|| w||", "bad"),
        // Behind a line of blanks alone.
        ("Content-Length:2|\t|| x", "Content-Length=2; x"),
        ("Content-Length:4| || |x", "Content-Length=4; |x"),
        // No empty line.
        ("A:v| ", "bad"),
        ("A:v| |", "bad"),
        ("A:v| w|", "bad"),
        ("A:v| w", "bad"),
        ("A:v| \r", "bad"),
    ];
    for (rest, expected) in rows {
        assert_eq!(fields_of(rest), *expected, "{rest}");
    }
}

/// "The joined field counts once."
#[test]
fn a_joined_field_counts_once() {
    let folded = "X:1| 2|\t3|";
    for (count, good) in [(31, true), (32, true), (33, false)] {
        let many = fields_of(&format!("{}|", folded.repeat(count)));
        assert_eq!(many != "bad", good, "{count}");
    }
    // Many lines, and the longest field that a message has room for.
    let lines = " |".repeat(5000);
    assert_eq!(fields_of(&format!("X:v|{lines}|")), "X=v;");
    let again = "Logging-Tag:1| 2|logging-tag:3| 4||";
    assert_eq!(fields_of(again), "bad");
}

#[test]
fn a_value_is_joined() {
    let rows = [
        ("a| b", "a b"),
        ("a \t|\t b", "a b"),
        ("a  b|\tc", "a  b c"),
        ("| a| ", "a"),
        ("| ", ""),
        (" |\t| ", ""),
        ("a\tb", "a\tb"),
        ("a| b:|\tc", "a b: c"),
    ];
    for (written, expected) in rows {
        let input = request(&format!("STOP 9|Logging-Tag:{written}||"));
        let fields = read(&input).unwrap().fields.unwrap();
        let value = fields.value(Known::LoggingTag).unwrap();
        assert_eq!(*value, *expected.as_bytes(), "{written}");
    }
}

/// What a fresh channel answers, and the last id after it.
fn fresh(name: &[u8], text: &str) -> String {
    let mut channel = given_name(name, "idle - -");
    let answer = answer(&mut channel, &request(text));
    let shown = shown(&channel);
    let last = shown.split(' ').nth(1).expect("the word after the state");
    format!("{answer}; {last}")
}

/// A fold at an end of an acting value changes nothing, one inside it is judged as a space.
const ACTING: &[(&str, &str, &str)] = &[
    (
        "STOP 9|Channel-Identifier:",
        "7f3a@speech~synth",
        "405 COMPLETE; -",
    ),
    ("STOP 9|{C}Content-Length:", "0~0", "404 COMPLETE; -"),
    (
        "SPEAK 9|{C}Content-Length:2|Content-Type:",
        "text/~plain",
        "409 COMPLETE; 9",
    ),
    (
        "STOP 9|{C}Active-Request-Id-List:",
        "1,~2",
        "404 COMPLETE; 9",
    ),
    (
        "SPEAK 9|{C}Content-Length:2|Content-Type:text/plain|Kill-On-Barge-In:",
        "fal~se",
        "404 COMPLETE; 9",
    ),
    (
        "RECOGNIZE 9|{R}Content-Length:2|Content-Type:text/uri-list|Confidence-Threshold:",
        "0.~5",
        "404 COMPLETE; 9",
    ),
];

#[test]
fn values_are_judged_as_joined() {
    for (begin, value, inside) in ACTING {
        let name = if begin.contains("{R}") {
            RECOGNIZER
        } else {
            NAME
        };
        let body = if begin.contains("Length:2") { "Hi" } else { "" };
        let answered = |value: &str| fresh(name, &format!("{begin}{value}||{body}"));
        let plain = answered(&value.replace('~', ""));
        assert!(plain.starts_with("200 "), "{begin} {plain}");
        for fold in ["| ", "|\t", " | ", "\t|\t \t", "| | ", " |\t|  | "] {
            assert_eq!(answered(&value.replace('~', fold)), *inside, "{begin}");
            let whole = value.replace('~', "");
            for ends in [
                format!("{fold}{whole}"),
                format!("{whole}{fold}"),
                format!("{fold}{whole}{fold}"),
            ] {
                assert_eq!(answered(&ends), plain, "{begin}{ends}");
            }
        }
    }
}

#[test]
fn the_order_of_judgement_by_table() {
    let rows: &[(&str, &str)] = &[
        // `Content-Length:1| 0` reads `1 0`.
        (
            "STOP 9|{C}Content-Length:1| 0||0123456789",
            "404 COMPLETE; -",
        ),
        (
            "STOP 9|{C}Content-Length:| 10| ||0123456789",
            "200 COMPLETE; 9",
        ),
        // A line of blanks alone continues the name; without an empty line behind it is 404.
        ("STOP 9|{C} ||", "200 COMPLETE; 9"),
        ("STOP 9|{C} |", "404 COMPLETE; -"),
        // What acts nowhere, or not here, is not judged.
        ("STOP 9|{C}Proxy-Sync-Id:1| 2||", "200 COMPLETE; 9"),
        ("STOP 9|{C}Logging-Tag:1| 2||", "200 COMPLETE; 9"),
        ("STOP 9|{C}X:1| 2||", "201 COMPLETE; 9"),
        ("STOP 9|{C}Kill-On-Barge-In:tr| ue||", "201 COMPLETE; 9"),
        ("STOP 9|{C}Content-Type:tr| ue||", "201 COMPLETE; 9"),
        ("STOP 9|{C}Confidence-Threshold:0.| 5||", "201 COMPLETE; 9"),
        ("X 9|{C}Active-Request-Id-List:1,| 2||", "401 COMPLETE; 9"),
        // An empty value is present, whatever it is made of.
        ("STOP 9|Channel-Identifier:| ||", "405 COMPLETE; -"),
        ("STOP 9|{C}Content-Length:| ||", "404 COMPLETE; -"),
        ("STOP 9|{C}Active-Request-Id-List:| ||", "404 COMPLETE; 9"),
        ("STOP 9|{C}Logging-Tag:| ||", "200 COMPLETE; 9"),
        // Behind the start line there is no field yet.
        ("STOP 9| {C}|", "404 COMPLETE; -"),
        ("STOP 9| |{C}|", "404 COMPLETE; -"),
        // The name of a field in a continued line is no field.
        ("STOP 9|Logging-Tag:1| {C}|", "406 COMPLETE; -"),
        ("STOP 9|{C}X:1| {C}|", "201 COMPLETE; 9"),
    ];
    for (text, expected) in rows {
        assert_eq!(fresh(NAME, text), *expected, "{text}");
    }
}

/// What is kept comes from the joined value.
#[test]
fn what_is_kept() {
    let mut channel = opened();
    let speak =
        "SPEAK 1|{C}Content-Length:2|Content-Type:|\tTEXT/Plain|Kill-On-Barge-In: | FALSE| ||Hi";
    assert_eq!(answer(&mut channel, &request(speak)), "200 IN-PROGRESS");
    assert_eq!(shown(&channel), "speaking 1 1-");
    let mut channel = given("speaking 3 1+,2+,3+");
    let stop = "STOP 9|{C}Active-Request-Id-List:|\t| 3,1| ||";
    assert_eq!(answer(&mut channel, &request(stop)), "200 COMPLETE 1,3");
    assert_eq!(shown(&channel), "speaking 9 2+");
    let mut channel = given_name(RECOGNIZER, "idle - -");
    let recognize =
        "RECOGNIZE 1|{R}Content-Length:2|Content-Type:text/uri-list|Confidence-Threshold:| 0.5| ||Hi";
    assert_eq!(answer(&mut channel, &request(recognize)), "200 IN-PROGRESS");
    assert_eq!(shown(&channel), "recognizing 1 1:3f000000");
}

#[test]
fn raw_parts_are_the_callers_own_bytes() {
    let input = request("STOP 9|A: | b| c | |B:| ||");
    let fields = read(&input).unwrap().fields.unwrap();
    let whole = input.as_ptr_range();
    for field in fields.all() {
        let part = field.raw.as_ptr_range();
        assert!(whole.start <= part.start && part.end <= whole.end);
    }
}

/// A message with a fold at both ends of each value.
fn folded(message: &[u8]) -> Vec<u8> {
    let text = String::from_utf8(message.to_vec())
        .unwrap()
        .replace("\r\n", "|");
    let (head, body) = text.split_once("||").expect("an empty line");
    let mut lines = head.split('|');
    let mut words = lines.next().unwrap().splitn(3, ' ');
    let line = words.nth(2).unwrap();
    let fields = lines.map(|line| line.replacen(':', ":| ", 1) + "\t|\t|");
    let fields: String = fields.collect();
    request(&format!("{line}|{fields}|{body}"))
}

/// Our own examples, with folds at the ends of all values, have the same answers.
#[test]
fn folds_at_the_ends_change_no_answer() {
    use second::script::{command, Command};
    let scripts = [
        include_str!("../../examples/transfer.script"),
        include_str!("../../examples/confirmation.script"),
    ];
    let mut messages = 0;
    for script in scripts {
        let (mut plain, mut changed) = (opened(), opened());
        for line in script.lines() {
            match command(line.as_bytes()).unwrap() {
                Some(Command::Open(name)) => {
                    plain = second::Kept::open(&name).0;
                    changed = plain;
                }
                Some(Command::Message { room, input }) => {
                    let (outcome, written) = handle_in(&mut plain, &input, room);
                    let (other, same) = handle_in(&mut changed, &folded(&input), room);
                    assert_eq!((outcome.number, written), (other.number, same), "{line}");
                    messages += 1;
                }
                Some(Command::Report { cause, room, score }) => {
                    let told = scored_in(&mut plain, cause, score, room);
                    assert_eq!(scored_in(&mut changed, cause, score, room), told, "{line}");
                }
                _ => {}
            }
            assert_eq!(shown(&changed), shown(&plain), "{line}");
        }
    }
    assert!(messages > 20);
}
