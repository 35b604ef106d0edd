//! Framing, and reading a message alone.

mod common;

use common::*;
use second::octets::{self, BLANK, CAPITAL, DIGIT, NAME as NAME_BYTE, VALUE};
use second::read;
use second::start_line::{RequestState, StartLine};

#[test]
fn the_table_of_bytes() {
    for byte in 0..=255u8 {
        let letter = byte.is_ascii_lowercase() || byte.is_ascii_uppercase();
        let digit = b"0123456789".contains(&byte);
        let rows = [
            (DIGIT, digit),
            (CAPITAL, b"ABCDEFGHIJKLMNOPQRSTUVWXYZ".contains(&byte)),
            (NAME_BYTE, letter || digit || byte == b'-'),
            (VALUE, byte == 9 || (byte >= 32 && byte != 127)),
            (BLANK, byte == 9 || byte == 32),
        ];
        for (class, expected) in rows {
            assert_eq!(octets::is(byte, class), expected, "{byte} {class}");
        }
    }
}

#[test]
fn framing_by_table() {
    let nineteen = "9".repeat(19);
    let rows: &[(&str, (u32, usize))] = &[
        ("M", (1, 0)),
        ("MRCP", (1, 0)),
        ("MRCP/", (1, 0)),
        ("MRCP/.", (2, 0)),
        ("MRCP/2", (1, 0)),
        ("MRCP/22", (1, 0)),
        ("MRCP/222", (2, 0)),
        ("MRCP/2.", (1, 0)),
        ("MRCP/2. ", (2, 0)),
        ("MRCP/2.00", (1, 0)),
        ("MRCP/2.000", (2, 0)),
        ("MRCP/2.0 ", (1, 0)),
        ("MRCP/2.0  ", (2, 0)),
        ("MRCP/2.0 x", (2, 0)),
        ("MRCP/2.0 5", (1, 0)),
        ("MRCP/2.0 5x", (2, 0)),
        ("MRCP/2.0 -5 ", (2, 0)),
        ("MRCP/2.0 11 ", (4, 0)),
        ("MRCP/2.0 12 ", (0, 12)),
        ("MRCP/2.0 13 ", (1, 0)),
        ("MRCP/2.0 13 x", (0, 13)),
        ("MRCP/2.0 13 xy", (0, 13)),
        ("MRCP/99.99 14 ", (0, 14)),
        ("MRCP/0.0 9 ", (4, 0)),
        ("MRCP/2.0 16385 x", (3, 0)),
        ("MRCP/2.0 99999999999999999999 ", (2, 0)),
        ("NRCP/2.0 12 ", (2, 0)),
        ("mrcp/2.0 12 ", (2, 0)),
        (&format!("MRCP/2.0 {nineteen}"), (1, 0)),
        (&format!("MRCP/2.0 {nineteen} "), (3, 0)),
    ];
    for (input, expected) in rows {
        assert_eq!(framed(input.as_bytes()), *expected, "{input}");
    }
}

#[test]
fn the_longest_opening_cut_everywhere() {
    let opening = b"MRCP/99.99 0000000000000000031 ";
    assert_eq!(opening.len(), 31);
    for end in 0..opening.len() {
        assert_eq!(framed(&opening[..end]), (1, 0), "{end}");
    }
    assert_eq!(framed(opening), (0, 31));
}

#[test]
fn exactly_the_longest_message() {
    let mut input = b"MRCP/2.0 16384 ".to_vec();
    input.resize(16_383, b'x');
    assert_eq!(framed(&input), (1, 0));
    input.push(b'x');
    assert_eq!(framed(&input), (0, 16_384));
    input.push(b'x');
    assert_eq!(framed(&input), (0, 16_384));
}

/// After 2, 3 or 4 the same bytes give the same number again, whatever follows.
#[test]
fn refusals_stay() {
    for input in ["MRCP/2.x", "MRCP/2.0 16385 ", "MRCP/2.0 10 "] {
        let first = framed(input.as_bytes());
        for more in ["", "x", "\r\n\r\n", "MRCP/2.0 12 "] {
            assert_eq!(framed(format!("{input}{more}").as_bytes()), first);
        }
    }
}

/// The start line of what is read: a word for each part.
fn started(line: &str) -> String {
    let input = request(&format!("{line}||"));
    match read(&input) {
        Err(refusal) => refusal.number().to_string(),
        Ok(message) => match message.start {
            StartLine::Request { name, id } => {
                format!("request {} {id}", String::from_utf8_lossy(name))
            }
            StartLine::Response { id, status, state } => {
                format!("response {id} {status} {}", state.word())
            }
            StartLine::Event { name, id, state } => {
                let name = String::from_utf8_lossy(name);
                format!("event {name} {id} {}", state.word())
            }
        },
    }
}

const START_LINES: &[(&str, &str)] = &[
    ("STOP 9", "request STOP 9"),
    ("A- 0", "request A- 0"),
    ("STOP 4294967295", "request STOP 4294967295"),
    ("STOP 4294967296", "5"),
    ("STOP 0000000007", "request STOP 7"),
    ("STOP 00000000007", "5"),
    ("STOP", "5"),
    ("STOP ", "5"),
    ("STOP  9", "5"),
    (" STOP 9", "5"),
    ("STOP 9 ", "5"),
    ("stop 9", "5"),
    ("-STOP 9", "5"),
    ("ST0P 9", "5"),
    ("STOP 9\r", "5"),
    ("STOP 9\n", "5"),
    ("STOP\t9", "5"),
    ("", "5"),
    ("9 200 COMPLETE", "response 9 200 COMPLETE"),
    ("9 000 PENDING", "response 9 0 PENDING"),
    ("9 999 IN-PROGRESS", "response 9 999 IN-PROGRESS"),
    ("9 20 COMPLETE", "5"),
    ("9 2000 COMPLETE", "5"),
    ("9 20x COMPLETE", "5"),
    ("9 200", "5"),
    ("9 200 complete", "5"),
    ("9 200 COMPLETE ", "5"),
    ("4294967296 200 COMPLETE", "5"),
    (
        "SPEAK-COMPLETE 9 COMPLETE",
        "event SPEAK-COMPLETE 9 COMPLETE",
    ),
    ("E 9 PENDING", "event E 9 PENDING"),
    ("E 9 DONE", "5"),
    ("E 4294967296 COMPLETE", "5"),
    ("STOP 9 200 COMPLETE", "5"),
];

#[test]
fn start_lines_by_table() {
    for (line, expected) in START_LINES {
        assert_eq!(started(line), *expected, "{line}");
    }
    for (length, good) in [(1, true), (31, true), (32, true), (33, false)] {
        let name = "Q".repeat(length);
        let expected = match good {
            true => format!("request {name} 9"),
            false => "5".to_string(),
        };
        assert_eq!(started(&format!("{name} 9")), expected);
    }
}

#[test]
fn states_are_spelled_in_one_way() {
    let words = [
        (RequestState::Pending, "PENDING"),
        (RequestState::InProgress, "IN-PROGRESS"),
        (RequestState::Complete, "COMPLETE"),
    ];
    for (state, word) in words {
        assert_eq!(state.word(), word);
    }
}

/// What reading gives after the start line: `bad`, or fields and body.
fn fields_of(rest: &str) -> String {
    let input = request(&format!("STOP 9|{rest}"));
    let message = read(&input).expect("a good start line");
    assert_eq!(message.length, input.len());
    match message.fields {
        None => "bad".to_string(),
        Some(fields) => {
            let mut text = String::new();
            for field in fields.all() {
                let name = field.name.escape_ascii();
                text.push_str(&format!("{name}={};", field.raw.escape_ascii()));
            }
            format!("{text}{}", fields.body.escape_ascii())
        }
    }
}

#[test]
fn fields_by_table() {
    let long = |length: usize| format!("{}:v||", "n".repeat(length));
    let many = |count: usize| format!("{}|", "X:1|".repeat(count));
    let x = |count: usize| "X=1;".repeat(count);
    let (n64, n65) = (long(64), long(65));
    let good64 = format!("{}=v;", "n".repeat(64));
    let rows: &[(&str, &str)] = &[
        ("|", ""),
        ("", "bad"),
        ("|body", "bad"),
        ("Content-Length:4||body", "Content-Length=4;body"),
        ("Content-Length:0004||body", "Content-Length=0004;body"),
        ("Content-Length: \t4 ||body", "Content-Length=4;body"),
        ("Content-Length:5||body", "bad"),
        ("Content-Length:3||body", "bad"),
        ("Content-Length:||", "bad"),
        ("Content-Length:0||", "Content-Length=0;"),
        ("Content-Length:+4||body", "bad"),
        (
            "Content-Length:0000000000000000004||body",
            "Content-Length=0000000000000000004;body",
        ),
        ("Content-Length:00000000000000000004||body", "bad"),
        (
            "Content-Length:4||\r\n\r\n",
            "Content-Length=4;\\r\\n\\r\\n",
        ),
        ("A:1|B:2||", "A=1;B=2;"),
        ("A:1|B:2|", "bad"),
        ("A:1|B:2", "bad"),
        ("A:1|\n|", "bad"),
        ("A:1|\r|", "bad"),
        ("A:1\n|", "bad"),
        ("A:b:c||", "A=b:c;"),
        ("A: \t||", "A=;"),
        ("A:||", "A=;"),
        ("A: b c\t||", "A=b c;"),
        (":v||", "bad"),
        ("A||", "bad"),
        ("A :v||", "bad"),
        (" A:v||", "bad"),
        ("\tA:v||", "bad"),
        (" ||", "bad"),
        ("A_:v||", "bad"),
        ("-:v||", "-=v;"),
        ("A:\u{ff}\u{80}~||", "A=\\xff\\x80~;"),
        ("A:\u{7f}||", "bad"),
        ("A:\u{0}||", "bad"),
        (&n64, &good64),
        (&n65, "bad"),
        (&many(31), &x(31)),
        (&many(32), &x(32)),
        (&many(33), "bad"),
        ("X:1|x:2||", "X=1;x=2;"),
        ("Logging-Tag:1|LOGGING-TAG:2||", "bad"),
        ("Proxy-Sync-Id:1|proxy-sync-id:2||", "bad"),
        ("Content-Type:1|content-typE:1||", "bad"),
        ("Kill-On-Barge-In:1|Kill-On-Barge-In:1||", "bad"),
        ("Active-Request-Id-List:1|Active-Request-Id-List:1||", "bad"),
        ("{C}{C}|", "bad"),
        ("Content-Length:0|Content-Length:0||", "bad"),
    ];
    for (rest, expected) in rows {
        assert_eq!(fields_of(rest), *expected, "{rest}");
    }
}

#[test]
fn every_byte_in_a_value() {
    for byte in 0..=255u8 {
        let mut input = request("STOP 9|V:x?y||");
        let place = input.iter().position(|&byte| byte == b'?').unwrap();
        input[place] = byte;
        let message = read(&input).unwrap();
        assert_eq!(message.fields.is_some(), octets::is(byte, VALUE), "{byte}");
    }
}

/// Reading alone judges no version and knows all three kinds.
#[test]
fn reading_alone() {
    let rows = [
        ("MRCP/3.7 {L} STOP 9|{C}|", true),
        ("MRCP/2.0 {L} 9 200 COMPLETE|{C}|", true),
        ("MRCP/2.0 {L} E 9 COMPLETE|{C}{C}|", false),
        ("MRCP/2.0 {L} 9 200 COMPLETE|Content-Length:1||", false),
    ];
    for (text, good) in rows {
        let input = wire(text);
        let message = read(&input).unwrap();
        assert_eq!(message.fields.is_some(), good, "{text}");
    }
    let input = wire("MRCP/03.7 {L} STOP 9|{C}|");
    let version = read(&input).unwrap().version;
    assert_eq!((version.major, version.minor), (3, 7));
}

#[test]
fn parts_are_the_callers_own_bytes() {
    let input = request("STOP 9|A: b |Content-Length:2||Hi");
    let message = read(&input).unwrap();
    let fields = message.fields.unwrap();
    let whole = input.as_ptr_range();
    for part in [fields.body, fields.all()[0].raw, fields.all()[0].name] {
        let part = part.as_ptr_range();
        assert!(whole.start <= part.start && part.end <= whole.end);
    }
}
