//! Whose request is it (K3, and point 26 of the readings).

mod common;

use common::*;
use second::{frame, read, whose};

/// The id, or the number of the refusal.
fn asked(bytes: &[u8]) -> Result<u32, u32> {
    whose(bytes).map_err(|refusal| refusal.number())
}

const ROWS: &[(&str, Result<u32, u32>)] = &[
    // All three kinds of start lines, any version, nothing behind the line.
    ("MRCP/2.0 99999 STOP 7|", Ok(7)),
    ("MRCP/2.0 99999 7 200 COMPLETE|", Ok(7)),
    ("MRCP/2.0 99999 SPEAK-COMPLETE 7 PENDING|", Ok(7)),
    ("MRCP/9.17 99999 STOP 7|", Ok(7)),
    ("MRCP/2.0 99999 STOP 0000000007|", Ok(7)),
    ("MRCP/2.0 99999 STOP 0|", Ok(0)),
    ("MRCP/2.0 99999 STOP 4294967295|", Ok(4294967295)),
    ("MRCP/2.0 99999 NO-SUCH-METHOD 7|", Ok(7)),
    // What comes after the line is not looked at.
    ("MRCP/2.0 99999 STOP 7|\0 bad: fields", Ok(7)),
    ("MRCP/2.0 99999 STOP 7||", Ok(7)),
    // No 3, whatever is stated.
    ("MRCP/2.0 16385 STOP 7|", Ok(7)),
    ("MRCP/2.0 65536 STOP 7|", Ok(7)),
    ("MRCP/2.0 4294967297 STOP 7|", Ok(7)),
    ("MRCP/2.0 9999999999999999999 STOP 7|", Ok(7)),
    // As in 01: 1 and 2 for the opening, 4 before the line is looked at.
    ("", Err(1)),
    ("MRCP/2.0 9999999999999999999", Err(1)),
    ("MRCP/2.0 99999999999999999990", Err(2)),
    ("MRCP/2.x", Err(2)),
    ("|MRCP/2.0 21 STOP 7|", Err(2)),
    ("MRCP/2.0 0 ", Err(4)),
    ("MRCP/2.0 9 STOP 7|", Err(4)),
    ("MRCP/2.0 11 STOP|", Err(4)),
    ("MRCP/2.0 0000000000000000020 STOP 7|", Err(4)),
    ("MRCP/2.0 12 ", Err(5)),
    ("MRCP/2.0 12 STOP 7|", Err(5)),
    // The CRLF is not there yet, even where the line is wrong already.
    ("MRCP/2.0 99999 ", Err(1)),
    ("MRCP/2.0 99999 STOP 7", Err(1)),
    ("MRCP/2.0 99999 STOP 7\r", Err(1)),
    ("MRCP/2.0 99999 stop 7", Err(1)),
    ("MRCP/2.0 99999 \0", Err(1)),
    // Malformed.
    ("MRCP/2.0 99999 stop 7|", Err(5)),
    ("MRCP/2.0 99999 STOP 4294967296|", Err(5)),
    ("MRCP/2.0 99999 STOP 7 200|", Err(5)),
    ("MRCP/2.0 99999 |", Err(5)),
    ("MRCP/2.0 99999 STOP 7\r|", Err(5)),
    ("MRCP/2.0 99999 STOP\n7|", Err(5)),
    ("MRCP/2.0 99999  STOP 7|", Err(5)),
];

#[test]
fn ids_and_refusals_by_table() {
    for (text, expected) in ROWS {
        assert_eq!(asked(&wire(text)), *expected, "{text}");
    }
}

/// "Inside the stated length": both bytes of the CRLF.
#[test]
fn around_the_stated_length() {
    let line = |stated: usize| wire(&format!("MRCP/2.0 {stated} STOP 7|"));
    assert_eq!(line(20).len(), 20);
    for (stated, expected) in [(18, Err(5)), (19, Err(5)), (20, Ok(7)), (21, Ok(7))] {
        assert_eq!(asked(&line(stated)), expected, "{stated}");
        let longer = [line(stated), b"\r\n\r\n".to_vec()].concat();
        assert_eq!(asked(&longer), expected, "{stated}");
    }
    // 5 as soon as the stated bytes are there, and not before.
    for (stated, cut, expected) in [(18, 17, 1), (18, 18, 5), (19, 18, 1), (19, 19, 5)] {
        assert_eq!(asked(&line(stated)[..cut]), Err(expected), "{stated} {cut}");
    }
}

/// "In the first 128 bytes lent": both bytes of the CRLF.
#[test]
fn around_128_bytes() {
    for stated in ["99999", "128", "129"] {
        let begin = format!("MRCP/2.0 {stated} STOP 7");
        for end in 126..=130 {
            let spaces = " ".repeat(end - 2 - begin.len());
            let bytes = wire(&format!("{begin}{spaces}|X:y||"));
            for cut in 0..=bytes.len() {
                let expected = match cut {
                    // The line is malformed as soon as its CRLF is there.
                    _ if cut >= end && end <= 128 => Err(5),
                    _ if cut >= 128 => Err(5),
                    _ => Err(1),
                };
                assert_eq!(asked(&bytes[..cut]), expected, "{stated} {end} {cut}");
            }
        }
    }
}

/// The longest start line of all is well inside 128 bytes.
#[test]
fn the_longest_line() {
    let line = format!("{} 4294967295 IN-PROGRESS", "Q".repeat(32));
    let bytes = wire(&format!("MRCP/02.00 0000000000000099999 {line}|"));
    assert_eq!(bytes.len(), 88);
    assert_eq!(asked(&bytes), Ok(u32::MAX));
    assert_eq!(asked(&bytes[..87]), Err(1));
}

/// "Once framed as in 01, full reading gives the same id"; and an answer other
/// than 1 stays, whatever comes after.
#[test]
fn the_same_as_reading_and_for_good() {
    let mut messages: Vec<Vec<u8>> = ROWS.iter().map(|(text, _)| wire(text)).collect();
    for line in ["STOP 7", "7 200 COMPLETE", "E 7 PENDING", "stop 7", "STOP"] {
        messages.push(request(&format!("{line}|{{C}}Content-Length:2||Hi")));
        messages.push(request(&format!("{line}|bad")));
        messages.push(request(line));
    }
    let mut framed = 0;
    for bytes in &messages {
        let mut before = Err(1);
        for cut in 0..=bytes.len() {
            let now = asked(&bytes[..cut]);
            assert!(before == Err(1) || now == before, "{cut} {bytes:?}");
            before = now;
            if frame(&bytes[..cut]).is_ok() {
                let read = read(&bytes[..cut]).map(|message| message.start.id());
                assert_eq!(now, read.map_err(|refusal| refusal.number()), "{bytes:?}");
                framed += 1;
            }
        }
    }
    assert!(framed > 10);
}
