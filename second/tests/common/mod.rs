//! What the tests share. Not every test uses all of it.
#![allow(dead_code)]

use second::{Kept, Outcome};

pub const NAME: &[u8] = b"7f3a@speechsynth";
pub const RECOGNIZER: &[u8] = b"7f3a@speechrecog";

/// The bytes of a text in which `|` is CRLF, `{C}` a right Channel-Identifier
/// line of the synthesizer and `{R}` of the recognizer, `{L}` the right length,
/// and each character up to U+00FF one byte.
pub fn wire(text: &str) -> Vec<u8> {
    let text = text
        .replace("{C}", "Channel-Identifier:7f3a@speechsynth|")
        .replace("{R}", "Channel-Identifier:7f3a@speechrecog|")
        .replace('|', "\r\n");
    // The smallest right length is found by trying.
    (0..100_000)
        .map(|length| latin1(&text.replace("{L}", &length.to_string())))
        .enumerate()
        .find(|(length, bytes)| !text.contains("{L}") || bytes.len() == *length)
        .map(|(_, bytes)| bytes)
        .expect("some length fits")
}

fn latin1(text: &str) -> Vec<u8> {
    text.chars()
        .map(|letter| u8::try_from(u32::from(letter)).expect("one byte"))
        .collect()
}

/// A request with the right version and length: `rest` from the method on.
pub fn request(rest: &str) -> Vec<u8> {
    wire(&format!("MRCP/2.0 {{L}} {rest}"))
}

/// A SPEAK that is accepted, with further field lines.
pub fn speak(id: u32, fields: &str) -> Vec<u8> {
    request(&format!(
        "SPEAK {id}|{{C}}Content-Type:text/plain|Content-Length:2|{fields}|Hi"
    ))
}

pub fn opened() -> Kept {
    let (channel, number) = Kept::open(NAME);
    assert_eq!(number, 0);
    channel
}

/// A call with room enough: its outcome and the bytes written. What lies past
/// the count written must be untouched.
pub fn handle(channel: &mut Kept, input: &[u8]) -> (Outcome, Vec<u8>) {
    handle_in(channel, input, 400)
}

pub fn handle_in(channel: &mut Kept, input: &[u8], room: usize) -> (Outcome, Vec<u8>) {
    let mut output = vec![0xa5; room];
    let outcome = channel.handle(input, &mut output);
    assert!(output[outcome.written..].iter().all(|&byte| byte == 0xa5));
    output.truncate(outcome.written);
    (outcome, output)
}

pub fn report_in(channel: &mut Kept, cause: u32, room: usize) -> (Outcome, Vec<u8>) {
    scored_in(channel, cause, 0, room)
}

/// A report with the bits of its score.
pub fn scored_in(channel: &mut Kept, cause: u32, score: u32, room: usize) -> (Outcome, Vec<u8>) {
    let mut output = vec![0xa5; room];
    let outcome = channel.report(cause, f32::from_bits(score), &mut output);
    assert!(output[outcome.written..].iter().all(|&byte| byte == 0xa5));
    output.truncate(outcome.written);
    (outcome, output)
}

/// What a handled message is answered with: `200 COMPLETE 7,8`, the list as written.
pub fn answer(channel: &mut Kept, input: &[u8]) -> String {
    let (outcome, written) = handle(channel, input);
    if outcome.number != 0 {
        return format!("refused {}", outcome.number);
    }
    assert_eq!(outcome.consumed, second::frame(input).unwrap().length());
    let text = String::from_utf8(written).unwrap();
    let lines: Vec<&str> = text.split("\r\n").collect();
    let words: Vec<&str> = lines[0].split(' ').collect();
    assert_eq!(words[1], text.len().to_string());
    let list = lines
        .iter()
        .find_map(|line| line.strip_prefix("Active-Request-Id-List:"));
    match list {
        None => words[3..].join(" "),
        Some(list) => format!("{} {list}", words[3..].join(" ")),
    }
}

/// A sound channel answers the request so, and is sound and so afterwards.
pub fn check_turn(mut channel: Kept, rest: &str, expected: &str, after: &str) {
    let what = format!("{rest} from {}", shown(&channel));
    assert!(channel.is_sound(), "{what}");
    assert_eq!(answer(&mut channel, &request(rest)), expected, "{what}");
    assert_eq!(shown(&channel), after, "{what}");
    assert!(channel.is_sound(), "{what}");
}

/// The channel as `show` prints it, without its name.
pub fn shown(channel: &Kept) -> String {
    let mut text = Vec::new();
    second::script::put_channel(&mut text, channel);
    let text = String::from_utf8(text).unwrap();
    text.splitn(3, ' ').nth(2).unwrap().to_string()
}

/// A channel from the words of a `channel` line after its name.
pub fn given(words: &str) -> Kept {
    given_name(NAME, words)
}

pub fn given_name(name: &[u8], words: &str) -> Kept {
    let mut line = b"channel ".to_vec();
    second::script::put_hex(&mut line, name);
    line.extend_from_slice(format!(" {words}").as_bytes());
    match second::script::command(&line) {
        Ok(Some(second::script::Command::Channel(channel))) => *channel,
        other => panic!("{words}: {other:?}"),
    }
}

/// The number that framing gives, and the length.
pub fn framed(input: &[u8]) -> (u32, usize) {
    match second::frame(input) {
        Ok(frame) => (0, frame.length()),
        Err(refusal) => (refusal.number(), 0),
    }
}
