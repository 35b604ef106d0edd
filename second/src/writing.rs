//! Bytes written: answers and events.

use std::iter;

use crate::channel::{Kind, MOST_OUTSTANDING};
use crate::fields::Known;
use crate::level::{self, Level};
use crate::settings::{Value, MOST_SETTINGS};
use crate::start_line::RequestState;

/// The ids of an answer's list, in queue order; empty where there is no list.
#[derive(Clone, Copy, Debug, PartialEq, Eq)]
pub struct Ids {
    stored: [u32; MOST_OUTSTANDING],
    count: usize,
}

impl Ids {
    pub const NONE: Ids = Ids {
        stored: [0; MOST_OUTSTANDING],
        count: 0,
    };

    pub fn all(&self) -> &[u32] {
        &self.stored[..self.count]
    }

    pub fn add(&mut self, id: u32) {
        self.stored[self.count] = id;
        self.count += 1;
    }
}

/// One setting as an answer tells it; no value where it is unset.
#[derive(Clone, Copy, Debug, PartialEq, Eq)]
pub struct Told {
    pub field: Known,
    pub value: Option<Value>,
}

pub const NOTHING_TOLD: [Option<Told>; MOST_SETTINGS] = [None; MOST_SETTINGS];

/// A response to one request.
#[derive(Clone, Copy, Debug, PartialEq, Eq)]
pub struct Answer {
    pub id: u32,
    pub status: u16,
    pub state: RequestState,
    /// No list field where it is empty.
    pub list: Ids,
    /// What a GET-PARAMS is told, in order.
    pub told: [Option<Told>; MOST_SETTINGS],
}

/// A SPEAK-COMPLETE or RECOGNITION-COMPLETE event, always COMPLETE, with a
/// cause of that kind.
#[derive(Clone, Copy, Debug, PartialEq, Eq)]
pub struct Event {
    pub kind: Kind,
    pub id: u32,
    pub cause: u32,
}

const SPEECH_CAUSES: [&str; 8] = [
    "normal",
    "barge-in",
    "parse-failure",
    "uri-failure",
    "error",
    "language-unsupported",
    "lexicon-load-failure",
    "cancelled",
];

/// RFC 6787, section 9.4.11.
const RECOGNITION_CAUSES: [&str; 16] = [
    "success",
    "no-match",
    "no-input-timeout",
    "hotword-maxtime",
    "grammar-load-failure",
    "grammar-compilation-failure",
    "recognizer-error",
    "speech-too-early",
    "success-maxtime",
    "uri-failure",
    "language-unsupported",
    "cancelled",
    "semantics-failure",
    "partial-match",
    "partial-match-maxtime",
    "no-match-maxtime",
];

/// The cause of a recognition that ends with the one before it.
pub const CANCELLED: u32 = 11;

/// The cause's word; none above 7, on a recognizer above 15.
pub fn cause_word(kind: Kind, cause: u32) -> Option<&'static str> {
    let causes = match kind {
        Kind::Synthesizer => &SPEECH_CAUSES[..],
        Kind::Recognizer => &RECOGNITION_CAUSES[..],
    };
    causes.get(cause as usize).copied()
}

/// The events of one report, end to end: the first with the cause, all others cancelled.
#[derive(Clone, Copy, Debug, PartialEq, Eq)]
pub struct Events {
    pub kind: Kind,
    pub cause: u32,
    pub ids: Ids,
}

impl Events {
    fn all(&self) -> impl Iterator<Item = Outgoing> + '_ {
        let causes = iter::once(self.cause).chain(iter::repeat(CANCELLED));
        self.ids.all().iter().zip(causes).map(|(&id, cause)| {
            let kind = self.kind;
            Outgoing::Event(Event { kind, id, cause })
        })
    }

    /// Writes all of them and gives the sum of their sizes. None, and no byte
    /// written, if the output is shorter: refusal 7 "is about all messages of
    /// one call together".
    pub fn write(&self, name: &[u8], output: &mut [u8]) -> Option<usize> {
        let total = self.all().map(|event| event.size(name)).sum();
        let output = output.get_mut(..total)?;
        let mut at = 0;
        for event in self.all() {
            at += event.write(name, &mut output[at..])?;
        }
        Some(total)
    }
}

#[derive(Clone, Copy, Debug, PartialEq, Eq)]
pub enum Outgoing {
    Answer(Answer),
    Event(Event),
}

/// Takes bytes: to count them first, then to write them.
trait Sink {
    fn put(&mut self, bytes: &[u8]);

    /// Digits without leading zeros, but at least `least` of them.
    fn number(&mut self, mut number: u64, least: usize) {
        let mut digits = [b'0'; 20];
        let mut at = digits.len();
        while number > 0 {
            at -= 1;
            digits[at] = b'0' + (number % 10) as u8;
            number /= 10;
        }
        self.put(&digits[at.min(digits.len() - least)..]);
    }
}

struct Count(usize);

impl Sink for Count {
    fn put(&mut self, bytes: &[u8]) {
        self.0 += bytes.len();
    }
}

struct Pen<'a> {
    output: &'a mut [u8],
    at: usize,
}

impl Sink for Pen<'_> {
    fn put(&mut self, bytes: &[u8]) {
        let end = self.at + bytes.len();
        self.output[self.at..end].copy_from_slice(bytes);
        self.at = end;
    }
}

const OPENING: &[u8] = b"MRCP/2.0 ";

impl Outgoing {
    /// The exact size of the message, its own digits in it.
    pub fn size(&self, name: &[u8]) -> usize {
        let mut count = Count(OPENING.len());
        self.put_rest(name, &mut count);
        with_own_digits(count.0)
    }

    /// Writes the message at the beginning of the output and gives its size.
    /// None, and no byte written, if the output is shorter.
    pub fn write(&self, name: &[u8], output: &mut [u8]) -> Option<usize> {
        let size = self.size(name);
        let output = output.get_mut(..size)?;
        let mut pen = Pen { output, at: 0 };
        pen.put(OPENING);
        pen.number(size as u64, 1);
        self.put_rest(name, &mut pen);
        Some(size)
    }

    /// All that comes after the length's digits.
    fn put_rest(&self, name: &[u8], sink: &mut impl Sink) {
        match self {
            Outgoing::Answer(answer) => put_answer_line(answer, sink),
            Outgoing::Event(event) => put_event_line(event, sink),
        }
        sink.put(b"Channel-Identifier:");
        sink.put(name);
        sink.put(b"\r\n");
        match self {
            Outgoing::Answer(answer) => {
                put_list(answer.list.all(), sink);
                answer
                    .told
                    .iter()
                    .flatten()
                    .for_each(|told| put_told(told, sink));
            }
            Outgoing::Event(event) => put_cause(event, sink),
        }
        sink.put(b"\r\n");
    }
}

fn put_answer_line(answer: &Answer, sink: &mut impl Sink) {
    sink.put(b" ");
    sink.number(u64::from(answer.id), 1);
    sink.put(b" ");
    sink.number(u64::from(answer.status), 3);
    sink.put(b" ");
    sink.put(answer.state.word().as_bytes());
    sink.put(b"\r\n");
}

fn put_event_line(event: &Event, sink: &mut impl Sink) {
    sink.put(match event.kind {
        Kind::Synthesizer => &b" SPEAK-COMPLETE "[..],
        Kind::Recognizer => b" RECOGNITION-COMPLETE ",
    });
    sink.number(u64::from(event.id), 1);
    sink.put(b" ");
    sink.put(RequestState::Complete.word().as_bytes());
    sink.put(b"\r\n");
}

fn put_list(ids: &[u32], sink: &mut impl Sink) {
    let [first, others @ ..] = ids else {
        return;
    };
    sink.put(b"Active-Request-Id-List:");
    sink.number(u64::from(*first), 1);
    for id in others {
        sink.put(b",");
        sink.number(u64::from(*id), 1);
    }
    sink.put(b"\r\n");
}

/// "`true` or `false`, numbers without leading zeros, levels with a point and six
/// digits from their kept millionths, empty if unset."
fn put_told(told: &Told, sink: &mut impl Sink) {
    sink.put(told.field.spelling());
    sink.put(b":");
    match told.value {
        None => {}
        Some(Value::Flag(true)) => sink.put(b"true"),
        Some(Value::Flag(false)) => sink.put(b"false"),
        Some(Value::Millis(millis)) => sink.number(millis, 1),
        Some(Value::Level(level)) => put_level(level, sink),
    }
    sink.put(b"\r\n");
}

fn put_level(level: Level, sink: &mut impl Sink) {
    let millionths = level.millionths();
    sink.number((millionths / level::ONE).into(), 1);
    sink.put(b".");
    sink.number((millionths % level::ONE).into(), 6);
}

fn put_cause(event: &Event, sink: &mut impl Sink) {
    let word = cause_word(event.kind, event.cause).expect("a cause of that kind");
    sink.put(b"Completion-Cause:");
    sink.number(u64::from(event.cause), 3);
    sink.put(b" ");
    sink.put(word.as_bytes());
    sink.put(b"\r\n");
}

/// "The length is the smallest number that equals the message's size with its
/// own digits in it": `without` is the size without them.
pub fn with_own_digits(without: usize) -> usize {
    // Fewer digits give a smaller number, so the first count that fits is the one.
    let mut digits = 1;
    while digits_of(without + digits) != digits {
        digits += 1;
    }
    without + digits
}

fn digits_of(mut number: usize) -> usize {
    let mut digits = 1;
    while number >= 10 {
        number /= 10;
        digits += 1;
    }
    digits
}
