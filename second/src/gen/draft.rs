//! Drafts of messages: the parts from which the bytes are put together.

use super::random::Random;
use crate::channel::Kind;
use crate::octets::line_end;
use crate::writing::with_own_digits;

/// How the stated length is written.
#[derive(Clone)]
pub enum Length {
    /// Right, with so many leading zeros.
    Right(usize),
    Off(i64),
    Written(Vec<u8>),
}

#[derive(Clone)]
pub struct Draft {
    pub version: Vec<u8>,
    pub length: Length,
    /// The start line after the opening, without CRLF.
    pub line: Vec<u8>,
    /// Field lines without CRLF.
    pub fields: Vec<Vec<u8>>,
    /// CRLF, or what stands in its place.
    pub line_end: Vec<u8>,
    /// The empty line, or what stands in its place.
    pub end: Vec<u8>,
    pub body: Vec<u8>,
    /// What is lent past the message.
    pub after: Vec<u8>,
}

impl Draft {
    pub fn new(line: Vec<u8>) -> Draft {
        Draft {
            version: b"2.0".to_vec(),
            length: Length::Right(0),
            line,
            fields: Vec::new(),
            line_end: b"\r\n".to_vec(),
            end: b"\r\n".to_vec(),
            body: Vec::new(),
            after: Vec::new(),
        }
    }

    /// A message taken apart; none where it has no empty line.
    pub fn of(bytes: &[u8]) -> Option<Draft> {
        let end = bytes.windows(4).position(|four| four == b"\r\n\r\n")?;
        let mut lines = lines(&bytes[..end]).into_iter();
        let mut words = lines.next()?.splitn(3, |&byte| byte == b' ');
        let version = words.next()?.strip_prefix(b"MRCP/")?;
        let mut draft = Draft::new(words.nth(1)?.to_vec());
        draft.version = version.to_vec();
        draft.fields = lines.map(<[u8]>::to_vec).collect();
        draft.body = bytes[end + 4..].to_vec();
        Some(draft)
    }

    pub fn field(&mut self, name: &[u8], value: &[u8]) {
        self.fields.push([name, b":", value].concat());
    }

    pub fn has(&self, name: &[u8]) -> bool {
        let mut fields = self.fields.iter();
        fields.any(|field| field_name(field).eq_ignore_ascii_case(name))
    }

    pub fn remove(&mut self, name: &[u8]) {
        self.fields
            .retain(|field| !field_name(field).eq_ignore_ascii_case(name));
    }

    /// All that follows the opening and is in the message.
    pub fn rest(&self) -> Vec<u8> {
        let mut rest = [&self.line[..], &self.line_end[..]].concat();
        for field in &self.fields {
            rest.extend_from_slice(field);
            rest.extend_from_slice(b"\r\n");
        }
        rest.extend_from_slice(&self.end);
        rest.extend_from_slice(&self.body);
        rest
    }

    pub fn bytes(&self) -> Vec<u8> {
        self.framed(&self.rest())
    }

    /// The opening, the given bytes, and what is lent past them.
    pub fn framed(&self, rest: &[u8]) -> Vec<u8> {
        let digits = self.digits(rest.len());
        let mut bytes = b"MRCP/".to_vec();
        bytes.extend_from_slice(&self.version);
        bytes.push(b' ');
        bytes.extend_from_slice(&digits);
        bytes.push(b' ');
        bytes.extend_from_slice(rest);
        bytes.extend_from_slice(&self.after);
        bytes
    }

    fn digits(&self, rest: usize) -> Vec<u8> {
        // `MRCP/`, the version and two spaces.
        let without = 5 + self.version.len() + 2 + rest;
        match &self.length {
            Length::Right(zeros) => {
                let size = with_own_digits(without + zeros).to_string();
                [vec![b'0'; *zeros], size.into_bytes()].concat()
            }
            Length::Off(by) => {
                let size = with_own_digits(without) as i64;
                (size + by).max(0).to_string().into_bytes()
            }
            Length::Written(digits) => digits.clone(),
        }
    }
}

/// What stands before, between and behind the CRLFs.
fn lines(bytes: &[u8]) -> Vec<&[u8]> {
    let mut lines = Vec::new();
    let mut rest = bytes;
    while let Some(end) = line_end(rest) {
        lines.push(&rest[..end]);
        rest = &rest[end + 2..];
    }
    lines.push(rest);
    lines
}

/// The methods of a kind, but those about settings. The first brings a body.
pub fn methods(kind: Kind) -> &'static [&'static str] {
    match kind {
        Kind::Synthesizer => &SPEECH_METHODS,
        Kind::Recognizer => &RECOGNITION_METHODS,
    }
}

/// A method that the kind lacks: the other's, or nobody's.
pub fn other_method(random: &mut Random, kind: Kind) -> &'static str {
    let others = match kind {
        Kind::Synthesizer => &["RECOGNIZE", "RECOGNIZE", "START-INPUT-TIMERS"][..],
        Kind::Recognizer => &["SPEAK", "SPEAK", "PAUSE", "CONTROL", "BARGE-IN-OCCURRED"],
    };
    match random.chance(50) {
        true => random.pick(others),
        false => random.pick(&UNKNOWN_METHODS),
    }
}

const RECOGNITION_METHODS: [&str; 3] = ["RECOGNIZE", "STOP", "START-INPUT-TIMERS"];

const SPEECH_METHODS: [&str; 6] = [
    "SPEAK",
    "STOP",
    "PAUSE",
    "RESUME",
    "CONTROL",
    "BARGE-IN-OCCURRED",
];

/// Of both kinds.
pub const SETTINGS_METHODS: [&str; 2] = ["SET-PARAMS", "GET-PARAMS"];

const UNKNOWN_METHODS: [&str; 15] = [
    "SET-PARAM",
    "GET-PARAMSX",
    "DEFINE-LEXICON",
    "DEFINE-GRAMMAR",
    "INTERPRET",
    "RECOGNIZ",
    "START-INPUT-TIMER",
    "SPEA",
    "SPEAKS",
    "STOP-",
    "A",
    "A-",
    "Z--Z",
    "BARGE-IN-OCCURREDX",
    "SPEAK-COMPLETE",
];

const STATES: [&str; 3] = ["PENDING", "IN-PROGRESS", "COMPLETE"];
const IDS: [&str; 10] = [
    "0",
    "1",
    "7",
    "0000000007",
    "42",
    "543257",
    "4294967295",
    "4294967294",
    "999999999",
    "1000000000",
];
pub const NAMES: [&str; 5] = [
    "7f3a@speechsynth",
    "32AECB23433802@speechsynth",
    "a@speechsynth",
    "32AECB23433801@speechrecog",
    "0123456789abcdefABCDEF0123456789@speechsynth",
];
const BODIES: [&[u8]; 6] = [
    b"Hi",
    b"Your balance is two hundred kroner.",
    b"<?xml version=\"1.0\"?>\r\n<speak>\r\n</speak>",
    b"\r\n",
    b"\r\n\r\nx:y\r\n",
    b"\0\xff\n",
];

/// Field lines of every sort, all well formed; values that judgement may dislike.
pub const SOME_FIELDS: [&[u8]; 22] = [
    b"Kill-On-Barge-In:true",
    b"Kill-On-Barge-In: FALSE",
    b"kill-on-barge-in:perhaps",
    b"Confidence-Threshold:0.5",
    b"CONFIDENCE-threshold: 2 ",
    b"Cancel-If-Queue:true",
    b"Fetch-Timeout:2500",
    b"no-input-TIMEOUT: 5000",
    b"Sensitivity-Level:0.75",
    b"Active-Request-Id-List:1,2,3",
    b"ACTIVE-REQUEST-ID-LIST: 1, 2 ",
    b"Proxy-Sync-Id:987654321",
    b"Logging-Tag:",
    b"logging-tag:\t x \t",
    b"Voice-gender:neutral",
    b"Prosody-volume: medium",
    b"Vendor-Specific-Parameters:com.example.a=\"b c\"; d",
    b"Content-Type:text/plain",
    b"Speech-Language::en-US:",
    b"Completion-Cause:000 normal",
    b"-:-",
    b"9-a:\x80\xff\t~",
];

/// A well formed message of one of the three kinds, mostly short.
pub fn sample(random: &mut Random) -> Draft {
    let mut draft = Draft::new(start_line(random));
    if random.chance(80) {
        let name = random.pick(&NAMES);
        draft.field(b"Channel-Identifier", name.as_bytes());
    }
    for _ in 0..random.weighted(&[30, 30, 20, 10, 5]) {
        let field = random.pick(&SOME_FIELDS);
        // A known name twice is damage of its own.
        if !draft.has(field_name(field)) {
            draft.fields.push(field.to_vec());
        }
    }
    if random.chance(50) {
        draft.body = body(random);
        let length = draft.body.len().to_string();
        draft.field(b"Content-Length", length.as_bytes());
    }
    random.shuffle(&mut draft.fields);
    draft
}

pub fn field_name(field: &[u8]) -> &[u8] {
    let end = field.iter().position(|&byte| byte == b':');
    &field[..end.unwrap_or(field.len())]
}

fn start_line(random: &mut Random) -> Vec<u8> {
    let id = id(random);
    let state = random.pick(&STATES);
    let line = match random.weighted(&[35, 15, 10, 20, 20, 10]) {
        0 => format!("{} {id}", random.pick(&SPEECH_METHODS)),
        1 => format!("{} {id}", random.pick(&RECOGNITION_METHODS)),
        2 => format!("{} {id}", random.pick(&UNKNOWN_METHODS)),
        3 => format!("{id} {:03} {state}", status(random)),
        4 => format!("{} {id} {state}", event(random)),
        _ => format!("{} {id}", random.pick(&SETTINGS_METHODS)),
    };
    line.into_bytes()
}

fn id(random: &mut Random) -> String {
    match random.below(3) {
        0 => random.pick(&IDS).to_string(),
        1 => random.below(1000).to_string(),
        _ => (random.next() as u32).to_string(),
    }
}

fn status(random: &mut Random) -> usize {
    match random.below(4) {
        0 => random.below(1000),
        _ => random.pick(&[
            200, 201, 401, 402, 403, 404, 405, 406, 407, 408, 409, 410, 502,
        ]),
    }
}

fn event(random: &mut Random) -> &'static str {
    random.pick(&[
        "SPEAK-COMPLETE",
        "RECOGNITION-COMPLETE",
        "SPEECH-MARKER",
        "E",
        "START-OF-INPUT",
        "SET-PARAMS",
    ])
}

pub fn body(random: &mut Random) -> Vec<u8> {
    match random.below(10) {
        0 => {
            let length = random.below(40);
            random.bytes(length)
        }
        1 => vec![b'x'; random.below(300)],
        _ => random.pick(&BODIES).to_vec(),
    }
}
