//! Requests on a channel: good ones, and ones that fail a chosen judgement.

use super::damage::{content_length, empty_line, malformed_line};
use super::draft::{body, methods, other_method, Draft, SETTINGS_METHODS};
use super::random::Random;
use crate::channel::{Channel, Kind};
use crate::settings::{Setting, Sort};

/// A request in the making.
pub struct Request {
    pub version: Vec<u8>,
    pub method: String,
    pub id: u64,
    /// Leading zeros of the id.
    pub zeros: usize,
    pub fields: Vec<(String, Vec<u8>)>,
    pub body: Vec<u8>,
    /// Judgement 2 fails, in some way chosen last.
    pub malformed: bool,
}

const SPEECH_TYPES: [&str; 5] = [
    "text/plain",
    "application/ssml+xml",
    "text/uri-list",
    "TEXT/Plain",
    "Application/SSML+xml",
];
const GRAMMAR_TYPES: [&str; 4] = [
    "application/srgs+xml",
    "text/uri-list",
    "Application/SRGS+Xml",
    "TEXT/URI-list",
];
/// Wrong for both methods that bring a body.
const WRONG_TYPES: [&str; 12] = [
    "text/html",
    "text/plain;charset=utf-8",
    "text/plain ;x",
    "text/plai",
    "text/plainx",
    "",
    "multipart/mixed; boundary=\"break\"",
    "text /plain",
    "application/srgs",
    "application/srgs+xml;charset=utf-8",
    "application/srgs-xml",
    "text/uri-lists",
];
const LEVELS: [&str; 14] = [
    "0", "1", "0.0", "1.0", "0.5", "0.50", "0.500000", "0.000001", "0.999999", "1.000000", "0.1",
    " 0.3\t", "0.123456", "0.7",
];
const WRONG_LEVELS: [&str; 26] = [
    "",
    ".",
    ".5",
    "0.",
    "1.",
    "00.5",
    "01",
    "2",
    "10",
    "1.000001",
    "1.1",
    "1.999999",
    "0.1234567",
    "0.5000000",
    "1.0000000",
    "-0",
    "+0.5",
    "0,5",
    "0.5.",
    "0..5",
    "0. 5",
    "0.5 0",
    "1e0",
    "0.5f",
    "nan",
    "0.-1",
];
const MILLIS: [&str; 14] = [
    "0",
    "1",
    "7",
    "007",
    "5000",
    "\t2500 ",
    "4294967295",
    "4294967296",
    "9223372036854775808",
    "1000000000000000000",
    "9999999999999999999",
    "0000000000000000000",
    "0000000000000000001",
    "9999999999999999998",
];
const WRONG_MILLIS: [&str; 16] = [
    "",
    "-1",
    "+5",
    "5ms",
    "0x10",
    "1.5",
    "1e3",
    "1 0",
    "5,000",
    "true",
    ".",
    "10000000000000000000",
    "18446744073709551615",
    "18446744073709551616",
    "99999999999999999999",
    "00000000000000000001",
];
const KILLS: [&str; 6] = ["true", "false", "TRUE", "False", " false ", "\ttRuE"];
const WRONG_KILLS: [&str; 7] = ["", "yes", "0", "tru", "truee", "false true", "true,false"];
const WRONG_LISTS: [&str; 14] = [
    "",
    ",",
    "1,",
    ",1",
    "1,,2",
    "1, 2",
    "1 ,2",
    "1;2",
    "4294967296",
    "00000000001",
    "a",
    "1,-2",
    "1\t,2",
    "1-4",
];
const UNUSED: [(&str, &str); 8] = [
    ("Voice-gender", "neutral"),
    ("Speech-Language", "en-US"),
    ("Prosody-rate", "fast"),
    ("Jump-Size", "-15 Words"),
    ("X", ""),
    ("Content-Lengths", "5"),
    ("Cancel-If-Queue", "true"),
    ("Confidence-Thresholds", "2"),
];
const VERSIONS: [&str; 7] = ["1.0", "2.1", "3.0", "0.2", "2.10", "20.0", "12.0"];

impl Request {
    /// A request that passes judgements 1 to 7 and 9.
    pub fn good(random: &mut Random, channel: &Channel, method: &str, id: u64) -> Request {
        let mut request = Request {
            version: b"2.0".to_vec(),
            method: method.to_string(),
            id,
            zeros: 0,
            fields: Vec::new(),
            body: Vec::new(),
            malformed: false,
        };
        request.set("Channel-Identifier", channel.name.bytes());
        match method {
            "SPEAK" => request.prompt(random),
            "RECOGNIZE" => request.grammar(random),
            "SET-PARAMS" => request.settings(random, channel.kind()),
            "GET-PARAMS" => request.names(random, channel.kind()),
            "STOP" if random.chance(50) => {
                let list = list(random, channel);
                request.set("Active-Request-Id-List", &list);
            }
            _ => {}
        }
        request.decorate(random);
        request
    }

    fn prompt(&mut self, random: &mut Random) {
        self.content(random, &SPEECH_TYPES);
        if random.chance(60) {
            self.set("Kill-On-Barge-In", random.pick(&KILLS).as_bytes());
        }
    }

    fn grammar(&mut self, random: &mut Random) {
        self.content(random, &GRAMMAR_TYPES);
        if random.chance(70) {
            let level = level(random);
            self.set("Confidence-Threshold", level.as_bytes());
        }
    }

    fn content(&mut self, random: &mut Random, types: &[&str]) {
        self.body = body(random);
        if self.body.is_empty() {
            self.body = b"Hi".to_vec();
        }
        if random.below(500) == 0 {
            // Around the longest message, which some of these go beyond.
            self.body = vec![b'x'; random.between(15_900, 16_300)];
        }
        let length = self.body.len().to_string();
        self.set("Content-Length", length.as_bytes());
        self.set("Content-Type", random.pick(types).as_bytes());
    }

    /// Any of the kind's settings, mostly some, with legal values.
    fn settings(&mut self, random: &mut Random, kind: Kind) {
        let share = random.pick(&[0, 40, 40, 60, 100]);
        for setting in kind.settings() {
            if random.chance(share) {
                let value = value(random, setting.sort);
                self.set(&name(setting), value.as_bytes());
            }
        }
    }

    /// Any of the kind's settings, mostly without a value; none is judged.
    fn names(&mut self, random: &mut Random, kind: Kind) {
        let share = random.pick(&[0, 40, 60, 100]);
        for setting in kind.settings() {
            if random.chance(share) {
                let value = match random.below(4) {
                    0 => value(random, setting.sort),
                    1 => wrong_value(random, setting.sort),
                    _ => String::new(),
                };
                self.set(&name(setting), value.as_bytes());
            }
        }
    }

    fn is_about_settings(&self) -> bool {
        SETTINGS_METHODS.contains(&self.method.as_str())
    }

    fn brings_body(&self) -> bool {
        ["SPEAK", "RECOGNIZE"].contains(&self.method.as_str())
    }

    /// What changes no judgement but the last.
    fn decorate(&mut self, random: &mut Random) {
        if random.chance(10) {
            self.set("Proxy-Sync-Id", b"987654321");
        }
        if random.chance(10) {
            self.set("Logging-Tag", b"");
        }
        if random.chance(8) && !self.is_about_settings() {
            self.add_ignored(random);
        }
        if random.chance(5) {
            self.version = random.pick(&["02.00", "2.00", "02.0"]).into();
        }
        if random.chance(5) {
            self.zeros = random.below(10);
        }
        if random.chance(4) && self.body.is_empty() {
            // A body where none is used.
            self.body = b"spare".to_vec();
            self.set("Content-Length", b"5");
        }
    }

    pub fn set(&mut self, name: &str, value: &[u8]) {
        self.remove(name);
        self.fields.push((name.to_string(), value.to_vec()));
    }

    pub fn remove(&mut self, name: &str) {
        self.fields.retain(|(other, _)| other != name);
    }

    /// Makes the given judgement fail (11: a field is ignored), where this can
    /// be done from the request's side.
    pub fn spoil(&mut self, random: &mut Random, channel: &Channel, judgement: usize) {
        match judgement {
            1 => self.version = random.pick(&VERSIONS).into(),
            2 => self.malformed = true,
            3 => self.remove("Channel-Identifier"),
            4 => {
                let name = wrong_name(random, channel.name.bytes());
                self.set("Channel-Identifier", &name);
            }
            5 => self.id = old_id(random, channel),
            6 => self.spoil_value(random),
            7 => self.method = other_method(random, channel.kind()).to_string(),
            8 => self.method = random.pick(may_be_402(channel.kind())).to_string(),
            9 => self.spoil_content(random),
            10 => self.method = methods(channel.kind())[0].to_string(),
            _ => self.add_ignored(random),
        }
    }

    /// In SPEAK, RECOGNIZE and STOP a value that acts; elsewhere one that must not.
    fn spoil_value(&mut self, random: &mut Random) {
        let spoiled = match self.method.as_str() {
            "STOP" => 0,
            "SPEAK" => 1,
            "RECOGNIZE" => 2,
            _ => random.below(3),
        };
        let (name, value) = match spoiled {
            0 => ("Active-Request-Id-List", random.pick(&WRONG_LISTS)),
            1 => ("Kill-On-Barge-In", random.pick(&WRONG_KILLS)),
            _ => ("Confidence-Threshold", random.pick(&WRONG_LEVELS)),
        };
        self.set(name, value.as_bytes());
    }

    fn spoil_content(&mut self, random: &mut Random) {
        match random.below(10) {
            0 => self.remove("Content-Type"),
            1 => {
                self.remove("Content-Length");
                self.body.clear();
            }
            2 => self.remove("Content-Length"),
            3 => self.empty_body(),
            4 => {
                self.empty_body();
                self.remove("Content-Type");
            }
            5 => {
                self.empty_body();
                self.wrong_type(random);
            }
            _ => self.wrong_type(random),
        }
    }

    fn wrong_type(&mut self, random: &mut Random) {
        let others = match self.method.as_str() {
            "SPEAK" => &["application/srgs+xml"][..],
            "RECOGNIZE" => &["text/plain", "application/ssml+xml"],
            _ => &WRONG_TYPES,
        };
        let value = match random.chance(30) {
            true => random.pick(others),
            false => random.pick(&WRONG_TYPES),
        };
        self.set("Content-Type", value.as_bytes());
    }

    fn empty_body(&mut self) {
        self.body.clear();
        self.set("Content-Length", b"0");
    }

    fn add_ignored(&mut self, random: &mut Random) {
        match random.below(9) {
            0 if !self.brings_body() => self.set("Content-Type", b"text/plain"),
            1 if self.method != "SPEAK" => self.set("Kill-On-Barge-In", b"false"),
            2 if self.method != "STOP" => self.set("Active-Request-Id-List", b"1,x"),
            3 | 4 if self.method != "RECOGNIZE" => {
                let value = match random.chance(50) {
                    true => random.pick(&WRONG_LEVELS).to_string(),
                    false => level(random),
                };
                self.set("Confidence-Threshold", value.as_bytes());
            }
            _ => {
                let (name, value) = random.pick(&UNUSED);
                self.set(name, value.as_bytes());
            }
        }
    }

    pub fn draft(&self, random: &mut Random) -> Draft {
        let id = format!("{}{}", "0".repeat(self.zeros), self.id);
        // Leading zeros only as long as it stays an id.
        let id = &id[id.len().saturating_sub(10).min(self.zeros)..];
        let mut draft = Draft::new(format!("{} {id}", self.method).into_bytes());
        draft.version = self.version.clone();
        draft.body = self.body.clone();
        for (name, value) in &self.fields {
            draft.field(name.as_bytes(), value);
        }
        random.shuffle(&mut draft.fields);
        if self.malformed {
            spoil_draft(random, &mut draft);
        }
        draft
    }
}

/// What judgement 8 can fail on a channel of this kind.
fn may_be_402(kind: Kind) -> &'static [&'static str] {
    match kind {
        Kind::Synthesizer => &["PAUSE", "RESUME", "CONTROL"],
        Kind::Recognizer => &["START-INPUT-TIMERS"],
    }
}

/// The name of a setting as the paper spells it.
pub fn name(setting: &Setting) -> String {
    String::from_utf8_lossy(setting.field.spelling()).into_owned()
}

/// A legal value of the sort.
pub fn value(random: &mut Random, sort: Sort) -> String {
    match sort {
        Sort::Flag => random.pick(&KILLS).to_string(),
        Sort::Millis => millis(random),
        Sort::Level => level(random),
    }
}

/// An illegal value of the sort.
pub fn wrong_value(random: &mut Random, sort: Sort) -> String {
    match sort {
        Sort::Flag => random.pick(&WRONG_KILLS).to_string(),
        Sort::Millis => random.pick(&WRONG_MILLIS).to_string(),
        Sort::Level => random.pick(&WRONG_LEVELS).to_string(),
    }
}

/// Legal milliseconds: 1 to 19 digits, leading zeros among them.
fn millis(random: &mut Random) -> String {
    if random.chance(50) {
        return random.pick(&MILLIS).to_string();
    }
    let count = random.between(1, 19);
    String::from_utf8_lossy(&random.letters(b"0123456789", count)).into_owned()
}

/// A legal level, in any number of digits.
fn level(random: &mut Random) -> String {
    if random.chance(40) {
        return random.pick(&LEVELS).to_string();
    }
    let places = random.between(1, 6);
    let digits = random.letters(b"0123456789", places);
    format!("0.{}", String::from_utf8_lossy(&digits))
}

/// Judgement 2 in one of its ways.
fn spoil_draft(random: &mut Random, draft: &mut Draft) {
    match random.below(9) {
        0..=2 => malformed_line(draft, random),
        3 => empty_line(draft, random),
        4 => content_length(draft, random),
        5 => {
            while draft.fields.len() <= 32 {
                draft.field(b"X", b"");
            }
        }
        6 => draft.body.push(b'!'),
        _ => {
            let known = random.pick(&[
                "LOGGING-TAG",
                "proxy-sync-id",
                "Content-type",
                "Confidence-threshold",
            ]);
            draft.field(known.as_bytes(), b"1");
            draft.field(known.as_bytes(), b"1");
        }
    }
}

fn wrong_name(random: &mut Random, name: &[u8]) -> Vec<u8> {
    let mut wrong = name.to_vec();
    match random.below(8) {
        0 => wrong.clear(),
        1 => drop(wrong.pop()),
        2 => wrong.push(b'x'),
        3 => wrong = [b"other", &name[name.len().saturating_sub(12)..]].concat(),
        // The same session, on the other resource.
        4 => wrong = other_resource(name),
        5 => wrong.insert(0, b'0'),
        _ => {
            let place = random.below(wrong.len());
            if let Some(byte) = wrong.get_mut(place) {
                *byte ^= 0x20 | u8::from(*byte == b'\x5f');
            }
        }
    }
    // What the change may have made has to stay a value.
    wrong.iter_mut().for_each(|byte| {
        if *byte < b' ' || *byte == 127 {
            *byte = b'?';
        }
    });
    wrong
}

fn other_resource(name: &[u8]) -> Vec<u8> {
    let (own, other) = match Kind::of_name(name) {
        Kind::Synthesizer => (Kind::Synthesizer, Kind::Recognizer),
        Kind::Recognizer => (Kind::Recognizer, Kind::Synthesizer),
    };
    let session = name.strip_suffix(own.resource()).unwrap_or(name);
    [session, other.resource()].concat()
}

/// An id that is not above the last one seen.
fn old_id(random: &mut Random, channel: &Channel) -> u64 {
    let last = u64::from(channel.last.unwrap_or(0));
    match random.below(4) {
        0 | 1 => last,
        2 => last.saturating_sub(1),
        _ => random.next() % (last + 1),
    }
}

/// A legal list: held ids in any order, some twice, and others between them.
fn list(random: &mut Random, channel: &Channel) -> Vec<u8> {
    let mut ids: Vec<String> = Vec::new();
    let share = random.pick(&[10, 30, 60, 100]);
    for id in channel.held() {
        if random.chance(share) {
            ids.push(id.to_string());
        }
        if random.chance(10) {
            let width = random.between(1, 10);
            ids.push(format!("{id:0width$}"));
        }
    }
    let others = match random.chance(1) {
        true => 1000,
        false => random.weighted(&[50, 30, 10, 5]),
    };
    for _ in 0..others {
        let last = channel.last.unwrap_or(0) as usize;
        ids.push(random.below(last + 20).min(u32::MAX as usize).to_string());
    }
    match random.below(3) {
        0 => {}
        1 => ids.reverse(),
        _ => random.shuffle(&mut ids),
    }
    if ids.is_empty() {
        ids.push("4294967295".to_string());
    }
    ids.join(",").into_bytes()
}
