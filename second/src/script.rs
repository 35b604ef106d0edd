//! The script language: one command a line.

mod editions;

use std::io::{self, BufRead};

use crate::channel::{Channel, Kind, State, MOST_OUTSTANDING};
use crate::kept::{self, Entry, Kept, Pair, NUMBERS};
use crate::ledger::Violation;
use crate::start_line::RequestState;
use crate::writing::{Answer, Event, Ids, NOTHING_TOLD};
use editions::{editions_of, level_word};
pub use editions::{editions_word, level_number, put_settings};

pub const MOST_BYTES: usize = 1_000_000;
pub const MOST_ROOM: u32 = 1_000_000;
const MOST_SHOWN: usize = 80;
const BITS_DIGITS: usize = 8;
/// In a queue: what 64 bits can keep twice of.
const MOST_ID: u64 = u64::MAX / 2;

#[derive(Clone, Debug, PartialEq, Eq)]
pub enum Command {
    Frame(Vec<u8>),
    Read(Vec<u8>),
    Whose(Vec<u8>),
    Open(Vec<u8>),
    Message {
        room: usize,
        input: Vec<u8>,
    },
    Report {
        cause: u32,
        room: usize,
        /// The 32 bits of a single-precision number.
        score: u32,
    },
    Respond {
        answer: Box<Answer>,
        name: Vec<u8>,
        room: usize,
    },
    Complete {
        event: Event,
        name: Vec<u8>,
        room: usize,
    },
    Channel(Box<Kept>),
    Number {
        place: usize,
        value: u64,
    },
    Numbers,
    Show,
    Back(u32),
    Settings,
    SetSettings {
        editions: Vec<Vec<Pair>>,
        count: u64,
    },
}

/// Why a command is the last one that is performed.
#[derive(Debug)]
pub enum Wrong {
    /// A word that does not fit the channel as it is.
    Word(String),
    Ledger(Violation),
}

impl Wrong {
    pub fn at(self, line: usize) -> Trouble {
        match self {
            Wrong::Word(wrong) => Trouble::Unreadable { line, wrong },
            Wrong::Ledger(violation) => Trouble::Ledger { line, violation },
        }
    }
}

/// Why a script was not played to its end.
#[derive(Debug)]
pub enum Trouble {
    Output(io::Error),
    Script(io::Error),
    Unreadable { line: usize, wrong: String },
    Ledger { line: usize, violation: Violation },
}

/// Hands over each command with the number of its line, until one is in the way.
pub fn each_command(
    script: &mut dyn BufRead,
    mut act: impl FnMut(usize, Command) -> Result<(), Trouble>,
) -> Result<(), Trouble> {
    let mut text = Vec::new();
    let mut line = 0;
    loop {
        text.clear();
        let got = script.read_until(b'\n', &mut text);
        if got.map_err(Trouble::Script)? == 0 {
            return Ok(());
        }
        line += 1;
        let words = text.strip_suffix(b"\n").unwrap_or(&text);
        match command(words) {
            Err(wrong) => return Err(Trouble::Unreadable { line, wrong }),
            Ok(None) => {}
            Ok(Some(command)) => act(line, command)?,
        }
    }
}

/// One line without its end; none for an empty line or a comment.
pub fn command(line: &[u8]) -> Result<Option<Command>, String> {
    if line.contains(&b'\r') {
        return Err("a carriage return".to_string());
    }
    let text = without_comment(line);
    if text.is_empty() {
        return Ok(None);
    }
    let words: Vec<&[u8]> = text.split(|&byte| byte == b' ').collect();
    let command = match words[..] {
        [b"frame", bytes] => Command::Frame(hex(bytes)?),
        [b"read", bytes] => Command::Read(hex(bytes)?),
        [b"whose", bytes] => Command::Whose(hex(bytes)?),
        [b"open", bytes] => Command::Open(hex(bytes)?),
        [b"message", room, bytes] => Command::Message {
            room: room_of(room)?,
            input: hex(bytes)?,
        },
        [b"report", cause, room] => report(cause, room, b"00000000")?,
        [b"report", cause, room, score] => report(cause, room, score)?,
        [b"respond", state, status, id, name, ids, room] => {
            respond(state, status, id, name, ids, room)?
        }
        [b"complete", cause, id, name, room] => complete(cause, id, name, room)?,
        [b"channel", name, state, last, queue] => channel(name, state, last, queue, None)?,
        [b"channel", name, state, last, queue, count] => {
            channel(name, state, last, queue, Some(count))?
        }
        [b"number", place, value] => one_number(place, value)?,
        [b"numbers"] => Command::Numbers,
        [b"show"] => Command::Show,
        [b"back", number] => Command::Back(number32("number", number)?),
        [b"settings"] => Command::Settings,
        [b"settings", editions] => settings(editions, None)?,
        [b"settings", editions, count] => settings(editions, Some(count))?,
        _ => return Err(no_command(&words)),
    };
    Ok(Some(command))
}

const COMMANDS: [&[u8]; 14] = [
    b"frame",
    b"read",
    b"whose",
    b"open",
    b"message",
    b"report",
    b"respond",
    b"complete",
    b"channel",
    b"number",
    b"numbers",
    b"show",
    b"back",
    b"settings",
];

fn no_command(words: &[&[u8]]) -> String {
    let first = shown(words[0]);
    if COMMANDS.contains(&words[0]) {
        format!("`{first}` with {} words after it", words.len() - 1)
    } else {
        format!("no command `{first}`")
    }
}

/// A word that cannot be read, as an error shows it: escaped, and cut at 80 characters.
fn shown(word: &[u8]) -> String {
    let mut text = String::new();
    for byte in word {
        let escaped = byte.escape_ascii();
        if text.len() + escaped.len() > MOST_SHOWN {
            return text + "...";
        }
        text.extend(escaped.map(char::from));
    }
    text
}

/// The spaces in front of a comment belong to it.
fn without_comment(line: &[u8]) -> &[u8] {
    match line.iter().position(|&byte| byte == b'#') {
        None => line,
        Some(begin) => {
            let text = &line[..begin];
            let end = text.iter().rposition(|&byte| byte != b' ');
            &text[..end.map_or(0, |last| last + 1)]
        }
    }
}

/// Lower-case pairs, `-` for none.
fn hex(word: &[u8]) -> Result<Vec<u8>, String> {
    if word == b"-" {
        return Ok(Vec::new());
    }
    if word.is_empty() || !word.len().is_multiple_of(2) {
        return Err("bytes that are not pairs of digits".to_string());
    }
    if word.len() / 2 > MOST_BYTES {
        return Err(format!("more than {MOST_BYTES} bytes"));
    }
    word.chunks_exact(2)
        .map(|pair| Some(hex_digit(pair[0])? << 4 | hex_digit(pair[1])?))
        .collect::<Option<Vec<u8>>>()
        .ok_or_else(|| "bytes that are not lower-case hexadecimal".to_string())
}

fn hex_digit(byte: u8) -> Option<u8> {
    match byte {
        b'0'..=b'9' => Some(byte - b'0'),
        b'a'..=b'f' => Some(byte - b'a' + 10),
        _ => None,
    }
}

/// Bytes as the language writes them.
pub fn put_hex(text: &mut Vec<u8>, bytes: &[u8]) {
    const DIGITS: &[u8; 16] = b"0123456789abcdef";
    if bytes.is_empty() {
        text.push(b'-');
    }
    for byte in bytes {
        text.push(DIGITS[usize::from(byte >> 4)]);
        text.push(DIGITS[usize::from(byte & 15)]);
    }
}

/// Decimal without sign, any number of leading zeros.
fn number(what: &str, word: &[u8], most: u64) -> Result<u64, String> {
    if word.is_empty() || !word.iter().all(u8::is_ascii_digit) {
        return Err(format!("{what} `{}` is no number", shown(word)));
    }
    let value = word.iter().try_fold(0u64, |value, byte| {
        value.checked_mul(10)?.checked_add((byte - b'0').into())
    });
    match value {
        Some(value) if value <= most => Ok(value),
        _ => Err(format!("{what} `{}` is above {most}", shown(word))),
    }
}

fn number32(what: &str, word: &[u8]) -> Result<u32, String> {
    number(what, word, u32::MAX.into()).map(|value| value as u32)
}

fn room_of(word: &[u8]) -> Result<usize, String> {
    number("room", word, MOST_ROOM.into()).map(|room| room as usize)
}

fn report(cause: &[u8], room: &[u8], score: &[u8]) -> Result<Command, String> {
    Ok(Command::Report {
        cause: number32("cause", cause)?,
        room: room_of(room)?,
        score: bits("score", score)?,
    })
}

/// Exactly eight lower-case hexadecimal digits, the first the highest.
fn bits(what: &str, word: &[u8]) -> Result<u32, String> {
    let mut digits = word.iter();
    let value = digits.try_fold(0, |value: u32, &byte| {
        Some(value << 4 | u32::from(hex_digit(byte)?))
    });
    match value {
        Some(value) if word.len() == BITS_DIGITS => Ok(value),
        _ => Err(format!("{what} `{}` is not eight digits", shown(word))),
    }
}

fn channel(
    name: &[u8],
    state: &[u8],
    last: &[u8],
    queue: &[u8],
    count: Option<&[u8]>,
) -> Result<Command, String> {
    // The rest is fresh.
    let mut kept = Kept::of(&Channel::UNOPENED);
    kept.put_name(&hex(name)?);
    let kind = kept.kind();
    let queue = queue_of(kind, queue)?;
    kept.0[kept::STATE] = state_of(state)?;
    kept.0[kept::LAST] = match last {
        b"-" => 0,
        word => number("last id", word, u64::MAX - 1)? + 1,
    };
    kept.0[kept::COUNT] = count_of(count, queue.len())?;
    for (place, entry) in queue.into_iter().enumerate() {
        kept.put_entry(kind, place, entry);
    }
    Ok(Command::Channel(Box::new(kept)))
}

fn one_number(place: &[u8], value: &[u8]) -> Result<Command, String> {
    Ok(Command::Number {
        place: number("place", place, NUMBERS as u64 - 1)? as usize,
        value: number("value", value, u64::MAX)?,
    })
}

/// The count given, or that of what is listed.
fn count_of(word: Option<&[u8]>, listed: usize) -> Result<u64, String> {
    match word {
        None => Ok(listed as u64),
        Some(word) => number("count", word, u64::MAX),
    }
}

fn settings(editions: &[u8], count: Option<&[u8]>) -> Result<Command, String> {
    let editions = editions_of(editions)?;
    let count = count_of(count, editions.len())?;
    Ok(Command::SetSettings { editions, count })
}

fn state_of(word: &[u8]) -> Result<u64, String> {
    let mut states = State::ALL.into_iter();
    match states.find(|state| state.word().as_bytes() == word) {
        Some(state) => Ok(state.number()),
        None => number("state", word, u64::MAX),
    }
}

fn respond(
    state: &[u8],
    status: &[u8],
    id: &[u8],
    name: &[u8],
    ids: &[u8],
    room: &[u8],
) -> Result<Command, String> {
    let answer = Answer {
        id: number32("id", id)?,
        status: number("status", status, 999)? as u16,
        state: request_state(state)?,
        list: ids_of(ids)?,
        told: NOTHING_TOLD,
    };
    Ok(Command::Respond {
        answer: Box::new(answer),
        name: hex(name)?,
        room: room_of(room)?,
    })
}

fn complete(cause: &[u8], id: &[u8], name: &[u8], room: &[u8]) -> Result<Command, String> {
    let event = Event {
        kind: Kind::Synthesizer,
        id: number32("id", id)?,
        cause: number32("cause", cause)?,
    };
    Ok(Command::Complete {
        event,
        name: hex(name)?,
        room: room_of(room)?,
    })
}

fn request_state(word: &[u8]) -> Result<RequestState, String> {
    RequestState::of_word(word).ok_or_else(|| format!("no request state `{}`", shown(word)))
}

/// As `7,8`, at most 16, or `-` for none.
fn ids_of(word: &[u8]) -> Result<Ids, String> {
    let mut ids = Ids::NONE;
    if word == b"-" {
        return Ok(ids);
    }
    for part in word.split(|&byte| byte == b',') {
        if ids.all().len() == MOST_OUTSTANDING {
            return Err(format!("more than {MOST_OUTSTANDING} ids"));
        }
        ids.add(number32("id", part)?);
    }
    Ok(ids)
}

/// Entries joined by commas, or `-` for none: at most as many as the kind has places.
fn queue_of(kind: Kind, word: &[u8]) -> Result<Vec<Entry>, String> {
    let mut queue = Vec::new();
    if word == b"-" {
        return Ok(queue);
    }
    let most = kind.most_outstanding();
    for part in word.split(|&byte| byte == b',') {
        if queue.len() == most {
            return Err(format!("more than {most} queue entries"));
        }
        queue.push(match kind {
            Kind::Synthesizer => speak_entry(part)?,
            Kind::Recognizer => recognize_entry(part)?,
        });
    }
    Ok(queue)
}

/// As `7+` or `8-`, `+` for killable.
fn speak_entry(part: &[u8]) -> Result<Entry, String> {
    let (id, killable) = match part {
        [id @ .., b'+'] => (id, true),
        [id @ .., b'-'] => (id, false),
        _ => return Err("a queue entry without `+` or `-`".to_string()),
    };
    Ok(Entry::new(number("id", id, MOST_ID)?, killable, 0))
}

/// As `7:3f000000`, with the bits of its threshold.
fn recognize_entry(part: &[u8]) -> Result<Entry, String> {
    let mut words = part.splitn(2, |&byte| byte == b':');
    let (Some(id), Some(threshold)) = (words.next(), words.next()) else {
        return Err("a queue entry without a threshold".to_string());
    };
    let id = number("id", id, MOST_ID)?;
    let threshold = level_number(bits("threshold", threshold)?);
    Ok(Entry::new(id, true, threshold))
}

/// `channel HEX STATE LAST QUEUE`, and COUNT where it is above the entries
/// that there are. The name is shown as bytes, as many as the size says and there are.
pub fn put_channel(text: &mut Vec<u8>, kept: &Kept) {
    let queue = kept.entries(kept.shown_count());
    text.extend_from_slice(b"channel ");
    put_words(text, kept, &kept.name_bytes(), &queue);
    if kept.0[kept::COUNT] > queue.len() as u64 {
        text.extend_from_slice(format!(" {}", kept.0[kept::COUNT]).as_bytes());
    }
}

/// `HEX STATE LAST QUEUE`, name and queue as given.
pub fn put_words(text: &mut Vec<u8>, kept: &Kept, name: &[u8], queue: &[Entry]) {
    put_hex(text, name);
    let state = match State::of_number(kept.0[kept::STATE]) {
        Some(state) => state.word().to_string(),
        None => kept.0[kept::STATE].to_string(),
    };
    let last = match kept.0[kept::LAST] {
        0 => "-".to_string(),
        number => (number - 1).to_string(),
    };
    text.extend_from_slice(format!(" {state} {last} ").as_bytes());
    if queue.is_empty() {
        text.push(b'-');
    }
    let entries: Vec<String> = queue
        .iter()
        .map(|entry| entry_word(kept.kind(), entry))
        .collect();
    text.extend_from_slice(entries.join(",").as_bytes());
}

fn entry_word(kind: Kind, entry: &Entry) -> String {
    let id = entry.number >> 1;
    match kind {
        Kind::Recognizer => format!("{id}:{}", level_word(entry.threshold)),
        Kind::Synthesizer if entry.number & 1 == 1 => format!("{id}+"),
        Kind::Synthesizer => format!("{id}-"),
    }
}
