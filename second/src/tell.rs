//! Telling a script for people, and at its end what became of each prompt and recognition.
//!
//! What became of one is derived from the ledger's view alone: the
//! inputs, the numbers returned and the bytes written.

use std::io::{BufRead, Write};

use crate::calls::Outcome;
use crate::channel::Kind;
use crate::fields::Known;
use crate::framing::frame;
use crate::kept::{self, Kept, Pair};
use crate::ledger::{is_accepted_method, messages, request_of, Entry};
use crate::level::{self, Level};
use crate::message::{read, Message};
use crate::play::{Board, Call};
use crate::refusal::Refusal;
use crate::script::{each_command, put_channel, Command, Trouble, Wrong};
use crate::start_line::StartLine;
use crate::whose::whose;
use crate::writing::{cause_word, Outgoing};

/// What became of a SPEAK or a RECOGNIZE.
enum Became {
    Held,
    Spoken(String),
    Completed(String),
    Stopped(String),
    NotAccepted(String),
}

struct Prompt {
    id: u32,
    became: Became,
}

/// The SPEAKs or RECOGNIZEs since one opening, in the order of the calls.
struct Chapter {
    title: String,
    prompts: Vec<Prompt>,
}

struct Teller {
    board: Board,
    chapters: Vec<Chapter>,
}

pub fn tell(script: &mut dyn BufRead, out: &mut dyn Write) -> Result<(), Trouble> {
    let mut teller = Teller {
        board: Board::new(),
        chapters: Vec::new(),
    };
    teller.begin("before any opening".to_string());
    each_command(script, |line, command| {
        let mut text = String::new();
        let performed = teller.perform(command, &mut text);
        out.write_all(text.as_bytes()).map_err(Trouble::Output)?;
        performed.map_err(|wrong| wrong.at(line))
    })?;
    let text = teller.prompts();
    out.write_all(text.as_bytes()).map_err(Trouble::Output)
}

impl Teller {
    fn begin(&mut self, title: String) {
        let prompts = Vec::new();
        self.chapters.push(Chapter { title, prompts });
    }

    fn perform(&mut self, command: Command, text: &mut String) -> Result<(), Wrong> {
        match command {
            Command::Frame(input) => tell_framed(text, &input),
            Command::Read(input) => tell_read(text, &input),
            Command::Whose(input) => tell_whose(text, &input),
            Command::Open(name) => self.open(text, &name),
            Command::Message { room, input } => return self.message(text, room, &input),
            Command::Report { cause, room, score } => {
                return self.report(text, cause, score, room);
            }
            Command::Respond { answer, name, room } => {
                self.written(text, &Outgoing::Answer(*answer), &name, room);
            }
            Command::Complete { event, name, room } => {
                self.written(text, &Outgoing::Event(event), &name, room);
            }
            Command::Channel(channel) => {
                self.board.set(*channel);
                self.set_by_the_script(text, channel_words(&self.board.channel));
            }
            Command::Number { place, value } => {
                self.board.set_number(place, value);
                self.set_by_the_script(text, channel_words(&self.board.channel));
            }
            Command::Numbers => say(text, &format!("numbers {}", self.board.channel.words())),
            Command::Show => say(
                text,
                &format!("now: {}", channel_words(&self.board.channel)),
            ),
            Command::Back(number) => return self.back(text, number),
            Command::Settings => say(text, &settings_words(&self.board.channel)),
            Command::SetSettings { editions, count } => {
                self.board.set_settings(&editions, count)?;
                self.set_by_the_script(text, settings_words(&self.board.channel));
            }
        }
        Ok(())
    }

    fn set_by_the_script(&mut self, text: &mut String, what: String) {
        let title = format!("set by the script: {what}");
        say(text, &title);
        self.begin(title);
    }

    fn written(&mut self, text: &mut String, message: &Outgoing, name: &[u8], room: usize) {
        let words = match self.board.write(message, name, room) {
            Ok(bytes) => readable(bytes),
            Err(refusal) => format!("refused, {}", refusal.meaning()),
        };
        say(text, &format!("written: {words}"));
    }

    fn open(&mut self, text: &mut String, name: &[u8]) {
        let number = self.board.open(name);
        let name = readable(name);
        if number == 0 {
            say(text, &format!("channel {name} opened"));
            self.begin(format!("channel {name}"));
        } else {
            text.push_str(&format!("== channel `{name}` not opened\n"));
            text.push_str(&refused(number));
            self.begin(format!("channel `{name}`, not opened"));
        }
    }

    fn message(&mut self, text: &mut String, room: usize, input: &[u8]) -> Result<(), Wrong> {
        let length = frame(input).map_or(input.len(), |frame| frame.length());
        text.push_str(&arrow("->", &input[..length]));
        if length < input.len() {
            let after = input.len() - length;
            text.push_str(&format!("   (and {after} bytes after the message)\n"));
        }
        let call = self.board.message(room, input);
        tell_answer(text, &call, room);
        let chapter = self.chapters.last_mut().expect("one since the beginning");
        let mut has_set = false;
        if let Some((method, id)) = request_of(input) {
            chapter.note(method, id, &call);
            has_set = method == b"SET-PARAMS" && is_success(&call);
            if method == b"GET-PARAMS" && is_success(&call) {
                say(text, &format!("told: {}", told_words(&call)));
            }
        }
        call.balanced()?;
        if has_set {
            self.settings_now(text);
        }
        Ok(())
    }

    fn back(&mut self, text: &mut String, number: u32) -> Result<(), Wrong> {
        text.push_str(&format!("** going back to edition {number}\n"));
        let call = self.board.back(number);
        let number = call.outcome.number;
        call.balanced()?;
        match number {
            0 => self.settings_now(text),
            _ => text.push_str(&refused(number)),
        }
        Ok(())
    }

    /// The newest edition after a call that made it.
    fn settings_now(&self, text: &mut String) {
        let channel = &self.board.channel;
        let words = edition_words(channel.kind(), &channel.editions(1)[0]);
        say(text, &format!("settings now: {words}"));
    }

    fn report(
        &mut self,
        text: &mut String,
        cause: u32,
        score: u32,
        room: usize,
    ) -> Result<(), Wrong> {
        let words = report_words(self.board.channel.kind(), cause, f32::from_bits(score));
        text.push_str(&format!("** the engine reports {words}\n"));
        let call = self.board.report(cause, score, room);
        tell_answer(text, &call, room);
        let chapter = self.chapters.last_mut().expect("one since the beginning");
        if let Ok(Entry::Closed(_)) = &call.entry {
            messages(call.written)
                .flatten()
                .for_each(|event| chapter.note_event(&event));
        }
        call.balanced()
    }

    fn prompts(&self) -> String {
        let mut text = String::from("What became of each prompt and recognition\n");
        for chapter in &self.chapters {
            // The time before any opening is worth a word only if something came then.
            if chapter.prompts.is_empty() && self.chapters.len() > 1 {
                continue;
            }
            text.push_str(&format!("\n{}\n", chapter.title));
            for prompt in &chapter.prompts {
                text.push_str(&format!("  {:>10}  {}\n", prompt.id, prompt.became.words()));
            }
        }
        text
    }
}

impl Chapter {
    /// What a message from the client tells of prompts.
    fn note(&mut self, method: &[u8], id: u32, call: &Call) {
        match &call.entry {
            Ok(Entry::Accepted(id)) => self.add(*id, Became::Held),
            Ok(Entry::Closed(ids)) => {
                let by = format!("{} {id}", String::from_utf8_lossy(method));
                self.close(ids, || Became::Stopped(by.clone()));
            }
            _ if is_accepted_method(method) => self.add(id, Became::NotAccepted(why_not(call))),
            _ => {}
        }
    }

    /// What an event tells of the one that it closes.
    fn note_event(&mut self, event: &Message) {
        let StartLine::Event { name, id, .. } = event.start else {
            return;
        };
        let cause = cause_written(event);
        self.close(&[id], || match name {
            b"SPEAK-COMPLETE" => Became::Spoken(cause.clone()),
            _ => Became::Completed(cause.clone()),
        });
    }

    fn add(&mut self, id: u32, became: Became) {
        self.prompts.push(Prompt { id, became });
    }

    fn close(&mut self, ids: &[u32], became: impl Fn() -> Became) {
        for &id in ids {
            // What is held is among the latest.
            let mut prompts = self.prompts.iter_mut().rev();
            match prompts.find(|prompt| prompt.id == id && matches!(prompt.became, Became::Held)) {
                Some(prompt) => prompt.became = became(),
                // Only on a channel that the script has set.
                None => self.add(id, became()),
            }
        }
    }
}

impl Became {
    fn words(&self) -> String {
        match self {
            Became::Held => "still held".to_string(),
            Became::Spoken(cause) => format!("spoken, {cause}"),
            Became::Completed(cause) => format!("completed, {cause}"),
            Became::Stopped(by) => format!("stopped by {by}"),
            Became::NotAccepted(why) => format!("not accepted, {why}"),
        }
    }
}

/// A line of its own, and an empty one.
fn say(text: &mut String, words: &str) {
    text.push_str(&format!("== {words}\n\n"));
}

/// What the engine reports; its score only where it is looked at.
fn report_words(kind: Kind, cause: u32, score: f32) -> String {
    let word = cause_word(kind, cause).unwrap_or("no such cause");
    match kind {
        Kind::Synthesizer => format!("{cause:03} {word}"),
        Kind::Recognizer if score.is_nan() => format!("{cause:03} {word}, score no number"),
        Kind::Recognizer => format!("{cause:03} {word}, score {score:.9}"),
    }
}

/// Why a SPEAK or RECOGNIZE was not accepted: the status written or the refusal.
fn why_not(call: &Call) -> String {
    if call.outcome.number != 0 {
        return format!("refused {}", call.outcome.number);
    }
    status_written(call).map_or("answered with something else".to_string(), |status| {
        status.to_string()
    })
}

/// The status of the answer; none where there is no answer.
fn status_written(call: &Call) -> Option<u16> {
    match read(call.written).map(|message| message.start) {
        Ok(StartLine::Response { status, .. }) => Some(status),
        _ => None,
    }
}

fn is_success(call: &Call) -> bool {
    matches!(status_written(call), Some(200 | 201))
}

/// The settings that the answer tells.
fn told_words(call: &Call) -> String {
    let message = read(call.written).ok();
    let fields = message.as_ref().and_then(|message| message.fields.as_ref());
    let fields = fields.map_or(&[][..], |fields| fields.all());
    let told = fields
        .iter()
        .filter(|field| field.known != Some(Known::ChannelIdentifier));
    let words = told.map(|field| {
        let unit = match field.name.ends_with(b"-Timeout") && !field.raw.is_empty() {
            true => " ms",
            false => "",
        };
        setting_words(field.name, &(readable(field.raw) + unit))
    });
    words.collect::<Vec<String>>().join(", ")
}

/// As `Fetch-Timeout 2500 ms`, or `unset` where there is no value.
fn setting_words(name: &[u8], value: &str) -> String {
    match value {
        "" => format!("{} unset", readable(name)),
        value => format!("{} {value}", readable(name)),
    }
}

/// The editions kept, by their numbers.
fn settings_words(channel: &Kept) -> String {
    let (kind, count) = (channel.kind(), channel.0[kept::KEPT]);
    let editions = channel.editions(channel.shown_editions());
    let mut words: Vec<String> = (1..)
        .zip(&editions)
        .map(|(number, pairs)| format!("{number}. {}", edition_words(kind, pairs)))
        .collect();
    if words.is_empty() || count > editions.len() as u64 {
        words.push(format!("count {count}"));
    }
    format!("settings: {}", words.join("; "))
}

fn edition_words(kind: Kind, pairs: &[Pair]) -> String {
    let settings = kind.settings().iter().zip(pairs);
    let words =
        settings.map(|(setting, pair)| setting_words(setting.field.spelling(), &value_text(pair)));
    words.collect::<Vec<String>>().join(", ")
}

/// What is kept of a setting, right or wrong; empty where it is unset.
fn value_text(pair: &Pair) -> String {
    match pair.sort {
        kept::UNSET => String::new(),
        kept::FLAG if pair.value <= 1 => (pair.value == 1).to_string(),
        kept::MILLIS => format!("{} ms", pair.value),
        kept::LEVEL => match Level::of_millionths(pair.value) {
            Some(level) => format!(
                "{:.6}",
                f64::from(level.millionths()) / f64::from(level::ONE)
            ),
            None => format!("(no level: {})", pair.value),
        },
        sort => format!("(sort {sort}: {})", pair.value),
    }
}

/// The cause that the event names.
fn cause_written(event: &Message) -> String {
    let named = event.fields.as_ref().and_then(|fields| {
        let mut all = fields.all().iter();
        all.find(|field| field.name.eq_ignore_ascii_case(b"Completion-Cause"))
    });
    named.map_or("no cause".to_string(), |field| readable(&field.value()))
}

fn tell_answer(text: &mut String, call: &Call, room: usize) {
    let Outcome { number, .. } = call.outcome;
    if number == 0 {
        // Each message ends with its own empty line.
        let mut rest = call.written;
        for message in messages(call.written) {
            let length = message.map_or(rest.len(), |message| message.length);
            text.push_str(&arrow("<-", &rest[..length]));
            rest = &rest[length..];
        }
    } else {
        text.push_str(&refused(number));
        if number == Refusal::NoRoom.number() {
            text.insert_str(text.len() - 2, &format!(" of {room}"));
        }
    }
}

fn refused(number: u32) -> String {
    let meaning = Refusal::of_number(number).map_or("no such number", Refusal::meaning);
    format!("   refused {number}: {meaning}\n\n")
}

fn tell_framed(text: &mut String, input: &[u8]) {
    text.push_str(&arrow("frame:", input));
    match frame(input) {
        Ok(frame) => {
            let (length, lent) = (frame.length(), input.len());
            text.push_str(&format!("   a frame of {length} of {lent} bytes\n\n"));
        }
        Err(refusal) => text.push_str(&refused(refusal.number())),
    }
}

fn tell_read(text: &mut String, input: &[u8]) {
    text.push_str(&arrow("read:", input));
    let message = match read(input) {
        Ok(message) => message,
        Err(refusal) => return text.push_str(&refused(refusal.number())),
    };
    let kind = match message.start {
        StartLine::Request { .. } => "a request",
        StartLine::Response { .. } => "a response",
        StartLine::Event { .. } => "an event",
    };
    let rest = match &message.fields {
        None => "bad fields".to_string(),
        Some(fields) => format!("{} fields, body {}", fields.all().len(), fields.body.len()),
    };
    let length = message.length;
    text.push_str(&format!("   {kind} of {length} bytes, {rest}\n\n"));
}

fn tell_whose(text: &mut String, input: &[u8]) {
    text.push_str(&arrow("whose:", input));
    match whose(input) {
        Ok(id) => text.push_str(&format!("   request-id {id}\n\n")),
        Err(refusal) => text.push_str(&refused(refusal.number())),
    }
}

fn channel_words(channel: &Kept) -> String {
    let mut text = Vec::new();
    put_channel(&mut text, channel);
    let hex = String::from_utf8_lossy(&text).into_owned();
    let parts: Vec<&str> = hex.split(' ').collect();
    format!(
        "channel `{}` {}, last id {}, queue {}",
        readable(&channel.name_bytes()),
        parts[2],
        parts[3],
        parts[4..].join(" count ")
    )
}

/// The bytes after an arrow, CRLF as line ends, each line indented.
fn arrow(arrow: &str, bytes: &[u8]) -> String {
    let mut text = arrow.to_string();
    let mut rest = bytes;
    let mut indent = " ";
    loop {
        let end = rest.windows(2).position(|pair| pair == b"\r\n");
        let line = readable(&rest[..end.unwrap_or(rest.len())]);
        if !line.is_empty() {
            text.push_str(indent);
            text.push_str(&line);
        }
        text.push('\n');
        indent = "   ";
        match end {
            // A line end at the very end shows by itself.
            Some(end) if end + 2 < rest.len() => rest = &rest[end + 2..],
            _ => return text,
        }
    }
}

/// Bytes for people: what cannot be printed is escaped.
fn readable(bytes: &[u8]) -> String {
    let mut text = String::new();
    for &byte in bytes {
        match byte {
            b' '..=b'~' => text.push(byte.into()),
            _ => text.push_str(&byte.escape_ascii().to_string()),
        }
    }
    text
}
