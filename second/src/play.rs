//! Playing a script: runs its calls and writes their lines.

use std::io::{BufRead, Write};

use crate::calls::Outcome;
use crate::fields::Fields;
use crate::framing::frame;
use crate::kept::{Kept, Pair};
use crate::ledger::{entry_of_message, entry_of_report, Entry, Ledger, Violation};
use crate::message::{read, Message};
use crate::refusal::Refusal;
use crate::script::{
    each_command, put_channel, put_hex, put_settings, Command, Trouble, Wrong, MOST_ROOM,
};
use crate::start_line::StartLine;
use crate::whose::whose;
use crate::writing::{cause_word, Outgoing};

/// The current channel, the ledger since its opening, and the bytes to lend.
pub struct Board {
    pub channel: Kept,
    ledger: Ledger,
    /// False from a line that sets the channel to the next `open`: nothing was accepted then.
    checked: bool,
    output: Vec<u8>,
}

/// A call's numbers, the bytes written, and what the ledger took from it.
pub struct Call<'a> {
    pub outcome: Outcome,
    pub written: &'a [u8],
    pub entry: Result<Entry, Violation>,
}

impl Call<'_> {
    /// The ledger's word about it.
    pub fn balanced(self) -> Result<(), Wrong> {
        self.entry.map(|_| ()).map_err(Wrong::Ledger)
    }
}

impl Board {
    pub fn new() -> Board {
        Board {
            channel: Kept::open(b"").0,
            ledger: Ledger::default(),
            checked: true,
            output: vec![0; MOST_ROOM as usize],
        }
    }

    pub fn open(&mut self, name: &[u8]) -> u32 {
        let (channel, number) = Kept::open(name);
        self.channel = channel;
        self.ledger = Ledger::default();
        self.checked = true;
        number
    }

    pub fn set(&mut self, channel: Kept) {
        self.channel = channel;
        self.checked = false;
    }

    pub fn set_number(&mut self, place: usize, value: u64) {
        self.channel.0[place] = value;
        self.checked = false;
    }

    /// The editions as given, which must have as many values each as the kind has settings.
    pub fn set_settings(&mut self, editions: &[Vec<Pair>], count: u64) -> Result<(), Wrong> {
        let most = self.channel.kind().settings().len();
        if editions.iter().any(|values| values.len() != most) {
            let wrong = format!("an edition that is not of {most} values");
            return Err(Wrong::Word(wrong));
        }
        self.channel.put_editions(editions, count);
        self.checked = false;
        Ok(())
    }

    pub fn message(&mut self, room: usize, input: &[u8]) -> Call<'_> {
        let outcome = self.channel.handle(input, &mut self.output[..room]);
        let entry = entry_of_message(input, outcome.number, &self.output[..outcome.written]);
        self.entered(outcome, entry)
    }

    /// The score comes as the bits of a single-precision number.
    pub fn report(&mut self, cause: u32, score: u32, room: usize) -> Call<'_> {
        let score = f32::from_bits(score);
        let outcome = self.channel.report(cause, score, &mut self.output[..room]);
        let entry = entry_of_report(outcome.number, &self.output[..outcome.written]);
        self.entered(outcome, entry)
    }

    /// Going back to an edition, which enters nothing into the ledger.
    pub fn back(&mut self, number: u32) -> Call<'_> {
        let outcome = self.channel.back(number);
        self.entered(outcome, Ok(Entry::Nothing))
    }

    /// Writes one message outside any channel: its bytes, or the number of the refusal.
    pub fn write(
        &mut self,
        message: &Outgoing,
        name: &[u8],
        room: usize,
    ) -> Result<&[u8], Refusal> {
        if let Outgoing::Event(event) = message {
            cause_word(event.kind, event.cause).ok_or(Refusal::NoSuchCause)?;
        }
        let output = &mut self.output[..room];
        let size = message.write(name, output).ok_or(Refusal::NoRoom)?;
        Ok(&output[..size])
    }

    fn entered(&mut self, outcome: Outcome, entry: Result<Entry, Violation>) -> Call<'_> {
        let entry = match self.checked {
            true => entry.and_then(|entry| {
                self.ledger.enter(&entry)?;
                self.ledger
                    .balance(self.channel.held().unwrap_or_default())?;
                Ok(entry)
            }),
            false => Ok(entry.unwrap_or(Entry::Nothing)),
        };
        Call {
            outcome,
            written: &self.output[..outcome.written],
            entry,
        }
    }
}

impl Default for Board {
    fn default() -> Board {
        Board::new()
    }
}

pub fn play(script: &mut dyn BufRead, out: &mut dyn Write) -> Result<(), Trouble> {
    let mut board = Board::new();
    let mut text = Vec::new();
    each_command(script, |line, command| {
        text.clear();
        let performed = perform(&mut board, command, &mut text);
        out.write_all(&text).map_err(Trouble::Output)?;
        performed.map_err(|wrong| wrong.at(line))
    })
}

/// Runs one command and puts the lines it writes.
fn perform(board: &mut Board, command: Command, text: &mut Vec<u8>) -> Result<(), Wrong> {
    match command {
        Command::Frame(input) => put_framed(text, &input),
        Command::Read(input) => put_read(text, &input),
        Command::Whose(input) => put_whose(text, &input),
        Command::Open(name) => put(text, &format!("open {}\n", board.open(&name))),
        Command::Message { room, input } => return put_message(text, board.message(room, &input)),
        Command::Report { cause, room, score } => {
            return put_report(text, board.report(cause, score, room));
        }
        Command::Respond { answer, name, room } => {
            let message = Outgoing::Answer(*answer);
            put_written(text, "respond", board.write(&message, &name, room));
        }
        Command::Complete { event, name, room } => {
            let message = Outgoing::Event(event);
            put_written(text, "complete", board.write(&message, &name, room));
        }
        Command::Channel(channel) => board.set(*channel),
        Command::Number { place, value } => board.set_number(place, value),
        Command::Numbers => put(text, &format!("numbers {}\n", board.channel.words())),
        Command::Show => {
            put_channel(text, &board.channel);
            text.push(b'\n');
        }
        Command::Back(number) => {
            let call = board.back(number);
            put(text, &format!("back {}\n", call.outcome.number));
            return call.balanced();
        }
        Command::Settings => {
            put_settings(text, &board.channel);
            text.push(b'\n');
        }
        Command::SetSettings { editions, count } => return board.set_settings(&editions, count),
    }
    Ok(())
}

fn put_message(text: &mut Vec<u8>, call: Call) -> Result<(), Wrong> {
    let (number, consumed) = (call.outcome.number, call.outcome.consumed);
    put(text, &format!("message {number} {consumed} "));
    put_call(text, call)
}

fn put_report(text: &mut Vec<u8>, call: Call) -> Result<(), Wrong> {
    put(text, &format!("report {} ", call.outcome.number));
    put_call(text, call)
}

fn put(text: &mut Vec<u8>, words: &str) {
    text.extend_from_slice(words.as_bytes());
}

/// The bytes that a call wrote; the ledger's word about it.
fn put_call(text: &mut Vec<u8>, call: Call) -> Result<(), Wrong> {
    put_hex(text, call.written);
    text.push(b'\n');
    call.balanced()
}

fn put_written(text: &mut Vec<u8>, command: &str, written: Result<&[u8], Refusal>) {
    let (number, bytes) = match written {
        Ok(bytes) => (0, bytes),
        Err(refusal) => (refusal.number(), &[][..]),
    };
    put(text, &format!("{command} {number} "));
    put_hex(text, bytes);
    text.push(b'\n');
}

fn put_framed(text: &mut Vec<u8>, input: &[u8]) {
    let (number, length) = match frame(input) {
        Ok(frame) => (0, frame.length()),
        Err(refusal) => (refusal.number(), 0),
    };
    put(text, &format!("frame {number} {length}\n"));
}

fn put_read(text: &mut Vec<u8>, input: &[u8]) {
    match read(input) {
        Err(refusal) => put(text, &format!("read {}\n", refusal.number())),
        Ok(message) => {
            put(text, &start_words(&message));
            match &message.fields {
                None => put(text, "bad\n"),
                Some(fields) => put_fields(text, fields),
            }
        }
    }
}

fn put_whose(text: &mut Vec<u8>, input: &[u8]) {
    match whose(input) {
        Ok(id) => put(text, &format!("whose 0 {id}\n")),
        Err(refusal) => put(text, &format!("whose {}\n", refusal.number())),
    }
}

fn start_words(message: &Message) -> String {
    let (major, minor) = (message.version.major, message.version.minor);
    let length = message.length;
    match message.start {
        StartLine::Request { name, id } => {
            let name = String::from_utf8_lossy(name);
            format!("read 0 {length} request {major} {minor} {name} {id}\n")
        }
        StartLine::Response { id, status, state } => {
            let state = state.word();
            format!("read 0 {length} response {major} {minor} {id} {status:03} {state}\n")
        }
        StartLine::Event { name, id, state } => {
            let (name, state) = (String::from_utf8_lossy(name), state.word());
            format!("read 0 {length} event {major} {minor} {name} {id} {state}\n")
        }
    }
}

fn put_fields(text: &mut Vec<u8>, fields: &Fields) {
    for field in fields.all() {
        put(text, "field ");
        put_hex(text, field.name);
        text.push(b' ');
        put_hex(text, field.raw);
        text.push(b'\n');
    }
    put(text, "body ");
    put_hex(text, fields.body);
    text.push(b'\n');
}
