//! Commands that belong together, as the lines of a script.

use std::io::{self, Write};

use super::unsound::Given;
use crate::kept::{self, Kept};
use crate::script::{command, editions_word, put_hex, put_words, Command};
use crate::writing::{Answer, Event};

#[derive(Default)]
pub struct Batch {
    text: Vec<u8>,
    /// Where each line ends, and whether it is a call.
    lines: Vec<(usize, bool)>,
}

impl Batch {
    pub fn clear(&mut self) {
        self.text.clear();
        self.lines.clear();
    }

    pub fn frame(&mut self, bytes: &[u8]) {
        self.text.extend_from_slice(b"frame ");
        self.hex(bytes);
    }

    pub fn read(&mut self, bytes: &[u8]) {
        self.text.extend_from_slice(b"read ");
        self.hex(bytes);
    }

    pub fn whose(&mut self, bytes: &[u8]) {
        self.text.extend_from_slice(b"whose ");
        self.hex(bytes);
    }

    pub fn open(&mut self, name: &[u8]) {
        self.text.extend_from_slice(b"open ");
        self.hex(name);
    }

    pub fn message(&mut self, room: usize, bytes: &[u8]) {
        let words = format!("message {room} ");
        self.text.extend_from_slice(words.as_bytes());
        self.hex(bytes);
    }

    /// The score's bits, where it is given.
    pub fn report(&mut self, cause: u32, room: usize, score: Option<u32>) {
        let score = score.map_or(String::new(), |bits| format!(" {bits:08x}"));
        let words = format!("report {cause} {room}{score}");
        self.text.extend_from_slice(words.as_bytes());
        self.end(true);
    }

    pub fn respond(&mut self, answer: &Answer, name: &[u8], room: usize) {
        let Answer {
            id, status, state, ..
        } = answer;
        let words = format!("respond {} {status} {id} ", state.word());
        self.text.extend_from_slice(words.as_bytes());
        put_hex(&mut self.text, name);
        let ids: Vec<String> = answer.list.all().iter().map(u32::to_string).collect();
        let list = if ids.is_empty() {
            "-".to_string()
        } else {
            ids.join(",")
        };
        self.text
            .extend_from_slice(format!(" {list} {room}").as_bytes());
        self.end(true);
    }

    pub fn complete(&mut self, event: &Event, name: &[u8], room: usize) {
        let words = format!("complete {} {} ", event.cause, event.id);
        self.text.extend_from_slice(words.as_bytes());
        put_hex(&mut self.text, name);
        self.text.extend_from_slice(format!(" {room}").as_bytes());
        self.end(true);
    }

    pub fn show(&mut self) {
        self.text.extend_from_slice(b"show");
        self.end(false);
    }

    pub fn numbers(&mut self) {
        self.text.extend_from_slice(b"numbers");
        self.end(false);
    }

    pub fn back(&mut self, number: u32) {
        let words = format!("back {number}");
        self.text.extend_from_slice(words.as_bytes());
        self.end(true);
    }

    pub fn settings(&mut self) {
        self.text.extend_from_slice(b"settings");
        self.end(false);
    }

    /// A `channel` line, with the count as a further word where it is not that
    /// of the entries listed, a `settings` line where editions are listed, and
    /// a `number` line for each that these leave.
    pub fn channel(&mut self, given: &Given) {
        let begin = self.text.len();
        let Kept(numbers) = given.kept;
        self.text.extend_from_slice(b"channel ");
        let queue = given.kept.entries(given.entries);
        put_words(&mut self.text, &given.kept, &given.name, &queue);
        if numbers[kept::COUNT] != given.entries as u64 {
            let count = format!(" {}", numbers[kept::COUNT]);
            self.text.extend_from_slice(count.as_bytes());
        }
        let Ok(Some(Command::Channel(mut set))) = command(&self.text[begin..]) else {
            unreachable!("the line is one of the language");
        };
        self.end(false);
        if let Some(listed) = given.editions {
            self.given_settings(&given.kept, listed, &mut set);
        }
        for (place, (number, set)) in numbers.iter().zip(set.0).enumerate() {
            if *number != set {
                let words = format!("number {place} {number}");
                self.text.extend_from_slice(words.as_bytes());
                self.end(false);
            }
        }
    }

    /// A `settings` line that lists so many editions; what it makes of the numbers set.
    fn given_settings(&mut self, kept: &Kept, listed: usize, set: &mut Kept) {
        let begin = self.text.len();
        let editions = editions_word(&kept.editions(listed));
        self.text
            .extend_from_slice(format!("settings {editions}").as_bytes());
        let count = kept.0[kept::KEPT];
        if count != listed as u64 {
            self.text.extend_from_slice(format!(" {count}").as_bytes());
        }
        let Ok(Some(Command::SetSettings { editions, count })) = command(&self.text[begin..])
        else {
            unreachable!("the line is one of the language");
        };
        set.put_editions(&editions, count);
        self.end(false);
    }

    fn hex(&mut self, bytes: &[u8]) {
        put_hex(&mut self.text, bytes);
        self.end(true);
    }

    fn end(&mut self, is_call: bool) {
        self.text.push(b'\n');
        self.lines.push((self.text.len(), is_call));
    }

    /// Writes lines until `most` calls are among them; gives how many were.
    pub fn write(&self, most: u64, out: &mut dyn Write) -> io::Result<u64> {
        let mut counted = 0;
        let mut end = 0;
        for &(line_end, is_call) in &self.lines {
            if counted == most {
                break;
            }
            counted += u64::from(is_call);
            end = line_end;
        }
        out.write_all(&self.text[..end])?;
        Ok(counted)
    }
}
