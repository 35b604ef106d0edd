//! Demand 3's ledger ("How tight the promises are"). For each call in turn it
//! is fed the lent input or the report, the number returned and the bytes
//! written; nothing comes from the stored queue.

use std::borrow::Cow;
use std::collections::HashSet;
use std::fmt;
use std::iter;

use crate::fields::Known;
use crate::framing::frame;
use crate::message::{read, start, Message};
use crate::start_line::StartLine;
use crate::states::list_of_ids;

/// What one call puts into the ledger.
#[derive(Clone, Debug, PartialEq, Eq)]
pub enum Entry {
    Nothing,
    Accepted(u32),
    /// In the order written.
    Closed(Vec<u32>),
}

#[derive(Clone, Debug, PartialEq, Eq)]
pub enum Violation {
    AcceptedTwice(u32),
    ClosedTwice(u32),
    ClosedBeforeAccepted(u32),
    /// Accepted and not closed, against what the channel holds.
    OutOfBalance {
        open: Vec<u32>,
        held: Vec<u32>,
    },
    /// The bytes of a handled call, which a reader has to understand.
    Unreadable(&'static str),
}

impl fmt::Display for Violation {
    fn fmt(&self, to: &mut fmt::Formatter) -> fmt::Result {
        match self {
            Violation::AcceptedTwice(id) => write!(to, "id {id} accepted twice"),
            Violation::ClosedTwice(id) => write!(to, "id {id} closed twice"),
            Violation::ClosedBeforeAccepted(id) => {
                write!(to, "id {id} closed before it was accepted")
            }
            Violation::OutOfBalance { open, held } => {
                write!(
                    to,
                    "accepted and not closed {open:?}, but the channel holds {held:?}"
                )
            }
            Violation::Unreadable(what) => write!(to, "{what} cannot be read"),
        }
    }
}

/// The two lists, both empty at opening.
#[derive(Clone, Debug, Default)]
pub struct Ledger {
    accepted: Vec<u32>,
    closed: Vec<u32>,
    // The same ids again, so that each check is quick however long the lists are.
    was_accepted: HashSet<u32>,
    was_closed: HashSet<u32>,
    /// Accepted and not closed, in order of acceptance.
    open: Vec<u32>,
}

impl Ledger {
    pub fn accepted(&self) -> &[u32] {
        &self.accepted
    }

    pub fn closed(&self) -> &[u32] {
        &self.closed
    }

    pub fn open(&self) -> &[u32] {
        &self.open
    }

    /// Enters what a call brings; the first three properties.
    pub fn enter(&mut self, entry: &Entry) -> Result<(), Violation> {
        match entry {
            Entry::Nothing => Ok(()),
            Entry::Accepted(id) => self.accept(*id),
            Entry::Closed(ids) => ids.iter().try_for_each(|id| self.close(*id)),
        }
    }

    fn accept(&mut self, id: u32) -> Result<(), Violation> {
        self.accepted.push(id);
        if !self.was_accepted.insert(id) {
            return Err(Violation::AcceptedTwice(id));
        }
        self.open.push(id);
        Ok(())
    }

    fn close(&mut self, id: u32) -> Result<(), Violation> {
        self.closed.push(id);
        if !self.was_closed.insert(id) {
            return Err(Violation::ClosedTwice(id));
        }
        if !self.was_accepted.contains(&id) {
            return Err(Violation::ClosedBeforeAccepted(id));
        }
        self.open.retain(|open| *open != id);
        Ok(())
    }

    /// The fourth property: what is accepted and not closed, in order of
    /// acceptance, is what the channel holds, in queue order.
    pub fn balance(&self, held: Vec<u32>) -> Result<(), Violation> {
        if self.open == held {
            return Ok(());
        }
        let open = self.open.clone();
        Err(Violation::OutOfBalance { open, held })
    }
}

const CLOSING_METHODS: [&[u8]; 2] = [b"STOP", b"BARGE-IN-OCCURRED"];

/// Whether a success puts the id into accepted: "RECOGNIZE standing for SPEAK".
pub fn is_accepted_method(method: &[u8]) -> bool {
    [&b"SPEAK"[..], b"RECOGNIZE"].contains(&method)
}

/// "Method and id are read from the start line of the input's frame, the rest
/// from the written bytes, as a reader gets them."
pub fn entry_of_message(input: &[u8], number: u32, written: &[u8]) -> Result<Entry, Violation> {
    if number != 0 {
        return Ok(Entry::Nothing);
    }
    let (method, id) = request_of(input).ok_or(Violation::Unreadable("a handled request"))?;
    let is_accepted = is_accepted_method(method);
    if !is_accepted && !CLOSING_METHODS.contains(&method) {
        return Ok(Entry::Nothing);
    }
    let answer = Violation::Unreadable("the answer written");
    let (status, list) = answer_of(written).ok_or(answer)?;
    if status != 200 && status != 201 {
        return Ok(Entry::Nothing);
    }
    if is_accepted {
        return Ok(Entry::Accepted(id));
    }
    Ok(list.map_or(Entry::Nothing, Entry::Closed))
}

/// "A report puts the id of each event written there", 011 events too.
pub fn entry_of_report(number: u32, written: &[u8]) -> Result<Entry, Violation> {
    if number != 0 {
        return Ok(Entry::Nothing);
    }
    let ids = messages(written).map(|message| match message?.start {
        StartLine::Event { id, .. } => Some(id),
        _ => None,
    });
    let ids = ids.collect::<Option<Vec<u32>>>();
    let ids = ids.ok_or(Violation::Unreadable("an event written"))?;
    Ok(Entry::Closed(ids))
}

/// The messages that stand end to end in what was written; None, and it is
/// the last, for bytes that are no message.
pub fn messages(written: &[u8]) -> impl Iterator<Item = Option<Message<'_>>> {
    let mut rest = written;
    iter::from_fn(move || {
        if rest.is_empty() {
            return None;
        }
        let message = read(rest).ok();
        let length = message
            .as_ref()
            .map_or(rest.len(), |message| message.length);
        rest = &rest[length..];
        Some(message)
    })
}

/// Method and id of the first frame of the input.
pub fn request_of(input: &[u8]) -> Option<(&[u8], u32)> {
    let frame = frame(input).ok()?;
    match start(&frame)? {
        (StartLine::Request { name, id }, _) => Some((name, id)),
        _ => None,
    }
}

/// Status and list of an answer, which has to be all of the written bytes.
fn answer_of(written: &[u8]) -> Option<(u16, Option<Vec<u32>>)> {
    let message = read(written).ok()?;
    if message.length != written.len() {
        return None;
    }
    let list = match listed(&message) {
        None => None,
        Some(value) => Some(list_of_ids(&value).collect::<Option<Vec<u32>>>()?),
    };
    match (message.start, message.fields) {
        (StartLine::Response { status, .. }, Some(_)) => Some((status, list)),
        _ => None,
    }
}

fn listed<'a>(message: &Message<'a>) -> Option<Cow<'a, [u8]>> {
    message.fields.as_ref()?.value(Known::ActiveRequestIdList)
}
