//! Start lines: request, response and event.

use crate::octets::{decimal, is, request_id, CAPITAL};

/// "Method or event name: 1 to 32 bytes."
const LONGEST_NAME: usize = 32;

#[derive(Clone, Copy, Debug, PartialEq, Eq)]
pub enum RequestState {
    Pending,
    InProgress,
    Complete,
}

impl RequestState {
    pub fn word(self) -> &'static str {
        match self {
            RequestState::Pending => "PENDING",
            RequestState::InProgress => "IN-PROGRESS",
            RequestState::Complete => "COMPLETE",
        }
    }

    pub fn of_word(word: &[u8]) -> Option<RequestState> {
        match word {
            b"PENDING" => Some(RequestState::Pending),
            b"IN-PROGRESS" => Some(RequestState::InProgress),
            b"COMPLETE" => Some(RequestState::Complete),
            _ => None,
        }
    }
}

#[derive(Clone, Copy, Debug, PartialEq, Eq)]
pub enum StartLine<'a> {
    Request {
        name: &'a [u8],
        id: u32,
    },
    Response {
        id: u32,
        status: u16,
        state: RequestState,
    },
    Event {
        name: &'a [u8],
        id: u32,
        state: RequestState,
    },
}

impl StartLine<'_> {
    pub fn id(&self) -> u32 {
        match *self {
            StartLine::Request { id, .. } => id,
            StartLine::Response { id, .. } => id,
            StartLine::Event { id, .. } => id,
        }
    }
}

/// What stands after the opening and before the line's CRLF. None: malformed.
///
/// Parted at each space: a space too many leaves an empty word, and an empty
/// word is neither name, id, status nor state.
pub fn read(line: &[u8]) -> Option<StartLine<'_>> {
    let mut words = line.split(|&byte| byte == b' ');
    let first = words.next()?;
    let second = words.next()?;
    let third = words.next();
    if words.next().is_some() {
        return None;
    }
    if is_name(first) {
        let (name, id) = (first, request_id(second)?);
        match third {
            None => Some(StartLine::Request { name, id }),
            Some(word) => {
                let state = RequestState::of_word(word)?;
                Some(StartLine::Event { name, id, state })
            }
        }
    } else {
        let id = request_id(first)?;
        let status = three_digits(second)?;
        let state = RequestState::of_word(third?)?;
        Some(StartLine::Response { id, status, state })
    }
}

/// "A name is capitals and `-`, beginning with a capital (house)."
fn is_name(word: &[u8]) -> bool {
    match word {
        [first, rest @ ..] => {
            is(*first, CAPITAL)
                && word.len() <= LONGEST_NAME
                && rest.iter().all(|&byte| is(byte, CAPITAL) || byte == b'-')
        }
        [] => false,
    }
}

fn three_digits(word: &[u8]) -> Option<u16> {
    if word.len() != 3 {
        return None;
    }
    decimal(word, 3).map(|number| number as u16)
}
