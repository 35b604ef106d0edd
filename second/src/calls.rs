//! The calls on a channel: a client's message, an engine's report, and going
//! back to an edition of its settings.

use crate::channel::{Channel, Kind};
use crate::framing::{frame, Frame};
use crate::judgement::{judge, Request};
use crate::message::start;
use crate::refusal::Refusal;
use crate::start_line::StartLine;
use crate::writing::{cause_word, Events, Outgoing};

/// What a call returns: the number, the count consumed and the count written.
#[derive(Clone, Copy, Debug, PartialEq, Eq)]
pub struct Outcome {
    pub number: u32,
    pub consumed: usize,
    pub written: usize,
}

impl Outcome {
    pub fn refused(refusal: Refusal, consumed: usize) -> Outcome {
        Outcome {
            number: refusal.number(),
            consumed,
            written: 0,
        }
    }

    fn handled(consumed: usize, written: usize) -> Outcome {
        Outcome {
            number: 0,
            consumed,
            written,
        }
    }
}

impl Channel {
    /// One client message: 21 before all, 1 to 6 before 7.
    pub fn handle(&mut self, input: &[u8], output: &mut [u8]) -> Outcome {
        if !self.is_sound() {
            return Outcome::refused(Refusal::NotSound, 0);
        }
        let frame = match frame(input) {
            Err(refusal) => return Outcome::refused(refusal, 0),
            Ok(frame) => frame,
        };
        let request = match request(&frame) {
            Err(refusal) => return Outcome::refused(refusal, frame.length()),
            Ok(request) => request,
        };
        let mut next = *self;
        let answer = judge(&mut next, &request);
        match Outgoing::Answer(answer).write(self.name.bytes(), output) {
            None => Outcome::refused(Refusal::NoRoom, 0),
            Some(written) => {
                *self = next;
                Outcome::handled(frame.length(), written)
            }
        }
    }

    /// One engine report: 21, then 9, then 11, then 8, then 7. The score is
    /// a recognizer's; "a synthesizer's score is not judged".
    pub fn report(&mut self, cause: u32, score: f32, output: &mut [u8]) -> Outcome {
        if !self.is_sound() {
            return Outcome::refused(Refusal::NotSound, 0);
        }
        let kind = self.kind();
        if cause_word(kind, cause).is_none() {
            return Outcome::refused(Refusal::NoSuchCause, 0);
        }
        if kind == Kind::Recognizer && score.is_nan() {
            return Outcome::refused(Refusal::NoScore, 0);
        }
        if self.state != kind.at_work() {
            return Outcome::refused(Refusal::NothingActive, 0);
        }
        let mut next = *self;
        let (cause, ids) = match kind {
            Kind::Synthesizer => (cause, next.complete_speech()),
            Kind::Recognizer => next.complete_recognition(cause, score),
        };
        match (Events { kind, cause, ids }).write(self.name.bytes(), output) {
            None => Outcome::refused(Refusal::NoRoom, 0),
            Some(written) => {
                *self = next;
                Outcome::handled(0, written)
            }
        }
    }

    /// Going back to an edition "by number, 1 the newest, makes a further edition
    /// equal to it": 21, then 12.
    pub fn back(&mut self, number: u32) -> Outcome {
        if !self.is_sound() {
            return Outcome::refused(Refusal::NotSound, 0);
        }
        match self.editions.numbered(number) {
            None => Outcome::refused(Refusal::NotKept, 0),
            Some(edition) => {
                self.editions.add(edition);
                Outcome::handled(0, 0)
            }
        }
    }
}

/// 5 for a malformed start line, 6 for a response or event.
fn request<'a>(frame: &Frame<'a>) -> Result<Request<'a>, Refusal> {
    match start(frame) {
        None => Err(Refusal::StartLine),
        Some((StartLine::Request { name, id }, block)) => Ok(Request {
            version: frame.version,
            name,
            id,
            block,
        }),
        Some(_) => Err(Refusal::NoRequest),
    }
}
