//! States and queue: what each method and the engine's report do to a sound
//! channel. The first outstanding request is the active one.

use crate::channel::{Channel, Held, Queue, State};
use crate::octets::request_id;
use crate::start_line::RequestState;
use crate::writing::Ids;

/// One bit for each place of the queue.
type Places = u32;
const FIRST: Places = 1;
const ALL: Places = Places::MAX;

const SUCCESS: u32 = 0;
const NO_MATCH: u32 = 1;
const SUCCESS_MAXTIME: u32 = 8;

fn is_success(cause: u32) -> bool {
    cause == SUCCESS || cause == SUCCESS_MAXTIME
}

impl Channel {
    pub fn is_full(&self) -> bool {
        self.queue.outstanding().len() == self.kind().most_outstanding()
    }

    /// SPEAK where there is room: "idle, becomes active and speaking, IN-PROGRESS.
    /// Otherwise joins the end, PENDING." RECOGNIZE: "active if none is,
    /// IN-PROGRESS, else waits, PENDING".
    pub fn accept(&mut self, held: Held) -> RequestState {
        let is_active = self.queue.outstanding().is_empty();
        self.queue.add(held);
        if is_active {
            self.state = self.kind().at_work();
            RequestState::InProgress
        } else {
            RequestState::Pending
        }
    }

    /// STOP: "Without a list all outstanding end; with one, those named end and
    /// other ids are passed over."
    pub fn stop(&mut self, list: Option<&[u8]>) -> Ids {
        let ended = match list {
            None => ALL,
            Some(value) => self.places_named(value),
        };
        self.end(ended)
    }

    /// BARGE-IN-OCCURRED: all end, "whatever their own setting", where the
    /// active one is killable; otherwise nothing ends.
    pub fn barge_in(&mut self) -> Ids {
        match self.queue.outstanding().first() {
            Some(active) if active.killable => self.end(ALL),
            _ => Ids::NONE,
        }
    }

    /// PAUSE when not idle: "paused, listing the active id".
    pub fn pause(&mut self) -> Ids {
        self.state = State::Paused;
        self.active()
    }

    /// RESUME when not idle: "From paused: speaking, listing the active id.
    /// From speaking: no change, no list (house)."
    pub fn resume(&mut self) -> Ids {
        if self.state == State::Speaking {
            return Ids::NONE;
        }
        self.state = State::Speaking;
        self.active()
    }

    /// CONTROL when not idle: "no change, listing the active id".
    pub fn control(&self) -> Ids {
        self.active()
    }

    /// The engine's report while speaking: the active one is over; "the next
    /// becomes active and speaking, or idle". Gives the one id that is over.
    pub fn complete_speech(&mut self) -> Ids {
        self.end(FIRST)
    }

    /// The engine's report while recognizing. Gives the cause as it counts and
    /// the ids that are over, the active one first.
    ///
    /// "With 000 or 008 the first waiting one becomes active; any other cause
    /// also ends the waiting ones. None left: recognized."
    pub fn complete_recognition(&mut self, cause: u32, score: f32) -> (u32, Ids) {
        let counted = self.counted(cause, score);
        let ended = self.end(if is_success(counted) { FIRST } else { ALL });
        if self.queue.outstanding().is_empty() {
            self.state = State::Recognized;
        }
        (counted, ended)
    }

    /// "A 000 or 008 whose score is not greater than that (default 0) counts as 001."
    fn counted(&self, cause: u32, score: f32) -> u32 {
        let active = self.queue.outstanding()[0];
        if is_success(cause) && !active.threshold.is_below(score) {
            NO_MATCH
        } else {
            cause
        }
    }

    fn active(&self) -> Ids {
        let mut ids = Ids::NONE;
        if let Some(active) = self.queue.outstanding().first() {
            ids.add(active.id);
        }
        ids
    }

    /// Ends the requests at the given places. The state stays, so that the next
    /// one is active "in the same state"; "when none remains, idle".
    fn end(&mut self, places: Places) -> Ids {
        let mut ended = Ids::NONE;
        let mut left = Queue::EMPTY;
        for (place, held) in self.queue.outstanding().iter().enumerate() {
            if places & (1 << place) != 0 {
                ended.add(held.id);
            } else {
                left.add(*held);
            }
        }
        self.queue = left;
        if left.outstanding().is_empty() {
            self.state = State::Idle;
        }
        ended
    }

    /// The places of the requests that a legal list names; ids are numbers here.
    fn places_named(&self, value: &[u8]) -> Places {
        let mut places = 0;
        for id in list_of_ids(value).flatten() {
            let mut held = self.held();
            if let Some(place) = held.position(|held| held == id) {
                places |= 1 << place;
            }
        }
        places
    }
}

/// "One or more ids joined by single commas, without blanks." A part that is
/// no id comes as None; an empty value is one empty part.
pub fn list_of_ids(value: &[u8]) -> impl Iterator<Item = Option<u32>> + '_ {
    value.split(|&byte| byte == b',').map(request_id)
}
