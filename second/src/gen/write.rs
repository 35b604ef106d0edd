//! Messages to be written: one for each turn, at every room from none to more than it needs.

use super::batch::Batch;
use super::random::Random;
use crate::channel::Kind;
use crate::start_line::RequestState;
use crate::writing::{Answer, Event, Ids, Outgoing, NOTHING_TOLD};

const STATUSES: [u16; 13] = [
    200, 201, 401, 402, 403, 404, 405, 406, 407, 408, 409, 410, 502,
];

const STATES: [RequestState; 3] = [
    RequestState::Pending,
    RequestState::InProgress,
    RequestState::Complete,
];

const CAUSES: usize = 10;

/// Every status in every state, lists of 0 to 16 ids of 1 to 10 digits, names
/// of 1 to 32 letters and every cause come in turn.
pub fn writes(batch: &mut Batch, random: &mut Random, turn: usize) {
    let mut name = random.letters(b"0123456789abcdefXYZ", 1 + turn % 32);
    // Names are written as they come, whatever their kind.
    let kind = match turn % 3 {
        0 => Kind::Recognizer,
        _ => Kind::Synthesizer,
    };
    name.extend_from_slice(kind.resource());
    let id = id_of(random, 1 + turn % 10);
    let number = turn / 2;
    if turn.is_multiple_of(2) {
        let event = Event {
            kind: Kind::Synthesizer,
            id,
            cause: (number % CAUSES) as u32,
        };
        let most = Outgoing::Event(Event { cause: 0, ..event }).size(&name) + 16;
        (0..=most).for_each(|room| batch.complete(&event, &name, room));
        return;
    }
    let mut list = Ids::NONE;
    (0..number % 17).for_each(|_| list.add(id_of(random, 1 + number % 10)));
    let answer = Answer {
        id,
        status: STATUSES[number % STATUSES.len()],
        state: STATES[number / STATUSES.len() % STATES.len()],
        list,
        told: NOTHING_TOLD,
    };
    let most = Outgoing::Answer(answer).size(&name) + 2;
    (0..=most).for_each(|room| batch.respond(&answer, &name, room));
}

/// A request-id of so many digits.
fn id_of(random: &mut Random, digits: usize) -> u32 {
    let least = if digits == 1 {
        0
    } else {
        10u64.pow(digits as u32 - 1)
    };
    let most = (10u64.pow(digits as u32) - 1).min(u32::MAX.into());
    (least + random.next() % (most - least + 1)) as u32
}
