//! Conversations: an opening and the calls that follow it.
//!
//! The maker plays along on a channel of its own, so that it knows the state,
//! the ids that are held and the exact size of each answer.

pub mod settings;

use super::batch::Batch;
use super::damage::stated_length;
use super::draft::{methods, other_method};
use super::folds::{fold, fold_draft};
use super::random::Random;
use super::request::Request;
use super::unsound::{bad_name, broken, given, good_name, longest, sound, ODD_BITS};
use super::wire;
use crate::channel::{Channel, Kind};
use crate::kept::Kept;

/// No answer is longer than 305 bytes, and no report than 1,250, so more room makes no difference.
const ROOM: usize = 305;
const REPORT_ROOM: usize = 1250;
const LARGE: usize = 1300;

/// Weights of: each method of the kind, a method that the kind lacks, a failing
/// request, anything else on the wire, report, show.
type Habit = ([usize; 6], [usize; 5]);

const SPEECH_HABITS: [Habit; 6] = [
    ([30, 6, 6, 8, 5, 6], [4, 14, 6, 16, 2]),
    // Fills the queue.
    ([70, 2, 2, 3, 2, 1], [1, 6, 2, 4, 2]),
    // Waits in paused.
    ([40, 8, 20, 6, 5, 3], [1, 6, 2, 8, 2]),
    // Gets most things wrong.
    ([15, 4, 3, 3, 3, 3], [8, 50, 20, 8, 2]),
    // Mostly reports.
    ([40, 2, 2, 6, 1, 2], [1, 4, 2, 45, 2]),
    // Stops and interrupts.
    ([50, 20, 5, 5, 3, 12], [1, 4, 2, 6, 2]),
];

const RECOGNITION_HABITS: [Habit; 6] = [
    ([40, 8, 8, 0, 0, 0], [4, 14, 6, 18, 2]),
    // Fills the queue.
    ([75, 2, 3, 0, 0, 0], [1, 6, 2, 3, 2]),
    // Gets most things wrong.
    ([20, 4, 6, 0, 0, 0], [8, 50, 20, 8, 2]),
    // Mostly reports.
    ([50, 2, 3, 0, 0, 0], [1, 4, 2, 40, 2]),
    // One after the other.
    ([45, 1, 12, 0, 0, 0], [1, 2, 2, 50, 2]),
    // Stops.
    ([55, 22, 5, 0, 0, 0], [1, 4, 2, 6, 2]),
];

fn habits(kind: Kind) -> &'static [Habit; 6] {
    match kind {
        Kind::Synthesizer => &SPEECH_HABITS,
        Kind::Recognizer => &RECOGNITION_HABITS,
    }
}

/// Many lists are on the edge between two lengths with ids around 9, 99 and so
/// on; the longest answers need ids of ten digits.
const FIRST_IDS: [u64; 14] = [
    0,
    0,
    1,
    1,
    1,
    5,
    95,
    9_990,
    543_256,
    999_999_990,
    1_000_000_000,
    4_294_967_200,
    4_294_967_270,
    4_294_967_295,
];

struct Conversation<'a> {
    batch: &'a mut Batch,
    random: &'a mut Random,
    /// Of the channels that it is about.
    kind: Kind,
    /// The channel that whoever plays the script will have.
    kept: Kept,
    /// What a client takes it for, also where the numbers show none.
    channel: Channel,
    habit: Habit,
    /// Of a hundred requests, how many have fields that go on in further lines.
    folded: usize,
}

/// One conversation on channels of a kind.
pub fn calls(batch: &mut Batch, random: &mut Random, kind: Kind) {
    let mut conversation = Conversation::new(batch, random, kind, 6);
    let weights = match kind {
        Kind::Synthesizer => [66, 6, 10, 18, 0],
        Kind::Recognizer => [50, 6, 40, 30, 8],
    };
    match conversation.random.weighted(&weights) {
        0 => conversation.conversation(),
        1 => conversation.after_refused_opening(),
        2 => conversation.given_channel(true),
        3 => conversation.given_channel(false),
        _ => conversation.longest_report(),
    }
}

/// One in which most requests have folds.
pub fn folded(batch: &mut Batch, random: &mut Random, kind: Kind) {
    let mut conversation = Conversation::new(batch, random, kind, 85);
    match conversation.random.weighted(&[80, 20, 5]) {
        0 => conversation.conversation(),
        1 => conversation.given_channel(true),
        _ => conversation.fold_at_every_place(),
    }
}

impl<'a> Conversation<'a> {
    fn new(
        batch: &'a mut Batch,
        random: &'a mut Random,
        kind: Kind,
        folded: usize,
    ) -> Conversation<'a> {
        let habit = random.pick(habits(kind));
        let channel = Channel::UNOPENED;
        Conversation {
            batch,
            random,
            kind,
            kept: Kept::of(&channel),
            channel,
            habit,
            folded,
        }
    }

    fn conversation(&mut self) {
        let name = good_name(self.random, self.kind);
        self.open(&name);
        let count = match self.random.weighted(&[40, 40, 15, 5]) {
            0 => self.random.between(3, 12),
            1 => self.random.between(20, 60),
            2 => self.random.between(80, 200),
            _ => self.random.between(300, 700),
        };
        for _ in 0..count {
            // Habits change, so that a full queue is emptied again.
            if self.random.chance(3) {
                self.habit = self.random.pick(habits(self.kind));
            }
            self.call();
            // No id is above the last one, so what follows would be 410 for ever.
            if self.channel.last == Some(u32::MAX) && self.random.chance(15) {
                break;
            }
        }
        self.show();
    }

    fn after_refused_opening(&mut self) {
        let name = bad_name(self.random, self.kind);
        self.open(&name);
        self.show();
        self.some_calls(4);
    }

    /// A channel that the script sets, sound or with something broken.
    fn given_channel(&mut self, is_sound: bool) {
        self.channel = sound(self.random, self.kind);
        let given = match is_sound {
            true => given(self.random, &self.channel),
            false => broken(self.random, &self.channel),
        };
        self.kept = given.kept;
        self.batch.channel(&given);
        self.show();
        // Each of its thresholds is some level's.
        if self.kind == Kind::Recognizer && self.random.chance(60) {
            self.report();
        }
        self.some_calls(if is_sound { 12 } else { 4 });
        self.show();
    }

    /// A report that ends eight, at rooms around the sum of its events and of the first ones.
    fn longest_report(&mut self) {
        self.channel = longest(self.random);
        let given = given(self.random, &self.channel);
        self.kept = given.kept;
        self.batch.channel(&given);
        let cause = self.random.pick(&[0, 1, 5, 5, 5, 8, 11, 14]);
        let mut rooms = [0, 171, 172, 305, 326, 1095, 1096, 1249];
        self.random.shuffle(&mut rooms);
        for room in &rooms[..3] {
            self.reported(cause, *room, Some(0));
        }
        let room = self.random.pick(&[1249, 1250, 1250, 1251]);
        self.reported(cause, room, Some(0));
        self.show();
    }

    /// A fold at every place behind the start line of a request, on a fresh
    /// channel whenever the queue is full.
    fn fold_at_every_place(&mut self) {
        let name = good_name(self.random, self.kind);
        self.open(&name);
        let with_body = methods(self.kind)[0];
        let method = self.random.pick(&[with_body, with_body, "STOP"]);
        let fold = fold(self.random);
        let request = Request::good(self.random, &self.channel, method, 1);
        let mut draft = request.draft(self.random);
        let places = draft.rest().len() - draft.line.len() - 2 - draft.body.len();
        for place in 0..=places {
            if self.channel.is_full() {
                self.open(&name);
            }
            let id = self.channel.last.map_or(1, |last| last + 1);
            draft.line = format!("{method} {id}").into_bytes();
            let mut rest = draft.rest();
            let place = draft.line.len() + 2 + place;
            rest.splice(place..place, fold.iter().copied());
            self.send(&draft.framed(&rest));
        }
        self.show();
    }

    fn some_calls(&mut self, most: usize) {
        for _ in 0..self.random.between(1, most) {
            self.call();
        }
    }

    fn open(&mut self, name: &[u8]) {
        self.batch.open(name);
        self.channel = Channel::open(name).0;
        self.kept = Kept::of(&self.channel);
    }

    fn show(&mut self) {
        self.batch.show();
        if self.random.chance(50) {
            self.batch.numbers();
        }
    }

    fn call(&mut self) {
        let (own, others) = self.habit;
        let own_sum = own.iter().sum();
        if self.random.below(own_sum + others.iter().sum::<usize>()) < own_sum {
            let method = methods(self.kind)[self.random.weighted(&own)];
            return self.request(method);
        }
        match self.random.weighted(&others) {
            0 => {
                let method = other_method(self.random, self.kind);
                self.request(method);
            }
            1 => self.failing_request(),
            2 => self.anything(),
            3 => self.report(),
            _ => self.show(),
        }
    }

    fn request(&mut self, method: &str) {
        let id = self.next_id();
        let request = Request::good(self.random, &self.channel, method, id);
        self.send_request(&request);
    }

    /// One judgement fails, or it and the next, or two of them.
    fn failing_request(&mut self) {
        let first = self.random.between(1, 11);
        let second = match self.random.below(4) {
            0 | 1 => first,
            2 => (first + 1).min(11),
            _ => self.random.between(1, 11),
        };
        let (any, with_body) = match self.kind {
            Kind::Synthesizer => (["SPEAK", "SPEAK", "STOP", "PAUSE", "CONTROL"], "SPEAK"),
            Kind::Recognizer => (
                [
                    "RECOGNIZE",
                    "RECOGNIZE",
                    "RECOGNIZE",
                    "STOP",
                    "START-INPUT-TIMERS",
                ],
                "RECOGNIZE",
            ),
        };
        // Judgements 9 and 10 are about the method with a body alone.
        let about_body = [9, 10].contains(&first) || [9, 10].contains(&second);
        let method = match about_body {
            true => with_body,
            false => self.random.pick(&any),
        };
        let id = self.next_id();
        let mut request = Request::good(self.random, &self.channel, method, id);
        // From the last to the first, so that the method is set before its values.
        request.spoil(self.random, &self.channel, first.max(second));
        if first != second {
            request.spoil(self.random, &self.channel, first.min(second));
        }
        self.send_request(&request);
    }

    fn send_request(&mut self, request: &Request) {
        let mut draft = request.draft(self.random);
        if self.random.chance(self.folded) {
            fold_draft(&mut draft, self.random);
        }
        match self.random.weighted(&[94, 3, 3]) {
            0 => {}
            1 => draft.after = wire::noise(self.random),
            // A second message in the same input, which must wait.
            _ => {
                let method = self.random.pick(methods(self.kind));
                let next = Request::good(self.random, &self.channel, method, request.id + 1);
                draft.after = next.draft(self.random).bytes();
            }
        }
        self.send(&draft.bytes());
    }

    /// Rising by one, mostly; gaps, repeats, and jumps to the ends of the range.
    fn next_id(&mut self) -> u64 {
        let Some(last) = self.channel.last else {
            return self.random.pick(&FIRST_IDS);
        };
        let last = u64::from(last);
        let id = match self.random.weighted(&[3300, 440, 120, 60, 60, 1]) {
            0 => last + 1,
            1 => last + self.random.between(2, 9) as u64,
            2 => last,
            3 => self.random.next() % (last + 1),
            4 => last + self.random.between(10, 1000) as u64,
            _ => 4_294_967_295 - self.random.below(30) as u64,
        };
        // Past the end is a malformed start line, which now and then is wanted.
        if self.random.chance(80) {
            id.min(4_294_967_295)
        } else {
            id
        }
    }

    /// Openings that are cut or wrong, start lines that are no request, and noise.
    fn anything(&mut self) {
        let id = self.next_id();
        let method = self.random.pick(methods(self.kind));
        let request = Request::good(self.random, &self.channel, method, id);
        let mut draft = request.draft(self.random);
        let bytes = match self.random.below(8) {
            0 => {
                let mut bytes = draft.bytes();
                bytes.truncate(self.random.below(bytes.len()));
                bytes
            }
            1 | 2 => {
                stated_length(&mut draft, self.random);
                draft.bytes()
            }
            3 => {
                super::damage::start_line(&mut draft, self.random);
                draft.bytes()
            }
            4 => {
                draft.line = format!("{id} 200 COMPLETE").into_bytes();
                draft.bytes()
            }
            5 => {
                let event = match self.kind {
                    Kind::Synthesizer => "SPEAK-COMPLETE",
                    Kind::Recognizer => "RECOGNITION-COMPLETE",
                };
                draft.line = format!("{event} {id} COMPLETE").into_bytes();
                draft.bytes()
            }
            6 => {
                super::damage::damage(&mut draft, self.random);
                draft.bytes()
            }
            _ => wire::message(self.random),
        };
        self.send(&bytes);
    }

    fn report(&mut self) {
        let cause = self.cause();
        let score = self.score();
        let mut trial = self.kept;
        let exact = trial.report(cause, number(score), &mut [0; LARGE]).written;
        let most = match self.kind {
            Kind::Synthesizer => ROOM,
            Kind::Recognizer => REPORT_ROOM,
        };
        let room = self.room(exact, most);
        self.reported(cause, room, score);
        // Too little room changes nothing, so the engine's report comes again.
        if room < exact && self.random.chance(50) {
            self.reported(cause, most, score);
        }
    }

    fn reported(&mut self, cause: u32, room: usize, score: Option<u32>) {
        self.batch.report(cause, room, score);
        let output = &mut [0; LARGE][..room.min(LARGE)];
        self.kept.report(cause, number(score), output);
        self.look();
    }

    /// Most of the causes that there are, and some that there are not.
    fn cause(&mut self) -> u32 {
        let (often, causes) = match self.kind {
            Kind::Synthesizer => ([0, 0], 8),
            Kind::Recognizer => ([0, 8], 16),
        };
        match self.random.weighted(&[45, 45, 8, 2]) {
            0 => self.random.pick(&often),
            1 => self.random.below(causes) as u32,
            2 => self
                .random
                .pick(&[8, 9, 15, 16, 17, 31, 255, 256, 257, 65_536]),
            _ => self.random.pick(&[4_294_967_295, 2_147_483_648]),
        }
    }

    /// Bits: above all levels, around the active one's threshold, odd ones, any
    /// at all, or not given. A synthesizer gets one now and then.
    fn score(&mut self) -> Option<u32> {
        if self.kind == Kind::Synthesizer && self.random.chance(85) {
            return None;
        }
        let active = self.channel.queue.outstanding().first();
        let threshold = active.map_or(0, |held| held.threshold.bits());
        Some(match self.random.weighted(&[40, 8, 8, 8, 10, 8, 6, 8]) {
            0 => self.random.pick(&[1.000_001f32, 1.5, 2.0, 1e9]).to_bits(),
            1 => threshold,
            2 => threshold.wrapping_add(1),
            3 => threshold.wrapping_sub(1),
            4 => self.random.pick(&ODD_BITS),
            5 => (self.random.below(1_000_001) as f32 / 1e6).to_bits(),
            6 => self.random.next() as u32,
            _ => return None,
        })
    }

    fn send(&mut self, bytes: &[u8]) {
        let mut output = [0; LARGE];
        let mut trial = self.kept;
        let exact = trial.handle(bytes, &mut output).written;
        let room = self.room(exact, ROOM);
        self.batch.message(room, bytes);
        self.kept.handle(bytes, &mut output[..room.min(LARGE)]);
        // Too little room changes nothing, so the client's message comes again.
        if room < exact && self.random.chance(50) {
            self.batch.message(ROOM, bytes);
            self.kept.handle(bytes, &mut output[..ROOM]);
        }
        self.look();
    }

    /// What the client takes the channel for after a call.
    fn look(&mut self) {
        if let Some(channel) = self.kept.channel() {
            self.channel = channel;
        }
    }

    /// What does for all, large, 0, and exact or one short for what is expected.
    fn room(&mut self, exact: usize, most: usize) -> usize {
        match self.random.weighted(&[60, 10, 3, 12, 8, 4]) {
            0 => most,
            1 => self
                .random
                .pick(&[most - 1, most + 1, 1000, 16_384, 65_536]),
            2 => 0,
            3 => exact,
            4 => exact.saturating_sub(1),
            _ => self.random.below(most + 1),
        }
    }
}

/// The score that the line gives, 0 where it gives none.
fn number(score: Option<u32>) -> f32 {
    f32::from_bits(score.unwrap_or(0))
}
