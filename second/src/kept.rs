//! The channel as its caller in C keeps it: 89 numbers, at the places that
//! include/klarvesimo.h gives. Any numbers at all may come in.

use crate::calls::Outcome;
use crate::channel::{Channel, Held, Kind, Name, Queue, State, LONGEST_NAME, MOST_OUTSTANDING};
use crate::level::Level;
use crate::refusal::Refusal;
use crate::settings::{Edition, Editions, Sort, Value, MOST_EDITIONS, MOST_MILLIS, MOST_SETTINGS};

pub const STATE: usize = 0;
pub const LAST: usize = 1;
pub const COUNT: usize = 2;
pub const SIZE: usize = 3;
pub const QUEUE: usize = 4;
/// On a recognizer the second half of the queue's places is for its thresholds.
pub const THRESHOLDS: usize = QUEUE + Kind::Recognizer.most_outstanding();
pub const NAME: usize = QUEUE + MOST_OUTSTANDING;
/// How many editions are kept.
pub const KEPT: usize = NAME + LONGEST_NAME;
pub const EDITIONS: usize = KEPT + 1;
/// Each setting has two numbers.
pub const EDITION_NUMBERS: usize = 2 * MOST_SETTINGS;
pub const NUMBERS: usize = EDITIONS + MOST_EDITIONS * EDITION_NUMBERS;

#[derive(Clone, Copy, Debug, PartialEq, Eq)]
pub struct Kept(pub [u64; NUMBERS]);

/// What is kept of one outstanding request.
#[derive(Clone, Copy, Debug, PartialEq, Eq)]
pub struct Entry {
    /// Twice the id, and 1 more where it is killable, as a RECOGNIZE always is.
    pub number: u64,
    /// The millionths of a recognizer's threshold; 0 on a synthesizer.
    pub threshold: u64,
}

impl Entry {
    pub fn new(id: u64, killable: bool, threshold: u64) -> Entry {
        Entry {
            number: id << 1 | u64::from(killable),
            threshold,
        }
    }

    fn of(held: &Held) -> Entry {
        let threshold = held.threshold.millionths();
        Entry::new(held.id.into(), held.killable, threshold.into())
    }

    /// None where a number is outside its range.
    fn held(self) -> Option<Held> {
        Some(Held {
            id: u32::try_from(self.number >> 1).ok()?,
            killable: self.number & 1 == 1,
            threshold: Level::of_millionths(self.threshold)?,
        })
    }
}

/// The sorts of a setting's value.
pub const UNSET: u64 = 0;
pub const FLAG: u64 = 1;
pub const MILLIS: u64 = 2;
pub const LEVEL: u64 = 3;

/// What is kept of one setting.
#[derive(Clone, Copy, Debug, PartialEq, Eq)]
pub struct Pair {
    pub sort: u64,
    /// 0 or 1, milliseconds, or millionths; where it is unset it is not looked at.
    pub value: u64,
}

impl Pair {
    pub fn new(sort: u64, value: u64) -> Pair {
        Pair { sort, value }
    }

    fn of(value: Option<Value>) -> Pair {
        match value {
            None => Pair::new(UNSET, 0),
            Some(Value::Flag(flag)) => Pair::new(FLAG, flag.into()),
            Some(Value::Millis(millis)) => Pair::new(MILLIS, millis),
            Some(Value::Level(level)) => Pair::new(LEVEL, level.millionths().into()),
        }
    }

    /// The outer None where reading can't give this to a setting of that sort.
    fn setting(self, sort: Sort) -> Option<Option<Value>> {
        match (self.sort, sort) {
            (UNSET, _) => Some(None),
            (FLAG, Sort::Flag) if self.value <= 1 => Some(Some(Value::Flag(self.value == 1))),
            (MILLIS, Sort::Millis) if self.value <= MOST_MILLIS => {
                Some(Some(Value::Millis(self.value)))
            }
            (LEVEL, Sort::Level) => {
                let level = Level::of_millionths(self.value)?;
                Some(Some(Value::Level(level)))
            }
            _ => None,
        }
    }
}

impl Kept {
    /// All numbers are written, 0 past the queue's count, the name's size and
    /// the editions kept.
    pub fn of(channel: &Channel) -> Kept {
        let mut kept = Kept([0; NUMBERS]);
        kept.put_name(channel.name.bytes());
        kept.0[STATE] = channel.state.number();
        kept.0[LAST] = channel.last.map_or(0, |id| u64::from(id) + 1);
        let outstanding = channel.queue.outstanding();
        kept.0[COUNT] = outstanding.len() as u64;
        let most = channel.kind().most_outstanding();
        for (place, held) in outstanding.iter().take(most).enumerate() {
            kept.put_entry(channel.kind(), place, Entry::of(held));
        }
        let editions = channel.editions.kept();
        kept.0[KEPT] = editions.len() as u64;
        for (place, edition) in editions.iter().enumerate() {
            kept.put_edition(place, &edition.0.map(Pair::of));
        }
        kept
    }

    /// The size is that of the name; of its bytes as many as fit are kept.
    pub fn put_name(&mut self, name: &[u8]) {
        self.0[SIZE] = name.len() as u64;
        for (number, byte) in self.0[NAME..KEPT].iter_mut().zip(name) {
            *number = u64::from(*byte);
        }
    }

    pub fn put_entry(&mut self, kind: Kind, place: usize, entry: Entry) {
        self.0[QUEUE + place] = entry.number;
        if kind == Kind::Recognizer {
            self.0[THRESHOLDS + place] = entry.threshold;
        }
    }

    /// One edition, 0 for the settings that are not given.
    pub fn put_edition(&mut self, place: usize, pairs: &[Pair]) {
        let first = EDITIONS + place * EDITION_NUMBERS;
        for (numbers, pair) in self.0[first..].chunks_exact_mut(2).zip(pairs) {
            numbers.copy_from_slice(&[pair.sort, pair.value]);
        }
    }

    /// All the editions and their count, 0 for those that are not given.
    pub fn put_editions(&mut self, editions: &[Vec<Pair>], count: u64) {
        self.0[KEPT..].fill(0);
        self.0[KEPT] = count;
        for (place, pairs) in editions.iter().enumerate() {
            self.put_edition(place, pairs);
        }
    }

    fn entry(&self, kind: Kind, place: usize) -> Entry {
        Entry {
            number: self.0[QUEUE + place],
            threshold: match kind {
                Kind::Synthesizer => 0,
                Kind::Recognizer => self.0[THRESHOLDS + place],
            },
        }
    }

    /// By the name as it is shown.
    pub fn kind(&self) -> Kind {
        Kind::of_name(&self.name_bytes())
    }

    /// The channel that the numbers show, sound or not; none where a number is
    /// outside its range. Those past counts and size are not looked at.
    pub fn channel(&self) -> Option<Channel> {
        let name = self.name()?;
        Some(Channel {
            state: State::of_number(self.0[STATE])?,
            last: match self.0[LAST] {
                0 => None,
                number => Some(u32::try_from(number - 1).ok()?),
            },
            queue: self.queue(Kind::of_name(name.bytes()))?,
            editions: self.editions_kept(Kind::of_name(name.bytes()))?,
            name,
        })
    }

    /// All the numbers, with a space between any two.
    pub fn words(&self) -> String {
        self.0.map(|number| number.to_string()).join(" ")
    }

    /// How many entries are shown: as many as the count says and there are.
    pub fn shown_count(&self) -> usize {
        let most = self.kind().most_outstanding();
        self.0[COUNT].min(most as u64) as usize
    }

    /// The first entries; at most as many as there are places.
    pub fn entries(&self, count: usize) -> Vec<Entry> {
        let kind = self.kind();
        (0..count).map(|place| self.entry(kind, place)).collect()
    }

    /// How many editions are shown: as many as the count says and there are.
    pub fn shown_editions(&self) -> usize {
        self.0[KEPT].min(MOST_EDITIONS as u64) as usize
    }

    /// The first editions; at most as many as there are places.
    pub fn editions(&self, count: usize) -> Vec<Vec<Pair>> {
        let kind = self.kind();
        (0..count).map(|place| self.edition(kind, place)).collect()
    }

    /// A pair for each setting of the kind.
    fn edition(&self, kind: Kind, place: usize) -> Vec<Pair> {
        let settings = 0..kind.settings().len();
        settings.map(|setting| self.pair(place, setting)).collect()
    }

    fn pair(&self, edition: usize, setting: usize) -> Pair {
        let first = EDITIONS + edition * EDITION_NUMBERS + 2 * setting;
        Pair::new(self.0[first], self.0[first + 1])
    }

    /// The name as it is shown: the last eight bits of each number.
    pub fn name_bytes(&self) -> Vec<u8> {
        let numbers = self.name_numbers().iter();
        numbers.map(|&number| number as u8).collect()
    }

    /// The name's numbers, as many as the size says and there are.
    fn name_numbers(&self) -> &[u64] {
        let size = self.0[SIZE].min(LONGEST_NAME as u64) as usize;
        &self.0[NAME..][..size]
    }

    fn queue(&self, kind: Kind) -> Option<Queue> {
        let mut queue = Queue::EMPTY;
        if self.0[COUNT] > kind.most_outstanding() as u64 {
            return None;
        }
        for place in 0..self.0[COUNT] as usize {
            queue.add(self.entry(kind, place).held()?);
        }
        Some(queue)
    }

    fn editions_kept(&self, kind: Kind) -> Option<Editions> {
        if self.0[KEPT] > MOST_EDITIONS as u64 {
            return None;
        }
        let mut editions = [Edition::UNSET; MOST_EDITIONS];
        let editions = &mut editions[..self.0[KEPT] as usize];
        for (place, edition) in editions.iter_mut().enumerate() {
            for (at, setting) in kind.settings().iter().enumerate() {
                edition.0[at] = self.pair(place, at).setting(setting.sort)?;
            }
        }
        Editions::of(editions)
    }

    fn name(&self) -> Option<Name> {
        let mut bytes = [0; LONGEST_NAME];
        if self.0[SIZE] > LONGEST_NAME as u64 {
            return None;
        }
        let numbers = self.name_numbers();
        for (byte, number) in bytes.iter_mut().zip(numbers) {
            *byte = u8::try_from(*number).ok()?;
        }
        Name::of(&bytes[..numbers.len()])
    }

    pub fn is_sound(&self) -> bool {
        self.channel().is_some_and(|channel| channel.is_sound())
    }

    pub fn open(name: &[u8]) -> (Kept, u32) {
        let (channel, number) = Channel::open(name);
        (Kept::of(&channel), number)
    }

    pub fn handle(&mut self, input: &[u8], output: &mut [u8]) -> Outcome {
        self.call(|channel| channel.handle(input, output))
    }

    pub fn report(&mut self, cause: u32, score: f32, output: &mut [u8]) -> Outcome {
        self.call(|channel| channel.report(cause, score, output))
    }

    pub fn back(&mut self, number: u32) -> Outcome {
        self.call(|channel| channel.back(number))
    }

    /// 21 before all; a refused call leaves every number as it was.
    fn call(&mut self, act: impl FnOnce(&mut Channel) -> Outcome) -> Outcome {
        let Some(mut channel) = self.channel() else {
            return Outcome::refused(Refusal::NotSound, 0);
        };
        let outcome = act(&mut channel);
        if outcome.number == 0 {
            *self = Kept::of(&channel);
        }
        outcome
    }

    /// The ids that a sound channel holds, in queue order.
    pub fn held(&self) -> Option<Vec<u32>> {
        let sound = self.channel().filter(Channel::is_sound)?;
        Some(sound.held().collect())
    }
}
