//! Names for opening, and channels as a script may hand them in.

use super::random::Random;
use crate::channel::{Channel, Held, Kind, Name, State, LONGEST_NAME};
use crate::kept::{self, Kept};
use crate::level::Level;
use crate::script::level_number;

const ALNUM: &[u8] = b"0123456789ABCDEFGHIJKLMNOPQRSTUVWXYZabcdefghijklmnopqrstuvwxyz";

fn letters(random: &mut Random, length: usize) -> Vec<u8> {
    random.letters(ALNUM, length)
}

pub fn good_name(random: &mut Random, kind: Kind) -> Vec<u8> {
    let length = random.pick(&[1, 2, 4, 4, 8, 14, 31, 32, 32]);
    [&letters(random, length)[..], kind.resource()].concat()
}

const BAD_NAMES: [&[u8]; 26] = [
    b"",
    b"@speechsynth",
    b"@speechrecog",
    b"7f3a",
    b"7f3a@",
    b"7f3a@speechreco",
    b"7f3a@speechrecogx",
    b"7f3a@speechRecog",
    b"7f3aspeechrecog",
    b"7f_3a@speechrecog",
    b"7f 3a@speechrecog",
    b"a@speechrecog@speechsynth",
    b"a@speechsynth@speechrecog",
    b"speechrecog",
    b"7f3a@speechsynt",
    b"7f3a@speechsynthx",
    b"7f3a@SPEECHSYNTH",
    b"7f3a@speechsynth ",
    b" 7f3a@speechsynth",
    b"7f-3a@speechsynth",
    b"7f_3a@speechsynth",
    b"7f\xe93a@speechsynth",
    b"7f@3a@speechsynth",
    b"speechsynth",
    b"7f3a@speechsynth\0",
    b"a@speechsynth@speechsynth",
];

pub fn bad_name(random: &mut Random, kind: Kind) -> Vec<u8> {
    match random.below(6) {
        0 => [&letters(random, 33)[..], kind.resource()].concat(),
        1 => {
            let mut name = good_name(random, kind);
            let place = random.below(name.len());
            name[place] = random.pick(b"-@ .\0\x7f\x80_S");
            name
        }
        2 => {
            let length = random.below(60);
            random.bytes(length)
        }
        _ => random.pick(&BAD_NAMES).to_vec(),
    }
}

/// A channel as a script sets it.
pub struct Given {
    pub kept: Kept,
    /// The name that its line gives, of which not all bytes need be kept.
    pub name: Vec<u8>,
    /// How many queue entries its line lists.
    pub entries: usize,
    /// How many editions a `settings` line lists; none where they are fresh.
    pub editions: Option<usize>,
}

impl Given {
    pub fn of(kept: Kept) -> Given {
        Given {
            kept,
            name: kept.name_bytes(),
            entries: kept.shown_count(),
            editions: None,
        }
    }
}

/// A sound channel in any state of its kind.
pub fn sound(random: &mut Random, kind: Kind) -> Channel {
    let (mut channel, _) = Channel::open(&good_name(random, kind));
    let most = kind.most_outstanding();
    let count = match random.below(4) {
        0 => 0,
        1 => random.pick(&[1, 1, 2, 3, most - 1]),
        2 => most,
        _ => random.between(1, most),
    };
    let first = random.pick(&[0, 1, 7, 96, 543_256, 999_999_990, 4_294_967_290]);
    for id in rising(random, first, count) {
        let held = held(random, kind, id);
        channel.queue.add(held);
        channel.last = Some(id.saturating_add(random.pick(&[0, 0, 0, 1, 10])));
    }
    if count == 0 && random.chance(60) {
        channel.last = Some(random.pick(&[0, 5, 543_256, u32::MAX - 1, u32::MAX]));
    }
    channel.state = match (kind, count) {
        (Kind::Synthesizer, 1..) => random.pick(&[State::Speaking, State::Paused]),
        (Kind::Recognizer, 1..) => State::Recognizing,
        (Kind::Recognizer, 0) if channel.last.is_some() => {
            random.pick(&[State::Idle, State::Recognized])
        }
        _ => State::Idle,
    };
    channel
}

/// Eight of ten digits on the longest name: a report here can need 1,250 bytes.
pub fn longest(random: &mut Random) -> Channel {
    let kind = Kind::Recognizer;
    let (mut channel, _) = Channel::open(&[&letters(random, 32)[..], kind.resource()].concat());
    let first = random.pick(&[1_000_000_000, 4_294_967_290]);
    for id in rising(random, first, kind.most_outstanding()) {
        let held = held(random, kind, id);
        channel.queue.add(held);
        channel.last = Some(id);
    }
    channel.state = State::Recognizing;
    channel
}

fn held(random: &mut Random, kind: Kind, id: u32) -> Held {
    match kind {
        Kind::Synthesizer => Held {
            killable: random.chance(60),
            ..Held::by_default(id)
        },
        Kind::Recognizer => Held {
            threshold: level(random),
            ..Held::by_default(id)
        },
    }
}

/// Any level, the lowest and the highest ones more often.
pub fn level(random: &mut Random) -> Level {
    let any = random.below(1_000_001);
    let millionths = random.pick(&[0, 1, 500_000, 999_999, 1_000_000, any, any, any, any]);
    Level::of_millionths(millionths as u64).unwrap_or_default()
}

/// Zeros, the smallest, around 1, the largest, infinities, and no numbers.
pub const ODD_BITS: [u32; 14] = [
    0x0000_0000,
    0x8000_0000,
    0x0000_0001,
    0x8000_0001,
    0x3f7f_ffff,
    0x3f80_0000,
    0x3f80_0001,
    0xbf80_0000,
    0x7f7f_ffff,
    0x7f80_0000,
    0xff80_0000,
    0x7f80_0001,
    0x7fc0_0000,
    0xffff_ffff,
];

/// Ids that rise from the first on, some up to the end of their range.
fn rising(random: &mut Random, first: u64, count: usize) -> Vec<u32> {
    let mut id = first;
    let mut ids: Vec<u64> = Vec::new();
    for _ in 0..count {
        ids.push(id);
        id += random.pick(&[1, 1, 1, 2, 5]);
    }
    let beyond = ids
        .last()
        .map_or(0, |&last| last.saturating_sub(u32::MAX.into()));
    ids.iter().map(|id| (id - beyond) as u32).collect()
}

/// As the channel is, or with numbers past count and size that say nothing.
pub fn given(random: &mut Random, channel: &Channel) -> Given {
    let mut given = Given::of(Kept::of(channel));
    if random.chance(50) {
        return given;
    }
    let (kind, count, size) = (channel.kind(), given.entries, given.name.len());
    let numbers = &mut given.kept.0;
    // On a recognizer there are two halves, each used up to the count.
    for half in numbers[kept::QUEUE..kept::NAME].chunks_mut(kind.most_outstanding()) {
        for number in &mut half[count..] {
            *number = random.next() >> random.pick(&[0, 30, 31]);
        }
    }
    for number in &mut numbers[kept::NAME + size..kept::KEPT] {
        if random.chance(10) {
            *number = random.next() >> random.pick(&[0, 31, 56]);
        }
    }
    if kind == Kind::Recognizer && random.chance(30) {
        // A RECOGNIZE is never asked whether it is killable.
        (0..count).for_each(|place| numbers[kept::QUEUE + place] ^= random.next() & 1);
    }
    given.entries = random.between(count, kind.most_outstanding());
    given
}

/// A sound channel with something of it broken, if it has that.
pub fn broken(random: &mut Random, channel: &Channel) -> Given {
    let mut kept = Kept::of(channel);
    let most = channel.kind().most_outstanding();
    match random.below(15) {
        0 => kept = broken_name(random, channel),
        1 => kept.0[kept::STATE] = other_state(random, channel).number(),
        2 => kept.0[kept::STATE] = above(random, 4, kept.0[kept::STATE]),
        3 => kept.0[kept::COUNT] = above(random, most, kept.0[kept::COUNT]),
        // It brings in entries that were not given, or hides some.
        4 => kept.0[kept::COUNT] = random.between(0, most) as u64,
        5 => break_rising(random, &mut kept),
        6 => break_last(random, &mut kept),
        7 => kept.0[kept::LAST] = above(random, 1 << 32, kept.0[kept::LAST]),
        8 => none_seen(random, &mut kept),
        9 => break_number(random, &mut kept, kept::QUEUE, (1 << 33) - 1),
        10 => break_number(random, &mut kept, kept::NAME, 255),
        11 if channel.kind() == Kind::Recognizer => break_threshold(random, &mut kept),
        12 => other_kind(random, &mut kept),
        11 | 13 => kept.0[kept::SIZE] = broken_size(random, kept.0[kept::SIZE]),
        _ => return long_name(random, kept),
    }
    Given::of(kept)
}

/// One of the thresholds in use is one that no reading gives.
pub fn break_threshold(random: &mut Random, kept: &mut Kept) {
    let used = kept.shown_count();
    if used > 0 {
        let place = kept::THRESHOLDS + random.below(used);
        kept.0[place] = no_level(random, kept.0[place]);
    }
}

/// Above one million, or bits that no level has: of other numbers, and next to a level's own.
pub fn no_level(random: &mut Random, right: u64) -> u64 {
    let bits = level(random).bits();
    let wrong = match random.below(5) {
        0 | 1 => return above(random, 1_000_000, right),
        2 => random.pick(&ODD_BITS),
        3 => random.pick(&[bits.wrapping_add(1), bits.wrapping_sub(1), bits | 1 << 31]),
        _ => random.next() as u32,
    };
    // A few of them are a level's after all.
    level_number(wrong)
}

/// Above `most`: next to it, far off, or such that it looks right when cut to fewer bits.
pub fn above(random: &mut Random, most: usize, right: u64) -> u64 {
    let most = most as u64;
    let bits = [8, 16, 32, 33, 63].map(|bits| right + (1 << bits));
    match random.weighted(&[2, 1, 1, 4]) {
        0 => most + 1 + random.below(3) as u64,
        1 => u64::MAX - random.below(2) as u64,
        2 => (random.next() >> random.below(56)).max(most + 1),
        _ => random.pick(&bits).max(most + 1),
    }
}

fn broken_name(random: &mut Random, channel: &Channel) -> Kept {
    let mut name = bad_name(random, channel.kind());
    name.truncate(LONGEST_NAME);
    let name = Name::of(&name).unwrap_or(Name::EMPTY);
    Kept::of(&Channel { name, ..*channel })
}

/// A name that is longer than there is room for; what is kept of it may look well formed.
fn long_name(random: &mut Random, mut kept: Kept) -> Given {
    let (first, more) = (random.pick(&[32, 32, 33, 60]), random.between(1, 20));
    let name = [
        &letters(random, first)[..],
        kept.kind().resource(),
        &letters(random, more)[..],
    ]
    .concat();
    kept.put_name(&name);
    Given {
        name,
        ..Given::of(kept)
    }
}

fn broken_size(random: &mut Random, size: u64) -> u64 {
    match random.weighted(&[1, 1, 3]) {
        0 => random.below(size as usize) as u64,
        1 => size + 1 + random.below(30) as u64,
        _ => above(random, LONGEST_NAME, size),
    }
}

/// One of the numbers in use from `first` on is above `most`.
fn break_number(random: &mut Random, kept: &mut Kept, first: usize, most: usize) {
    let used = match first {
        kept::NAME => kept.name_bytes().len(),
        _ => kept.shown_count(),
    };
    if used > 0 {
        let any = random.below(used);
        let place = first + random.pick(&[0, used - 1, any]);
        kept.0[place] = above(random, most, kept.0[place]);
    }
}

/// A state with which the channel is not sound.
fn other_state(random: &mut Random, channel: &Channel) -> State {
    let others = State::ALL.into_iter().filter(|&state| {
        let other = Channel { state, ..*channel };
        !other.is_sound()
    });
    random.pick(&others.collect::<Vec<State>>())
}

/// The same numbers under a name of the other kind, whose states and places are others.
fn other_kind(random: &mut Random, kept: &mut Kept) {
    let kind = match kept.kind() {
        Kind::Synthesizer => Kind::Recognizer,
        Kind::Recognizer => Kind::Synthesizer,
    };
    kept.put_name(&[&letters(random, 4)[..], kind.resource()].concat());
}

fn break_rising(random: &mut Random, kept: &mut Kept) {
    let count = kept.shown_count();
    if count < 2 {
        return;
    }
    let place = kept::QUEUE + random.between(1, count - 1);
    if random.chance(50) {
        // The same id again, killable or not.
        kept.0[place] = kept.0[place - 1] ^ random.below(2) as u64;
    } else {
        kept.0.swap(place - 1, place);
    }
}

/// The last seen is below the last, or below all, of the queue.
fn break_last(random: &mut Random, kept: &mut Kept) {
    let queue = kept.entries(kept.shown_count());
    if let (Some(first), Some(last)) = (queue.first(), queue.last()) {
        // An id is kept with 1 more, so this is the id before.
        kept.0[kept::LAST] = random.pick(&[first.number >> 1, last.number >> 1]);
    }
}

fn none_seen(random: &mut Random, kept: &mut Kept) {
    kept.0[kept::LAST] = 0;
    if random.chance(50) {
        kept.0[kept::STATE] = random.pick(&[1, 2, 3, 4]);
        kept.0[kept::COUNT] = random.pick(&[0, kept.0[kept::COUNT]]);
    }
}
