//! The channel: what is kept of it, when it is sound, and its opening.

use crate::fields::Known;
use crate::level::Level;
use crate::octets::{is, NAME};
use crate::refusal::Refusal;
use crate::settings::{Editions, Setting, Sort, Value};

/// The most that are outstanding on a channel of any kind.
pub const MOST_OUTSTANDING: usize = 16;
/// "1 to 32 ASCII letters or digits, then" the resource.
const LONGEST_FIRST_PART: usize = 32;
pub const LONGEST_NAME: usize = LONGEST_FIRST_PART + Kind::Synthesizer.resource().len();

const SYNTHESIZER_SETTINGS: [Setting; 2] = [
    Setting {
        field: Known::KillOnBargeIn,
        sort: Sort::Flag,
    },
    Setting {
        field: Known::FetchTimeout,
        sort: Sort::Millis,
    },
];
const RECOGNIZER_SETTINGS: [Setting; 3] = [
    Setting {
        field: Known::NoInputTimeout,
        sort: Sort::Millis,
    },
    Setting {
        field: Known::ConfidenceThreshold,
        sort: Sort::Level,
    },
    Setting {
        field: Known::SensitivityLevel,
        sort: Sort::Level,
    },
];

/// Which resource a channel is for; its name tells.
#[derive(Clone, Copy, Debug, PartialEq, Eq)]
pub enum Kind {
    Synthesizer,
    Recognizer,
}

impl Kind {
    /// By how the name ends, whatever stands before; any other name is a synthesizer's.
    pub fn of_name(name: &[u8]) -> Kind {
        if name.ends_with(Kind::Recognizer.resource()) {
            Kind::Recognizer
        } else {
            Kind::Synthesizer
        }
    }

    pub const fn resource(self) -> &'static [u8] {
        match self {
            Kind::Synthesizer => b"@speechsynth",
            Kind::Recognizer => b"@speechrecog",
        }
    }

    /// "Outstanding SPEAKs: at most 16, the active one counted"; on a
    /// recognizer "at most 8 outstanding".
    pub const fn most_outstanding(self) -> usize {
        match self {
            Kind::Synthesizer => MOST_OUTSTANDING,
            Kind::Recognizer => 8,
        }
    }

    /// "Kill-On-Barge-In and Fetch-Timeout for the synthesizer, No-Input-Timeout,
    /// Confidence-Threshold and Sensitivity-Level for the recognizer."
    pub fn settings(self) -> &'static [Setting] {
        match self {
            Kind::Synthesizer => &SYNTHESIZER_SETTINGS,
            Kind::Recognizer => &RECOGNIZER_SETTINGS,
        }
    }

    /// The state in which the engine is at work and may report.
    pub fn at_work(self) -> State {
        match self {
            Kind::Synthesizer => State::Speaking,
            Kind::Recognizer => State::Recognizing,
        }
    }
}

#[derive(Clone, Copy, Debug, PartialEq, Eq)]
pub enum State {
    Idle,
    Speaking,
    Paused,
    Recognizing,
    Recognized,
}

impl State {
    pub const ALL: [State; 5] = [
        State::Idle,
        State::Speaking,
        State::Paused,
        State::Recognizing,
        State::Recognized,
    ];

    pub fn number(self) -> u64 {
        self as u64
    }

    pub fn of_number(number: u64) -> Option<State> {
        State::ALL
            .into_iter()
            .find(|state| state.number() == number)
    }

    pub fn word(self) -> &'static str {
        match self {
            State::Idle => "idle",
            State::Speaking => "speaking",
            State::Paused => "paused",
            State::Recognizing => "recognizing",
            State::Recognized => "recognized",
        }
    }
}

#[derive(Clone, Copy, Debug, PartialEq, Eq)]
pub struct Name {
    bytes: [u8; LONGEST_NAME],
    length: usize,
}

impl Name {
    pub const EMPTY: Name = Name {
        bytes: [0; LONGEST_NAME],
        length: 0,
    };

    /// Any bytes that there is room for, well formed or not.
    pub fn of(bytes: &[u8]) -> Option<Name> {
        let mut name = Name::EMPTY;
        name.bytes.get_mut(..bytes.len())?.copy_from_slice(bytes);
        name.length = bytes.len();
        Some(name)
    }

    pub fn bytes(&self) -> &[u8] {
        &self.bytes[..self.length]
    }
}

/// "1 to 32 ASCII letters or digits, then `@speechsynth`", or `@speechrecog`.
pub fn is_well_formed(name: &[u8]) -> bool {
    match name.strip_suffix(Kind::of_name(name).resource()) {
        None => false,
        Some(first) => {
            (1..=LONGEST_FIRST_PART).contains(&first.len())
                && first.iter().all(|&byte| is(byte, NAME) && byte != b'-')
        }
    }
}

/// One outstanding SPEAK or RECOGNIZE.
#[derive(Clone, Copy, Debug, PartialEq, Eq)]
pub struct Held {
    pub id: u32,
    /// Barge-in asks a SPEAK; a RECOGNIZE is never asked.
    pub killable: bool,
    /// The level that a RECOGNIZE gave, or the setting of that moment.
    pub threshold: Level,
}

impl Held {
    /// What a SPEAK is without Kill-On-Barge-In and a RECOGNIZE without
    /// Confidence-Threshold, where these settings are unset too.
    pub fn by_default(id: u32) -> Held {
        Held {
            id,
            killable: true,
            threshold: Level::ZERO,
        }
    }
}

/// The outstanding requests in order, the active one first.
#[derive(Clone, Copy, Debug, PartialEq, Eq)]
pub struct Queue {
    stored: [Held; MOST_OUTSTANDING],
    count: usize,
}

impl Queue {
    pub const EMPTY: Queue = Queue {
        stored: [Held {
            id: 0,
            killable: false,
            threshold: Level::ZERO,
        }; MOST_OUTSTANDING],
        count: 0,
    };

    pub fn outstanding(&self) -> &[Held] {
        &self.stored[..self.count]
    }

    /// At the end, where less than 16 are outstanding.
    pub fn add(&mut self, held: Held) {
        self.stored[self.count] = held;
        self.count += 1;
    }
}

#[derive(Clone, Copy, Debug, PartialEq, Eq)]
pub struct Channel {
    pub name: Name,
    pub state: State,
    /// The last request-id seen; none on a fresh channel.
    pub last: Option<u32>,
    pub queue: Queue,
    pub editions: Editions,
}

impl Channel {
    /// "A refused opening gives such a channel with an empty name, so not sound."
    pub const UNOPENED: Channel = Channel {
        name: Name::EMPTY,
        state: State::Idle,
        last: None,
        queue: Queue::EMPTY,
        editions: Editions::FRESH,
    };

    /// "An opened channel is idle, with an empty queue and no request seen."
    pub fn open(name: &[u8]) -> (Channel, u32) {
        let kept = Name::of(name).filter(|_| is_well_formed(name));
        match kept {
            None => (Channel::UNOPENED, Refusal::ChannelName.number()),
            Some(name) => {
                let opened = Channel {
                    name,
                    ..Channel::UNOPENED
                };
                (opened, 0)
            }
        }
    }

    pub fn kind(&self) -> Kind {
        Kind::of_name(self.name.bytes())
    }

    /// The value of one of its settings at this moment; None where it is unset,
    /// or a setting of the other kind.
    pub fn setting(&self, wanted: Known) -> Option<Value> {
        let mut settings = self.kind().settings().iter();
        let place = settings.position(|setting| setting.field == wanted)?;
        self.editions.newest().0[place]
    }

    /// "A channel is sound if its name is well formed, it is idle exactly when
    /// nothing is outstanding, at most 16 are, and their ids rise in queue order
    /// with none above the last seen (none seen: idle)." Of a recognizer, "sound
    /// asks for that rule of recognizing and at most 8 outstanding, the rest as in 01".
    /// That there are "one to four editions, and kept settings and thresholds that
    /// reading can give" is seen to where the numbers are read: others are none of these.
    pub fn is_sound(&self) -> bool {
        is_well_formed(self.name.bytes())
            && self.state_fits()
            && self.queue.outstanding().len() <= self.kind().most_outstanding()
            && self.ids_rise()
            && self.none_above_the_last()
    }

    /// A recognizer is "recognizing (exactly while any is outstanding)"; no
    /// kind has a state of the other.
    fn state_fits(&self) -> bool {
        let none = self.queue.outstanding().is_empty();
        match (self.kind(), self.state) {
            (_, State::Idle) => none,
            (Kind::Synthesizer, State::Speaking | State::Paused) => !none,
            (Kind::Recognizer, State::Recognizing) => !none,
            (Kind::Recognizer, State::Recognized) => none,
            _ => false,
        }
    }

    fn ids_rise(&self) -> bool {
        let outstanding = self.queue.outstanding();
        outstanding.windows(2).all(|pair| pair[0].id < pair[1].id)
    }

    fn none_above_the_last(&self) -> bool {
        match self.last {
            None => self.state == State::Idle,
            Some(last) => self.held().all(|id| id <= last),
        }
    }

    /// The ids that the channel holds, in queue order.
    pub fn held(&self) -> impl Iterator<Item = u32> + '_ {
        self.queue.outstanding().iter().map(|held| held.id)
    }
}
