//! Making scripts: sound, damaged and unsound inputs.
//!
//! A script depends on seed and kind alone. Commands come in batches, since
//! a sweep over all places of one message or a conversation belongs together.

mod batch;
mod conversation;
mod damage;
mod draft;
mod editions;
mod examples;
mod folds;
mod random;
mod request;
mod unsound;
mod whose;
mod wire;
mod write;

use std::io::{self, Write};

use crate::channel::Kind as Resource;
use batch::Batch;
use random::Random;

#[derive(Clone, Copy, Debug, PartialEq, Eq)]
pub enum Kind {
    Frame,
    Read,
    /// Calls on synthesizers.
    Calls,
    /// Calls on recognizers.
    Recog,
    /// Fields that go on in further lines, on both and read alone.
    Folds,
    /// The request-id from the start line alone.
    Whose,
    /// Settings and their editions, on both.
    Settings,
    Write,
    All,
}

impl Kind {
    pub fn of_word(word: &str) -> Option<Kind> {
        match word {
            "frame" => Some(Kind::Frame),
            "read" => Some(Kind::Read),
            "calls" => Some(Kind::Calls),
            "recog" => Some(Kind::Recog),
            "folds" => Some(Kind::Folds),
            "whose" => Some(Kind::Whose),
            "settings" => Some(Kind::Settings),
            "write" => Some(Kind::Write),
            "all" => Some(Kind::All),
            _ => None,
        }
    }
}

/// Writes a script with `count` calls.
pub fn script(seed: u64, count: u64, kind: Kind, out: &mut dyn Write) -> io::Result<()> {
    let mut random = Random::new(seed);
    let mut batch = Batch::default();
    let mut left = count;
    for turn in 0.. {
        if left == 0 {
            break;
        }
        batch.clear();
        fill(&mut batch, &mut random, kind, turn);
        left -= batch.write(left, out)?;
    }
    Ok(())
}

fn fill(batch: &mut Batch, random: &mut Random, kind: Kind, turn: usize) {
    match kind {
        Kind::Frame => wire::frames(batch, random),
        Kind::Read => wire::reads(batch, random),
        Kind::Calls => conversation::calls(batch, random, Resource::Synthesizer),
        Kind::Recog => conversation::calls(batch, random, Resource::Recognizer),
        Kind::Folds => folds::calls(batch, random),
        Kind::Whose => whose::calls(batch, random),
        Kind::Settings => conversation::settings::calls(batch, random),
        Kind::Write => write::writes(batch, random, turn),
        Kind::All => mixture(batch, random),
    }
}

/// Some of each kind; a conversation is long, so it is drawn less often.
fn mixture(batch: &mut Batch, random: &mut Random) {
    match random.below(15) {
        0 | 1 => (0..30).for_each(|_| wire::frames(batch, random)),
        2..=4 => (0..30).for_each(|_| wire::reads(batch, random)),
        5 | 6 => conversation::calls(batch, random, Resource::Recognizer),
        7 | 8 => (0..10).for_each(|_| folds::calls(batch, random)),
        9 => (0..20).for_each(|_| whose::calls(batch, random)),
        10 | 11 => (0..4).for_each(|_| conversation::settings::calls(batch, random)),
        _ => conversation::calls(batch, random, Resource::Synthesizer),
    }
}
