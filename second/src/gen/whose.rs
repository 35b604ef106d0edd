//! Inputs for the question whose request it is: start lines, cut and bent.

use super::batch::Batch;
use super::damage::{damage_bytes, start_line, version};
use super::draft::{sample, Draft, Length};
use super::random::Random;
use super::wire::{changed_everywhere, noise, opening};

/// As many bytes as are looked at.
const LOOKED_AT: usize = 128;

/// One or more `whose` commands.
pub fn calls(batch: &mut Batch, random: &mut Random) {
    let bytes = match random.weighted(&[200, 100, 120, 160, 160, 60, 60, 140, 60, 10, 6, 4]) {
        0 => message(random).bytes(),
        1 => beginning(random),
        2 => around_128(random),
        3 => around_the_stated_length(random),
        4 => stated_lengths(random),
        5 => below_the_opening(random),
        6 => wrong_opening(random),
        7 => malformed(random),
        8 => without_line_end(random),
        9 => noise(random),
        10 => return every_cut(batch, &message(random).bytes()),
        _ => {
            let bytes = beginning(random);
            return changed_everywhere(&bytes, random, |bytes| batch.whose(bytes));
        }
    };
    batch.whose(&bytes);
    // Reading alone gives the same id once all is there.
    if random.chance(15) {
        batch.read(&bytes);
    }
}

/// Cut somewhere in its first bytes.
fn cut(random: &mut Random, mut bytes: Vec<u8>, most: usize) -> Vec<u8> {
    bytes.truncate(random.below(most.min(bytes.len()) + 1));
    bytes
}

/// The first bytes of a message, which hold its start line or not.
fn beginning(random: &mut Random) -> Vec<u8> {
    let bytes = message(random).bytes();
    cut(random, bytes, 60)
}

/// A message of any kind and version, with its fields or without.
fn message(random: &mut Random) -> Draft {
    let mut draft = sample(random);
    if random.chance(20) {
        let (major, minor) = (random.below(100), random.below(100));
        draft.version = format!("{major}.{minor}").into_bytes();
    }
    if random.chance(30) {
        line_alone(&mut draft);
    }
    if random.chance(10) {
        draft.length = Length::Right(random.below(18));
    }
    draft
}

/// Nothing behind the start line's CRLF.
fn line_alone(draft: &mut Draft) {
    draft.fields.clear();
    draft.end.clear();
    draft.body.clear();
}

/// From no byte on to some bytes behind what is looked at.
fn every_cut(batch: &mut Batch, bytes: &[u8]) {
    let most = bytes.len().min(LOOKED_AT + 8);
    (0..=most).for_each(|end| batch.whose(&bytes[..end]));
}

/// A line whose CRLF ends around byte 128, and at times the stated length too,
/// lent whole or cut there. No line that is well formed is as long.
fn around_128(random: &mut Random) -> Vec<u8> {
    let mut draft = message(random);
    draft.length = match random.chance(50) {
        true => length(random),
        false => {
            let stated = random.between(LOOKED_AT - 4, LOOKED_AT + 4);
            Length::Written(stated.to_string().into_bytes())
        }
    };
    let end = random.between(LOOKED_AT - 3, LOOKED_AT + 3);
    let own = draft.bytes().len() - draft.rest().len() + draft.line.len() + 2;
    let padding = random.pick(b" A9-\rx");
    let more = end.saturating_sub(own);
    draft.line.extend(vec![padding; more]);
    let mut bytes = draft.bytes();
    if random.chance(60) {
        bytes.truncate(random.between(LOOKED_AT - 4, LOOKED_AT + 4));
    }
    bytes
}

/// The stated length ends around the CRLF; what is lent ends there, or sooner, or later.
fn around_the_stated_length(random: &mut Random) -> Vec<u8> {
    let mut draft = message(random);
    line_alone(&mut draft);
    draft.length = match random.chance(20) {
        true => Length::Right(random.below(18)),
        false => Length::Off(random.between(0, 8) as i64 - 4),
    };
    if random.chance(20) {
        start_line(&mut draft, random);
    }
    let behind = random.below(8);
    draft.after = random.letters(b"\r\n x", behind);
    let mut bytes = draft.bytes();
    if random.chance(50) {
        bytes.truncate(bytes.len() - random.below(behind + 5));
    }
    bytes
}

/// Stated lengths of every size in front of a start line.
fn stated_lengths(random: &mut Random) -> Vec<u8> {
    let mut draft = message(random);
    if random.chance(70) {
        line_alone(&mut draft);
    }
    draft.length = length(random);
    let bytes = draft.bytes();
    match random.chance(30) {
        true => cut(random, bytes, 200),
        false => bytes,
    }
}

/// 1 to 20 digits, around 16,384 and 65,536, and numbers that look small when cut to fewer bits.
fn length(random: &mut Random) -> Length {
    let small = random.below(80) as u64;
    let bits = random.pick(&[8, 16, 16, 31, 32, 32, 63]);
    let digits = match random.below(6) {
        0 => {
            let count = random.between(1, 20);
            return Length::Written(random.letters(b"0123456789", count));
        }
        1 => format!("{:0width$}", small + 10, width = random.between(1, 20)),
        2 => random
            .pick(&["16383", "16384", "16385", "65535", "65536", "65537"])
            .to_string(),
        3 => random
            .pick(&["9999999999999999999", "4294967295", "10000000000000000000"])
            .to_string(),
        _ => ((1u64 << bits) + small).to_string(),
    };
    Length::Written(digits.into_bytes())
}

/// Stated lengths around what the opening itself has, in front of good lines and bad ones.
fn below_the_opening(random: &mut Random) -> Vec<u8> {
    let mut draft = message(random);
    if random.chance(30) {
        start_line(&mut draft, random);
    }
    let zeros = random.below(17) * random.below(2);
    let own = draft.version.len() + b"MRCP/  00".len() + zeros;
    let stated = match random.chance(70) {
        true => (own + random.below(5)).saturating_sub(2),
        false => random.below(own),
    };
    let width = zeros + 2;
    draft.length = Length::Written(format!("{stated:0width$}").into_bytes());
    let bytes = draft.bytes();
    match random.chance(20) {
        true => cut(random, bytes, 40),
        false => bytes,
    }
}

fn wrong_opening(random: &mut Random) -> Vec<u8> {
    match random.below(3) {
        0 => {
            let mut bytes = opening(random);
            damage_bytes(&mut bytes, random);
            bytes
        }
        1 => {
            let mut draft = message(random);
            version(&mut draft, random);
            draft.bytes()
        }
        _ => [opening(random), message(random).rest()].concat(),
    }
}

/// A malformed start line, whole or still without its CRLF.
fn malformed(random: &mut Random) -> Vec<u8> {
    let mut draft = message(random);
    start_line(&mut draft, random);
    if random.chance(30) {
        draft.length = length(random);
    }
    let bytes = draft.bytes();
    match random.chance(30) {
        true => cut(random, bytes, 60),
        false => bytes,
    }
}

/// No CRLF as far as is looked: some bytes less than 128 or than stated, and some more.
fn without_line_end(random: &mut Random) -> Vec<u8> {
    let mut draft = message(random);
    line_alone(&mut draft);
    draft.line_end.clear();
    let more = random.pick(&[0, 0, 20, LOOKED_AT, 2 * LOOKED_AT]);
    let padding = random.pick(b"A 9\rx\n");
    draft.line.extend(vec![padding; more]);
    draft.length = match random.chance(30) {
        true => length(random),
        false => Length::Off(random.between(0, 4) as i64 - 2),
    };
    let mut bytes = draft.bytes();
    if bytes.len() > LOOKED_AT && random.chance(60) {
        bytes.truncate(random.between(LOOKED_AT - 2, LOOKED_AT + 2));
    }
    bytes
}
