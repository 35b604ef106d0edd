//! Inputs for framing and for reading alone.

use super::batch::Batch;
use super::damage::{damage, damage_bytes, other_byte, stated_length, version};
use super::draft::{sample, Draft, Length};
use super::folds::fold_draft;
use super::random::Random;

/// One or more `frame` commands.
pub fn frames(batch: &mut Batch, random: &mut Random) {
    match random.weighted(&[30, 250, 250, 100, 200, 40, 6, 6, 3]) {
        0 => batch.frame(&noise(random)),
        1 => {
            let mut bytes = opening(random);
            bytes.truncate(random.below(bytes.len() + 1));
            batch.frame(&bytes);
        }
        2 => batch.frame(&opening_and_more(random)),
        3 => {
            let mut bytes = opening(random);
            damage_bytes(&mut bytes, random);
            batch.frame(&bytes);
        }
        4 => batch.frame(&message(random)),
        5 => batch.frame(&sample_cut(random)),
        6 => {
            let bytes = opening(random);
            (0..=bytes.len()).for_each(|end| batch.frame(&bytes[..end]));
        }
        7 => changed_everywhere(&opening_and_more(random), random, |bytes| {
            batch.frame(bytes);
        }),
        _ => batch.frame(&long_message(random)),
    }
}

/// One or more `read` commands.
pub fn reads(batch: &mut Batch, random: &mut Random) {
    match random.weighted(&[20, 900, 60, 40, 4, 2, 2, 8, 300]) {
        0 => batch.read(&noise(random)),
        1 => batch.read(&message(random)),
        2 => batch.read(&sample_cut(random)),
        3 => batch.read(&opening_and_more(random)),
        4 => changed_everywhere(&sample(random).bytes(), random, |bytes| batch.read(bytes)),
        5 => {
            let bytes = sample(random).bytes();
            (0..=bytes.len()).for_each(|end| batch.read(&bytes[..end]));
        }
        6 => every_value_byte(batch, random),
        7 => batch.read(&long_message(random)),
        _ => {
            let draft = sample(random);
            let mut rest = draft.rest();
            damage_bytes(&mut rest, random);
            batch.read(&draft.framed(&rest));
        }
    }
}

/// Any bytes, or bytes that are likely to stand in an opening.
pub fn noise(random: &mut Random) -> Vec<u8> {
    let length = random.below(40);
    match random.below(2) {
        0 => random.bytes(length),
        _ => random.letters(b"MRCP/2.0 19\r\n", length),
    }
}

/// A sound or damaged message, with more bytes behind it at times.
pub fn message(random: &mut Random) -> Vec<u8> {
    let mut draft = sample(random);
    if random.chance(8) {
        fold_draft(&mut draft, random);
    }
    for _ in 0..random.weighted(&[35, 45, 15, 5]) {
        damage(&mut draft, random);
    }
    let mut bytes = match random.chance(15) {
        true => {
            let mut rest = draft.rest();
            damage_bytes(&mut rest, random);
            draft.framed(&rest)
        }
        false => draft.bytes(),
    };
    match random.below(20) {
        0 | 1 => damage_bytes(&mut bytes, random),
        2 => bytes.extend(noise(random)),
        3 => bytes.extend(sample(random).bytes()),
        _ => {}
    }
    bytes
}

fn sample_cut(random: &mut Random) -> Vec<u8> {
    let mut bytes = sample(random).bytes();
    bytes.truncate(random.below(bytes.len() + 1));
    bytes
}

/// An opening alone: as stated lengths and versions go, with its last space.
pub fn opening(random: &mut Random) -> Vec<u8> {
    let mut draft = Draft::new(Vec::new());
    draft.line_end.clear();
    draft.end.clear();
    match random.below(4) {
        0 => version(&mut draft, random),
        1 => {
            let (major, minor) = (random.below(100), random.below(100));
            draft.version = format!("{major}.{minor}").into_bytes();
        }
        _ => {}
    }
    match random.below(4) {
        0 => stated_length(&mut draft, random),
        1 => {
            let length = random.between(1, 20);
            draft.length = Length::Written(random.letters(b"0000123456789", length));
        }
        2 => draft.length = Length::Written(random.below(40).to_string().into_bytes()),
        _ => draft.length = Length::Off(random.between(0, 6) as i64 - 3),
    }
    draft.after.clear();
    draft.bytes()
}

/// An opening with bytes behind it, around as many as it states.
fn opening_and_more(random: &mut Random) -> Vec<u8> {
    let mut bytes = opening(random);
    let length = random.below(30);
    bytes.extend(random.letters(b"\r\n STOP 9:x", length));
    bytes
}

/// A message of around 16,384 bytes, or of some thousand.
fn long_message(random: &mut Random) -> Vec<u8> {
    let mut draft = sample(random);
    draft.remove(b"Content-Length");
    let total = match random.chance(50) {
        true => random.between(16_381, 16_387),
        false => random.between(300, 16_000),
    };
    draft.body.clear();
    // The field line with five digits, and as much body as makes the total right.
    let used = draft.bytes().len() + b"Content-Length:00000\r\n".len() + 3;
    let length = total.saturating_sub(used);
    draft.field(b"Content-Length", format!("{length:05}").as_bytes());
    draft.body = vec![b'b'; length];
    if random.chance(30) {
        damage(&mut draft, random);
    }
    draft.bytes()
}

/// One byte changed at every place of a message, one place after the other.
pub fn changed_everywhere(bytes: &[u8], random: &mut Random, mut put: impl FnMut(&[u8])) {
    let mut changed = bytes.to_vec();
    for place in 0..changed.len() {
        let byte = changed[place];
        changed[place] = other_byte(byte, random);
        put(&changed);
        changed[place] = byte;
    }
}

/// Every byte 0 to 255 in one place of a value.
fn every_value_byte(batch: &mut Batch, random: &mut Random) {
    let (before, after) = (random.below(2), random.below(2));
    for byte in 0..=255 {
        let mut draft = Draft::new(b"STOP 9".to_vec());
        let value = [vec![b'x'; before], vec![byte], vec![b'y'; after]].concat();
        draft.field(b"V", &value);
        batch.read(&draft.bytes());
    }
}
