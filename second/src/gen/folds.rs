//! Folds: fields that go on in lines that begin with a blank, and what looks like that.

use super::batch::Batch;
use super::conversation;
use super::damage::{damage_bytes, field_count, repeated_field, set_content_length, CONTINUED};
use super::draft::{field_name, sample, Draft, SOME_FIELDS};
use super::examples;
use super::random::Random;
use crate::channel::Kind;

const BEFORE: [&[u8]; 6] = [b"", b"", b"", b" ", b"\t", b" \t "];
const BEHIND: [&[u8]; 5] = [b" ", b" ", b"\t", b"  ", b"\t \t"];

/// Reads, sweeps and conversations in which most messages have folds.
pub fn calls(batch: &mut Batch, random: &mut Random) {
    match random.weighted(&[2400, 300, 12, 30, 150, 60, 60]) {
        0 => batch.read(&message(random)),
        1 => batch.read(&examples::read(random, fold_draft)),
        2 => every_place(batch, random),
        3 => examples::conversation(batch, random, at_ends),
        4 => many_fields(batch, random),
        5 => conversation::folded(batch, random, Kind::Synthesizer),
        _ => conversation::folded(batch, random, Kind::Recognizer),
    }
}

/// A message of any kind with folds, damaged at times.
fn message(random: &mut Random) -> Vec<u8> {
    let mut draft = sample(random);
    if random.chance(10) {
        repeated_field(&mut draft, random);
    }
    fold_draft(&mut draft, random);
    if random.chance(85) {
        return draft.bytes();
    }
    let mut rest = draft.rest();
    damage_bytes(&mut rest, random);
    draft.framed(&rest)
}

/// The same fold at every place behind the opening, one after the other.
fn every_place(batch: &mut Batch, random: &mut Random) {
    let draft = match random.chance(50) {
        true => sample(random),
        false => examples::draft(random),
    };
    let fold = fold(random);
    let mut rest = draft.rest();
    // Not through all of a long body.
    let places = rest.len() - draft.body.len().saturating_sub(3);
    for place in 0..=places {
        rest.splice(place..place, fold.iter().copied());
        batch.read(&draft.framed(&rest));
        rest.drain(place..place + fold.len());
    }
}

/// Around 32 fields, in more lines than that.
fn many_fields(batch: &mut Batch, random: &mut Random) {
    let mut draft = sample(random);
    field_count(&mut draft, random);
    at_ends(&mut draft, random);
    batch.read(&draft.bytes());
}

/// A CRLF with blanks around it; several in a row have lines of blanks alone between them.
pub fn fold(random: &mut Random) -> Vec<u8> {
    let mut fold = Vec::new();
    for _ in 0..=random.weighted(&[75, 15, 10]) {
        fold.extend_from_slice(random.pick(&BEFORE));
        fold.extend_from_slice(b"\r\n");
        fold.extend_from_slice(random.pick(&BEHIND));
    }
    fold
}

/// Folds in one way, or in two.
pub fn fold_draft(draft: &mut Draft, random: &mut Random) {
    one_way(draft, random);
    if random.chance(20) {
        one_way(draft, random);
    }
}

fn one_way(draft: &mut Draft, random: &mut Random) {
    match random.weighted(&[42, 16, 4, 5, 8, 6, 6, 3, 6, 3, 2]) {
        0 => at_ends(draft, random),
        1 => inside(draft, random),
        2 => further_field(draft, random),
        3 => in_a_name(draft, random),
        4 => like_a_field(draft, random),
        5 => empty_line(draft, random),
        6 => bare_byte(draft, random),
        7 => before_any_field(draft, random),
        8 => body_with_a_blank(draft, random),
        9 => unended(draft, random),
        _ => {
            field_count(draft, random);
            at_ends(draft, random);
        }
    }
}

/// Where the value of a field line begins and ends, blanks off its ends; none where
/// the line has no colon.
fn value_of(field: &[u8]) -> Option<(usize, usize)> {
    let begin = field_name(field).len() + 1;
    let value = field.get(begin..)?;
    let is_text = |byte: &u8| !b" \t\r\n".contains(byte);
    match (
        value.iter().position(is_text),
        value.iter().rposition(is_text),
    ) {
        (Some(first), Some(last)) => Some((begin + first, begin + last + 1)),
        _ => Some((begin, begin)),
    }
}

fn insert(field: &mut Vec<u8>, place: usize, bytes: &[u8]) {
    field.splice(place..place, bytes.iter().copied());
}

/// One of the field lines that have a value, and where that begins and ends.
fn any_value<'a>(
    draft: &'a mut Draft,
    random: &mut Random,
) -> Option<(&'a mut Vec<u8>, usize, usize)> {
    let place = random.below(draft.fields.len());
    let field = draft.fields.get_mut(place)?;
    let (begin, end) = value_of(field)?;
    Some((field, begin, end))
}

/// At the ends of one value, or of several: no answer changes.
pub fn at_ends(draft: &mut Draft, random: &mut Random) {
    let one = random.below(draft.fields.len());
    let share = random.pick(&[0, 0, 40, 100]);
    for (place, field) in draft.fields.iter_mut().enumerate() {
        let Some((begin, end)) = value_of(field) else {
            continue;
        };
        if place != one && !random.chance(share) {
            continue;
        }
        let which = random.below(3);
        if which != 0 {
            insert(field, end, &fold(random));
        }
        if which != 1 {
            insert(field, begin, &fold(random));
        }
    }
}

/// Inside a value, in one place or in two.
fn inside(draft: &mut Draft, random: &mut Random) {
    for _ in 0..=random.weighted(&[80, 20]) {
        if let Some((field, begin, end)) = any_value(draft, random) {
            if begin + 1 < end {
                insert(field, random.between(begin + 1, end - 1), &fold(random));
            }
        }
    }
}

/// One more field with a fold inside, of a name that is not there yet.
fn further_field(draft: &mut Draft, random: &mut Random) {
    let mut field = random.pick(&SOME_FIELDS).to_vec();
    if draft.has(field_name(&field)) {
        return;
    }
    if let Some((begin, end)) = value_of(&field) {
        let place = random.between(begin, end);
        insert(&mut field, place, &fold(random));
    }
    let place = random.below(draft.fields.len() + 1);
    draft.fields.insert(place, field);
}

/// In a name, or between it and its colon.
fn in_a_name(draft: &mut Draft, random: &mut Random) {
    let place = random.below(draft.fields.len());
    if let Some(field) = draft.fields.get_mut(place) {
        let end = field_name(field).len();
        let cut = match random.chance(50) {
            true => end,
            false => random.between(end.min(1), end),
        };
        insert(field, cut, &fold(random));
    }
}

/// A continued line that would be a field if it did not begin with a blank.
fn like_a_field(draft: &mut Draft, random: &mut Random) {
    let line = match random.chance(50) {
        true => random.pick(&SOME_FIELDS).to_vec(),
        false => draft.fields.first().cloned().unwrap_or_default(),
    };
    let fold = fold(random);
    if random.chance(60) && !draft.has(b"Logging-Tag") {
        // Where no value is judged.
        let place = random.below(draft.fields.len() + 1);
        let field = [&b"Logging-Tag:x"[..], &fold, &line].concat();
        draft.fields.insert(place, field);
    } else if let Some((field, _, end)) = any_value(draft, random) {
        insert(field, end, &[fold, line].concat());
    }
}

/// A fold that brings an empty line: what stands behind it is body, and its
/// first blank continues nothing.
fn empty_line(draft: &mut Draft, random: &mut Random) {
    if draft.fields.is_empty() {
        return;
    }
    let mut field = draft.fields.remove(random.below(draft.fields.len()));
    let begin = field_name(&field).len() + 1;
    let cut = random.between(begin.min(field.len()), field.len());
    let behind = [b" ", &field[cut..], b"\r\n\r\n", &draft.body].concat();
    field.truncate(cut);
    draft.fields.push(field);
    draft.body = behind;
    if random.chance(60) {
        set_content_length(draft);
    }
}

/// A CR or LF alone, beside a fold or in its place.
fn bare_byte(draft: &mut Draft, random: &mut Random) {
    let bare = random.pick(&[
        &b"\r\r\n "[..],
        b"\n\r\n ",
        b"\r\n\r ",
        b"\r\n\n ",
        b"\r\n \r",
        b"\r\n \n",
        b"\r \n ",
        b"\n\r ",
        b"\r ",
        b"\n ",
        b"\r\n \r\r\n ",
    ]);
    if let Some((field, begin, end)) = any_value(draft, random) {
        insert(field, random.between(begin, end), bare);
    }
}

fn before_any_field(draft: &mut Draft, random: &mut Random) {
    draft.fields.insert(0, random.pick(&CONTINUED).to_vec());
}

/// The empty line, and then a blank; before it a line of blanks alone at times.
fn body_with_a_blank(draft: &mut Draft, random: &mut Random) {
    draft.body.insert(0, random.pick(b" \t"));
    if random.chance(70) {
        set_content_length(draft);
    }
    if random.chance(50) {
        if let Some(field) = draft.fields.last_mut() {
            field.extend(fold(random));
        }
    }
}

/// The message ends in a fold or behind it, without an empty line.
fn unended(draft: &mut Draft, random: &mut Random) {
    let end = random.pick(&[
        &b" "[..],
        b"\t",
        b" \r\n",
        b" \r",
        b" x\r\n",
        b" \r\n\t\r\n",
        b" \r\n ",
    ]);
    draft.end = end.to_vec();
    if random.chance(60) {
        draft.body.clear();
    }
}
