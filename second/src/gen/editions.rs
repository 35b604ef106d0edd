//! Editions of settings as a script may hand them in.

use super::random::Random;
use super::unsound::{above, break_threshold, level, no_level, Given};
use crate::channel::{Channel, Kind};
use crate::kept::{self, Kept, EDITIONS, EDITION_NUMBERS, KEPT};
use crate::settings::{Edition, Editions, Sort, Value, MOST_EDITIONS, MOST_MILLIS, MOST_SETTINGS};

/// One to four editions of any values.
pub fn editions(random: &mut Random, kind: Kind) -> Editions {
    let count = random.between(1, MOST_EDITIONS);
    let editions: Vec<Edition> = (0..count).map(|_| edition(random, kind)).collect();
    Editions::of(&editions).unwrap_or(Editions::FRESH)
}

fn edition(random: &mut Random, kind: Kind) -> Edition {
    let mut edition = Edition::UNSET;
    for (value, setting) in edition.0.iter_mut().zip(kind.settings()) {
        if random.chance(70) {
            *value = Some(any_value(random, setting.sort));
        }
    }
    edition
}

fn any_value(random: &mut Random, sort: Sort) -> Value {
    match sort {
        Sort::Flag => Value::Flag(random.chance(50)),
        Sort::Millis => {
            let any = random.next() >> random.between(1, 60);
            Value::Millis(random.pick(&[0, 1, 5000, MOST_MILLIS, any]))
        }
        Sort::Level => Value::Level(level(random)),
    }
}

/// As the channel is, or with numbers that say nothing: of editions that are
/// not kept, of settings that are unset, and of a third setting where there are two.
pub fn given(random: &mut Random, channel: &Channel) -> Given {
    let mut given = Given::of(Kept::of(channel));
    let count = given.kept.shown_editions();
    given.editions = Some(count);
    if random.chance(50) {
        return given;
    }
    let settings = channel.kind().settings().len();
    for (place, pair) in given.kept.0[EDITIONS..].chunks_exact_mut(2).enumerate() {
        let is_kept = place / MOST_SETTINGS < count;
        if !is_kept || place % MOST_SETTINGS >= settings {
            pair[0] = random.next() >> random.pick(&[0, 32, 62, 62]);
        }
        if !is_kept || pair[0] == kept::UNSET || place % MOST_SETTINGS >= settings {
            pair[1] = random.next() >> random.pick(&[0, 32, 63]);
        }
    }
    given.editions = Some(random.between(count, MOST_EDITIONS));
    given
}

/// A sound channel with its editions broken, or one of its thresholds.
pub fn broken(random: &mut Random, channel: &Channel) -> Given {
    let mut kept = Kept::of(channel);
    match random.weighted(&[10, 10, 10, 60, 20]) {
        0 => kept.0[KEPT] = 0,
        1 => kept.0[KEPT] = 5,
        2 => kept.0[KEPT] = above(random, MOST_EDITIONS, kept.0[KEPT]),
        3 => break_value(random, &mut kept),
        _ => break_threshold(random, &mut kept),
    }
    Given {
        editions: Some(kept.shown_editions()),
        ..Given::of(kept)
    }
}

/// One value that is kept is of another sort than its setting, or out of its range.
fn break_value(random: &mut Random, kept: &mut Kept) {
    let edition = random.below(kept.shown_editions());
    let settings = kept.kind().settings();
    let place = random.below(settings.len());
    let first = EDITIONS + edition * EDITION_NUMBERS + 2 * place;
    let sort = settings[place].sort;
    let (sort, value) = match random.weighted(&[40, 10, 50]) {
        0 => other_sort(random, sort),
        1 => (above(random, 3, number_of(sort)), kept.0[first + 1]),
        _ => (
            number_of(sort),
            out_of_range(random, sort, kept.0[first + 1]),
        ),
    };
    kept.0[first..][..2].copy_from_slice(&[sort, value]);
}

fn number_of(sort: Sort) -> u64 {
    match sort {
        Sort::Flag => kept::FLAG,
        Sort::Millis => kept::MILLIS,
        Sort::Level => kept::LEVEL,
    }
}

/// A good value of another sort.
fn other_sort(random: &mut Random, sort: Sort) -> (u64, u64) {
    let others = match sort {
        Sort::Flag => [Sort::Millis, Sort::Level],
        Sort::Millis => [Sort::Flag, Sort::Level],
        Sort::Level => [Sort::Flag, Sort::Millis],
    };
    (number_of(random.pick(&others)), random.pick(&[0, 1]))
}

fn out_of_range(random: &mut Random, sort: Sort, right: u64) -> u64 {
    match sort {
        Sort::Flag => above(random, 1, right.min(1)),
        Sort::Millis => random.pick(&[MOST_MILLIS + 1, MOST_MILLIS + 2, u64::MAX - 1, u64::MAX]),
        Sort::Level => no_level(random, right),
    }
}
