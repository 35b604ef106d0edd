//! EDITIONS, and levels as BITS: how the language reads and writes them.

use super::{bits, number};
use crate::kept::{self, Kept, Pair};
use crate::level::Level;
use crate::settings::MOST_EDITIONS;

/// What is added to bits that no level has, so that the number is out of range.
const NO_LEVEL: u64 = 1 << 32;

/// Bits as they are kept: the millionths of the level that has them, or a
/// number that shows them again and is no level.
pub fn level_number(bits: u32) -> u64 {
    match Level::of_bits(bits) {
        Some(level) => level.millionths().into(),
        None => NO_LEVEL + u64::from(bits),
    }
}

/// As bits: those of a level, or the last 32 of any other number.
pub fn level_word(number: u64) -> String {
    let bits = Level::of_millionths(number).map_or(number as u32, Level::bits);
    format!("{bits:08x}")
}

/// Editions joined by commas, or `-` for none: at most four.
pub fn editions_of(word: &[u8]) -> Result<Vec<Vec<Pair>>, String> {
    if word == b"-" {
        return Ok(Vec::new());
    }
    let mut editions = Vec::new();
    for part in word.split(|&byte| byte == b',') {
        if editions.len() == MOST_EDITIONS {
            return Err(format!("more than {MOST_EDITIONS} editions"));
        }
        let values = part.split(|&byte| byte == b'/').map(value_of);
        editions.push(values.collect::<Result<Vec<Pair>, String>>()?);
    }
    Ok(editions)
}

/// `-`, `true` or `false`, milliseconds, or `:` and the bits of a level.
fn value_of(word: &[u8]) -> Result<Pair, String> {
    Ok(match word {
        b"-" => Pair::new(kept::UNSET, 0),
        b"false" => Pair::new(kept::FLAG, 0),
        b"true" => Pair::new(kept::FLAG, 1),
        [b':', digits @ ..] => Pair::new(kept::LEVEL, level_number(bits("level", digits)?)),
        _ => Pair::new(kept::MILLIS, number("setting", word, u64::MAX)?),
    })
}

/// `settings EDITIONS`, and COUNT where it is above the editions that there are.
pub fn put_settings(text: &mut Vec<u8>, kept: &Kept) {
    let shown = kept.shown_editions();
    text.extend_from_slice(b"settings ");
    text.extend_from_slice(editions_word(&kept.editions(shown)).as_bytes());
    if kept.0[kept::KEPT] > shown as u64 {
        text.extend_from_slice(format!(" {}", kept.0[kept::KEPT]).as_bytes());
    }
}

pub fn editions_word(editions: &[Vec<Pair>]) -> String {
    if editions.is_empty() {
        return "-".to_string();
    }
    let words = editions.iter().map(|pairs| {
        let values: Vec<String> = pairs.iter().map(value_word).collect();
        values.join("/")
    });
    words.collect::<Vec<String>>().join(",")
}

fn value_word(pair: &Pair) -> String {
    match pair.sort {
        kept::FLAG => (pair.value != 0).to_string(),
        kept::MILLIS => pair.value.to_string(),
        kept::LEVEL => format!(":{}", level_word(pair.value)),
        _ => "-".to_string(),
    }
}
