//! Levels: a Confidence-Threshold or Sensitivity-Level as it is written, kept and compared.

use crate::octets::decimal;

/// "1 to 6 digits" after the point.
const MOST_PLACES: usize = 6;
/// The highest level, in millionths.
pub const ONE: u32 = 1_000_000;

/// A level in millionths, at most 1,000,000: no two levels are the same single,
/// so these say which single-precision number is kept.
#[derive(Clone, Copy, Debug, Default, PartialEq, Eq)]
pub struct Level(u32);

impl Level {
    pub const ZERO: Level = Level(0);

    /// None above one.
    pub fn of_millionths(millionths: u64) -> Option<Level> {
        let millionths = u32::try_from(millionths).ok()?;
        (millionths <= ONE).then_some(Level(millionths))
    }

    /// The level whose single has these bits; none where no level's has.
    pub fn of_bits(bits: u32) -> Option<Level> {
        // A single is off its level by far less than half a millionth. What is
        // no number gives 0 here, whose bits are others.
        let nearest = (f64::from(f32::from_bits(bits)) * f64::from(ONE)).round();
        Level::of_millionths(nearest as u64).filter(|level| level.bits() == bits)
    }

    /// "`0` or `1`, optionally a point and 1 to 6 digits, at most one."
    pub fn of_value(value: &[u8]) -> Option<Level> {
        let (whole, places) = match value {
            [whole] => (whole, &[][..]),
            [whole, b'.', places @ ..] if !places.is_empty() => (whole, places),
            _ => return None,
        };
        if !b"01".contains(whole) {
            return None;
        }
        let part = match places {
            [] => 0,
            _ => decimal(places, MOST_PLACES)?,
        };
        let missing = (MOST_PLACES - places.len()) as u32;
        Level::of_millionths(u64::from(whole - b'0') * u64::from(ONE) + part * 10u64.pow(missing))
    }

    pub fn millionths(self) -> u32 {
        self.0
    }

    /// "The digits as a whole number divided once by the power of ten." Both
    /// are at most 1,000,000, so exact, and only the division rounds: digits
    /// with zeros behind them give the same quotient.
    fn single(self) -> f32 {
        self.0 as f32 / ONE as f32
    }

    pub fn bits(self) -> u32 {
        self.single().to_bits()
    }

    /// Whether the score is greater.
    pub fn is_below(self, score: f32) -> bool {
        self.single() < score
    }
}
