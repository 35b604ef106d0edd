//! The channel as 89 numbers: their places, what is looked at, and that any may come in.

mod common;

use common::*;
use second::kept::{self, Kept, NUMBERS};

/// Further numbers at their places, on a channel with 1 speaking and 3 waiting.
fn with(numbers: &[(usize, u64)]) -> Kept {
    let mut channel = given("speaking 5 1+,3-");
    for &(place, value) in numbers {
        channel.0[place] = value;
    }
    channel
}

#[test]
fn the_places() {
    let mut expected = [0; NUMBERS];
    expected[..6].copy_from_slice(&[1, 6, 2, 16, 3, 6]);
    for (number, byte) in expected[20..].iter_mut().zip(NAME) {
        *number = u64::from(*byte);
    }
    expected[64] = 1;
    assert_eq!(NUMBERS, 89);
    assert_eq!(with(&[]).0, expected);
    let mut channel = opened();
    handle(&mut channel, &speak(1, ""));
    handle(&mut channel, &speak(3, "Kill-On-Barge-In:false|"));
    handle(&mut channel, &request("CONTROL 5|{C}|"));
    assert_eq!(channel.0, expected);
}

#[test]
fn what_is_outside_its_range_is_not_sound() {
    let last = 20 + NAME.len() - 1;
    let rows: [&[(usize, u64)]; 20] = [
        &[(kept::STATE, 3)],
        &[(kept::STATE, 257)],
        &[(kept::STATE, (1 << 32) + 1)],
        &[(kept::LAST, (1 << 32) + 1)],
        &[(kept::LAST, (1 << 32) + 6)],
        &[(kept::LAST, u64::MAX)],
        &[(kept::COUNT, 17)],
        &[(kept::COUNT, (1 << 32) + 2)],
        &[(kept::COUNT, u64::MAX)],
        &[(kept::SIZE, 45)],
        &[(kept::SIZE, (1 << 32) + 16)],
        &[(kept::SIZE, u64::MAX)],
        &[(kept::QUEUE + 1, 1 << 33), (kept::LAST, 1 << 32)],
        &[(kept::QUEUE, (1 << 33) + 3)],
        &[(kept::QUEUE + 1, u64::MAX)],
        &[(kept::NAME, 256 + u64::from(b'7'))],
        &[(last, (1 << 32) + u64::from(b'h'))],
        &[(kept::NAME + 1, u64::MAX)],
        &[(kept::KEPT, 0)],
        &[(kept::KEPT, 5)],
    ];
    for row in rows {
        let mut channel = with(row);
        assert_eq!(channel.held(), None, "{row:?}");
        let (outcome, _) = handle(&mut channel, &request("STOP 9|{C}|"));
        assert_eq!((outcome.number, outcome.consumed), (21, 0), "{row:?}");
        assert_eq!(report_in(&mut channel, 0, 305).0.number, 21, "{row:?}");
        assert_eq!(channel.back(1).number, 21, "{row:?}");
        assert_eq!(channel, with(row), "{row:?}");
    }
}

/// Numbers past count and size are not looked at; a refused call keeps them, a handled one makes them 0.
#[test]
fn what_lies_past_count_and_size() {
    let rest = [
        (kept::QUEUE + 2, 7),
        (19, u64::MAX),
        (36, 1),
        (63, 256),
        (kept::EDITIONS + 1, 9),
        (kept::EDITIONS + 4, 4),
        (kept::EDITIONS + 6, 7),
        (88, u64::MAX),
    ];
    let mut channel = with(&rest);
    assert_eq!(channel.held(), Some(vec![1, 3]));
    let (outcome, _) = handle_in(&mut channel, &request("CONTROL 5|{C}|"), 10);
    assert_eq!(outcome.number, 7);
    assert_eq!(channel, with(&rest));
    let (outcome, _) = handle(&mut channel, &request("CONTROL 5|{C}|"));
    assert_eq!(outcome.number, 0);
    assert_eq!(channel, with(&[]));
    let mut channel = with(&rest);
    let (outcome, _) = report_in(&mut channel, 0, 305);
    assert_eq!(outcome.number, 0);
    assert_eq!(channel, given("speaking 5 3-"));
    let mut channel = with(&rest);
    assert_eq!(channel.back(5).number, 12);
    assert_eq!(channel, with(&rest));
    assert_eq!(channel.back(1).number, 0);
    assert_eq!(channel, with(&[(kept::KEPT, 2)]));
}
