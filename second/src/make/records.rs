//! Records of a slot log that are no reports: those that print `kind`, `cut` or `unit`.

use super::logs::Slot;
use super::parts::{record, Unit};
use super::rng::Rng;

/// Kinds that there are not: the next one, known ones in the other byte, known ones with a bit more.
const UNKNOWN: [u16; 13] = [
    4, 5, 9, 255, 256, 257, 258, 259, 512, 513, 768, 0x8001, 65_535,
];
/// Bodies on both sides of what a buffer may hold, and the longest that there is.
const LONG: [usize; 8] = [253, 254, 255, 256, 4_094, 4_096, 4_097, 65_533];
/// The body's length of each kind.
const LENGTHS: [(u16, usize); 4] = [(0, 12), (1, 2), (2, 26), (3, 36)];

/// A record that prints `kind`: it is skipped, whatever it would say to a unit that heard it.
pub fn odd(rng: &mut Rng, unit: &Unit, near: &Slot) -> Vec<u8> {
    match rng.below(16) {
        0..=2 => {
            let (kind, length) = (rng.pick(&UNKNOWN), rng.index(40));
            record(kind, &rng.bytes(length))
        }
        3..=5 => record(rng.pick(&UNKNOWN), &near.body()),
        6 => long(rng),
        7 | 8 => unit.record(),
        9 => Unit::draw(rng).record(),
        10 => record(0, &[&unit.record()[4..], &[0]].concat()),
        11 => record(0, &near.body().repeat(12)[..24]),
        12 | 13 => {
            let more = rng.index(3) + 1;
            record(near.kind.into(), &[near.body(), rng.bytes(more)].concat())
        }
        14 => record(1, &[&[near.frame, near.slot][..], &[0; 24]].concat()),
        _ => record(2, &[&[near.frame, near.slot][..], &[0x60; 34]].concat()),
    }
}

/// A record of an unknown kind, or of a known one, that is far too long.
fn long(rng: &mut Rng) -> Vec<u8> {
    let (kind, length) = (rng.pick(&[0, 1, 2, 3, 9, 65_535]), rng.pick(&LONG));
    record(kind, &rng.bytes(length))
}

/// A record that prints `cut`; whatever comes after it is not read.
pub fn cut(rng: &mut Rng, near: &Slot) -> Vec<u8> {
    match rng.below(8) {
        0 => vec![rng.below(2) as u8, 0],
        1 => vec![0xFF, 0xFF, 1, 0, 5, 1],
        2 => vec![4, 0x80, 1, 0],
        3 => vec![0xFF, 0xFF, 9, 0],
        4 | 5 => {
            let body = near.body();
            let shorter = body.len() - 1 - rng.index(body.len().min(3));
            record(near.kind.into(), &body[..shorter])
        }
        _ => {
            let (kind, length) = rng.pick(&LENGTHS);
            let shorter = rng.index(length);
            record(kind, &rng.bytes(shorter))
        }
    }
}

/// A first record that prints `unit`, or no first record at all.
pub fn no_unit(rng: &mut Rng, unit: &Unit, near: &Slot) -> Vec<u8> {
    let right = unit.record();
    let large = rng.pick(&[1 << 24, (1 << 24) + 1, 1 << 31, u32::MAX.into()]);
    let mut wrong = unit.clone();
    match rng.below(10) {
        0 => return Vec::new(),
        1 => return record(0, &right[4..15]),
        2 => return record(0, &[&right[4..], &[0]].concat()),
        3 => return record(rng.pick(&[1, 3, 256, 65_535]), &right[4..]),
        4 => return vec![rng.below(2) as u8, 0, 0, 0],
        5 => return [&near.record(), &right[..]].concat(),
        6 => return vec![0xFF, 0xFF, 0, 0],
        7 => wrong.individual = large,
        8 => wrong.group = large,
        _ => wrong.mni = large,
    }
    wrong.record()
}

#[cfg(test)]
mod tests {
    use super::*;
    use crate::log::print;
    use crate::make::logs::{episodes, long_log};

    /// Tries a sort of record on many random ones, before a report that follows.
    fn each(made: impl Fn(&mut Rng, &Unit, &Slot) -> Vec<u8>, check: impl Fn(&Unit, &[u8])) {
        let mut rng = Rng::new(0, 7);
        for _ in 0..100 {
            let unit = Unit::draw(&mut rng);
            for slot in episodes(&mut rng, &unit, 1) {
                check(&unit, &made(&mut rng, &unit, &slot));
            }
        }
    }

    const REPORT: [u8; 6] = [4, 0, 1, 0, 5, 1];

    #[test]
    fn long_logs_do_not_stop() {
        let lines = print(&long_log(7));
        assert!(lines.lines().count() > 20_000);
        assert!(lines.contains("kind\n"));
        assert!(!lines.contains("cut\n") && !lines.contains("unit\n"));
    }

    #[test]
    fn odd_ones_are_skipped() {
        each(odd, |unit, record| {
            let log = [&unit.record(), record, &REPORT].concat();
            assert_eq!(print(&log), "kind\n5 1 0 0 0 0\n", "{record:?}");
        });
    }

    #[test]
    fn cut_ones_stop() {
        each(
            |rng, _, slot| cut(rng, slot),
            |unit, record| {
                let log = [&unit.record(), record, &REPORT].concat();
                assert_eq!(print(&log), "cut\n", "{record:?}");
            },
        );
    }

    #[test]
    fn wrong_first_ones_give_unit() {
        each(no_unit, |_, record| {
            assert_eq!(print(&[record, &REPORT].concat()), "unit\n", "{record:?}");
        });
    }
}
