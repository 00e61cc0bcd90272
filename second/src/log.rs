//! The slot log and its printer, and the framing of records that the call files share.

use crate::receiver::{length_of, Receiver, Report, BUFFER};
use std::fmt::Write;

/// One record: two bytes length of what follows, two bytes kind, body; all little-endian.
pub enum Record<'a> {
    Whole(u16, &'a [u8]),
    Cut,
}

/// The records of an input, in order. A cut one is the last.
pub struct Records<'a> {
    rest: &'a [u8],
}

impl<'a> Records<'a> {
    pub fn new(input: &'a [u8]) -> Self {
        Records { rest: input }
    }
}

impl<'a> Iterator for Records<'a> {
    type Item = Record<'a>;

    fn next(&mut self) -> Option<Record<'a>> {
        if self.rest.is_empty() {
            return None;
        }
        let (record, rest) = first_record(self.rest).unwrap_or((Record::Cut, &[]));
        self.rest = rest;
        Some(record)
    }
}

/// The first record and what comes after it; `None` if it is cut off or its length is below 2.
fn first_record(input: &[u8]) -> Option<(Record<'_>, &[u8])> {
    let (length, rest) = input.split_first_chunk::<2>()?;
    let length = usize::from(u16::from_le_bytes(*length));
    if length > rest.len() {
        return None;
    }
    let (record, rest) = rest.split_at(length);
    let (kind, body) = record.split_first_chunk::<2>()?;
    Some((Record::Whole(u16::from_le_bytes(*kind), body), rest))
}

/// The number in some little-endian bytes.
pub fn little(bytes: &[u8]) -> u64 {
    bytes
        .iter()
        .rev()
        .fold(0, |number, &byte| number << 8 | u64::from(byte))
}

/// Individual, group and MNI, four bytes each.
pub const SETTINGS_BYTES: usize = 12;

/// The receiver that a body of settings asks for.
pub fn settings(body: &[u8]) -> Result<Receiver, u8> {
    Receiver::fresh(
        little(&body[..4]),
        little(&body[4..8]),
        little(&body[8..12]),
    )
}

/// Prints a slot log.
pub fn print(input: &[u8]) -> String {
    let mut records = Records::new(input);
    match first_receiver(records.next()) {
        Some(receiver) => print_reports(records, receiver),
        None => "unit\n".to_string(),
    }
}

fn first_receiver(first: Option<Record>) -> Option<Receiver> {
    match first? {
        Record::Whole(0, body) if body.len() == SETTINGS_BYTES => settings(body).ok(),
        _ => None,
    }
}

fn print_reports(records: Records, mut receiver: Receiver) -> String {
    let mut lines = String::new();
    for record in records {
        match sort(&record) {
            Sort::Report(kind, body) => lines += &print_report(&mut receiver, kind, body),
            Sort::Kind => lines += "kind\n",
            Sort::Cut => {
                lines += "cut\n";
                break;
            }
        }
    }
    lines
}

/// What the printer does with a record after the first.
enum Sort<'a> {
    Report(u8, &'a [u8]),
    Kind,
    Cut,
}

fn sort<'a>(record: &Record<'a>) -> Sort<'a> {
    let Record::Whole(kind, body) = *record else {
        return Sort::Cut;
    };
    match body_length(kind) {
        Some(length) if body.len() < length => Sort::Cut,
        Some(length) if body.len() == length && kind != 0 => Sort::Report(kind as u8, body),
        _ => Sort::Kind,
    }
}

/// The body's length by its kind; `None` for an unknown one.
fn body_length(kind: u16) -> Option<usize> {
    match kind {
        0 => Some(SETTINGS_BYTES),
        1..=3 => length_of(kind as u8).map(|blocks| 2 + blocks),
        _ => None,
    }
}

fn print_report(receiver: &mut Receiver, kind: u8, body: &[u8]) -> String {
    let report = Report {
        frame: body[0],
        slot: body[1],
        kind,
        blocks: &body[2..],
    };
    let answer = receiver.report(&report, &mut [0; BUFFER]);
    let mut line = String::new();
    let _ = writeln!(
        line,
        "{} {} {} {} {} {}",
        report.frame,
        report.slot,
        answer.outcome,
        u8::from(answer.dropped),
        answer.fault,
        answer.bits
    );
    line
}

#[cfg(test)]
mod tests {
    use super::*;

    const SETTINGS: [u8; 16] = [14, 0, 0, 0, 1, 0, 0, 0, 2, 0, 0, 0, 3, 0, 0, 0];

    fn printed(records: &[u8]) -> String {
        print(&[&SETTINGS, records].concat())
    }

    #[test]
    fn the_example() {
        let reports = [4, 0, 1, 0, 5, 1, 4, 0, 1, 0, 5, 3, 4, 0, 1, 0, 0x13, 1];
        let lines = "5 1 0 0 0 0\n5 3 0 0 0 0\n19 1 0 0 15 0\n";
        assert_eq!(printed(&reports), lines);
    }

    #[test]
    fn no_unit() {
        let mut large = SETTINGS;
        large[7] = 1;
        let longer = [&[15u8], &SETTINGS[1..], &[0]].concat();
        assert_eq!(print(&[]), "unit\n");
        assert_eq!(print(&SETTINGS[..15]), "unit\n");
        assert_eq!(print(&[4, 0, 1, 0, 5, 1]), "unit\n");
        assert_eq!(print(&large), "unit\n");
        assert_eq!(print(&longer), "unit\n");
        assert_eq!(print(&SETTINGS), "");
    }

    #[test]
    fn kind_goes_on() {
        let report = [4, 0, 1, 0, 5, 1];
        let records = [
            &SETTINGS[..],
            &[2, 0, 9, 0],
            &[2, 0, 1, 1],
            &[5, 0, 1, 0, 5, 1, 0],
            &report,
        ];
        let lines = "kind\nkind\nkind\nkind\n5 1 0 0 0 0\n";
        assert_eq!(printed(&records.concat()), lines);
    }

    #[test]
    fn cut_stops() {
        let report = [4, 0, 1, 0, 5, 1];
        let cut: [&[u8]; 7] = [
            &[4],
            &[0, 0],
            &[1, 0, 9],
            &[3, 0, 1, 0, 5],
            &[5, 0, 2, 0, 5, 1, 0],
            &[4, 0, 0, 0, 1, 1],
            &[255, 255, 9, 0],
        ];
        for record in cut {
            let after = if record.len() > 1 { &report[..] } else { &[] };
            let records = [record, after].concat();
            assert_eq!(printed(&records), "cut\n", "{record:?}");
        }
    }
}
