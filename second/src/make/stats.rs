//! How often each answer comes in the made inputs of a range of seeds, and each way of being dropped.

use super::answers::{answered, ended, Answered, Ended};
use super::drops::WAYS;
use super::{calls, log, reports, transport};
use crate::blocks::header_bits;
use crate::layout;
use crate::log::print;
use crate::probe::probe;
use crate::transport::{DM_SDS_ACK, DM_SDS_DATA};
use std::collections::{BTreeMap, BTreeSet};
use std::fmt::Write;

/// Counts by what is counted, in columns.
type Table<const N: usize> = BTreeMap<String, [u64; N]>;

/// For the logs and for each sort of call.
type Counts = Table<{ COLUMNS.len() }>;

const COLUMNS: [&str; 10] = [
    "log",
    "report",
    "build",
    "header",
    "block",
    "frame",
    "unit",
    "transport",
    "sdu",
    "book",
];

/// Drops for the logs and for the reports of calls, by the dropped message's type.
type Drops = Table<{ DROP_COLUMNS.len() }>;

const DROP_COLUMNS: [&str; 6] = [
    "log 23",
    "log 24",
    "others",
    "report 23",
    "report 24",
    "others",
];

/// Makes and runs the logs, the call files, the reports and the transport calls of these seeds.
pub fn stats(from: u64, to: u64) -> String {
    let (mut counts, mut dropped) = (rows(), drop_rows());
    for seed in from..=to {
        let given = log(seed);
        let printed = print(&given);
        for line in printed.lines() {
            count_log_line(&mut counts, line);
        }
        let answers = answered(&given, &printed, true);
        count_copies(&mut counts, 0, &answers);
        count_ended(&mut counts, &mut dropped, 0, &answers);
        for given in [calls(seed), reports(seed), transport(seed)] {
            let printed = probe(&given);
            for line in printed.lines() {
                count_call_line(&mut counts, line);
            }
            let answers = answered(&given, &printed, false);
            count_copies(&mut counts, 1, &answers);
            count_ended(&mut counts, &mut dropped, 1, &answers);
        }
    }
    let counts = table("", COLUMNS, &counts);
    counts + "\n" + &table("dropped by", DROP_COLUMNS, &dropped)
}

/// Every row, so that one that never comes is seen.
fn rows() -> Counts {
    let outcomes = (0..=5).map(|outcome| outcome_row(&outcome.to_string()));
    let faults = (0..=18).chain([21, 22]);
    let faults = faults.map(|fault| fault_row(&fault.to_string()));
    let kinds = (0..=4).map(|kind| kind_row(&kind.to_string()));
    let marks = (0..=2).map(|mark| mark_row(&mark.to_string()));
    let copies = (0..=6).map(past_row);
    let others = [LAID_OUT, OTHERWISE, "dropped 1", "line"].map(String::from);
    let words = ["unit", "kind", "cut", "bookings"].map(|word| format!("word {word}"));
    let names = outcomes.chain(faults).chain(kinds).chain(marks);
    let names = names.chain(copies).chain(others).chain(words);
    names.map(|name| (name, [0; COLUMNS.len()])).collect()
}

fn outcome_row(outcome: &str) -> String {
    format!("outcome {outcome}")
}

fn fault_row(fault: &str) -> String {
    format!("fault {fault:>2}")
}

/// Which of the four messages was read, 0 for none.
fn kind_row(kind: &str) -> String {
    format!("message {kind}")
}

/// What a booking was marked with.
fn mark_row(mark: &str) -> String {
    format!("mark {mark}")
}

/// A copy with so many other messages between it and the header that it repeats.
fn past_row(others: usize) -> String {
    format!("copy past {others}")
}

fn add<const N: usize>(counts: &mut Table<N>, name: String, column: usize) {
    counts.entry(name).or_insert([0; N])[column] += 1;
}

fn count_log_line(counts: &mut Counts, line: &str) {
    match line.split(' ').collect::<Vec<_>>()[..] {
        [_, _, outcome, dropped, fault, _] => count_report(counts, 0, [outcome, dropped, fault]),
        _ => add(counts, format!("word {line}"), 0),
    }
}

fn count_report(counts: &mut Counts, column: usize, [outcome, dropped, fault]: [&str; 3]) {
    add(counts, "line".to_string(), column);
    add(counts, outcome_row(outcome), column);
    add(counts, fault_row(fault), column);
    if dropped == "1" {
        add(counts, "dropped 1".to_string(), column);
    }
}

fn count_call_line(counts: &mut Counts, line: &str) {
    let words: Vec<&str> = line.split(' ').collect();
    match words[..] {
        ["report", outcome, dropped, fault, ..] => {
            count_report(counts, 1, [outcome, dropped, fault]);
        }
        [call, fault, ref rest @ ..] => {
            let column = COLUMNS.iter().position(|&name| name == call).unwrap_or(0);
            add(counts, "line".to_string(), column);
            add(counts, fault_row(fault), column);
            match (call, rest) {
                ("transport", [kind, ..]) => add(counts, kind_row(kind), column),
                ("book", [mark, kind, ..]) => {
                    add(counts, mark_row(mark), column);
                    add(counts, kind_row(kind), column);
                }
                _ => (),
            }
        }
        ["bookings"] => add(counts, format!("word {line}"), COLUMNS.len() - 1),
        _ => add(counts, format!("word {line}"), 1),
    }
}

/// What a header has in common with its repeats: the SCH/H bits but for the countdown, and the
/// frame in which that runs out.
type Sent = (Vec<bool>, u64);

/// Counts the copies by how many other headers for this unit, repeats apart, came since the one
/// that each repeats.
fn count_copies(counts: &mut Counts, column: usize, reports: &[Answered]) {
    let mut heard: Vec<Sent> = Vec::new();
    let mut frames = 0;
    for report in reports {
        frames += u64::from(report.place.1 == 1);
        if !["1", "3", "5"].contains(&report.outcome) {
            continue;
        }
        if let Some(header) = report.header() {
            let sent = (header.but_for_countdown(), frames + header.fields.countdown);
            if report.outcome == "5" {
                let since = heard.iter().rev().take_while(|&other| *other != sent);
                let others: BTreeSet<&Sent> = since.collect();
                add(counts, past_row(others.len()), column);
            }
            heard.push(sent);
        }
    }
}

/// What is counted of messages that were joined: whether they are cut as their bits are laid out.
const LAID_OUT: &str = "cut laid out";
const OTHERWISE: &str = "cut otherwise";

/// What is counted of drops beside their way.
const NO_BITS: &str = "with 0 bits";
const NO_BLOCKS: &str = "with 0 blocks";
const NO_SOURCE: &str = "with source 0";

fn drop_rows() -> Drops {
    let ways = WAYS.map(|way| way.name).into_iter();
    let names = ways.chain([NO_BITS, NO_BLOCKS, NO_SOURCE]);
    names
        .map(|name| (name.to_string(), [0; DROP_COLUMNS.len()]))
        .collect()
}

/// Counts the messages joined and the drops of the logs (0) or of the calls (1).
fn count_ended(counts: &mut Counts, drops: &mut Drops, sort: usize, reports: &[Answered]) {
    for ended in ended(reports) {
        match ended.dropped {
            Some(way) => count_drop(drops, sort, way, &ended),
            None => {
                let laid_out = layout::cut(header_bits(&ended.header.fields), ended.cut.bits());
                let as_laid_out = laid_out == Ok(ended.cut);
                let name = if as_laid_out { LAID_OUT } else { OTHERWISE };
                add(counts, name.to_string(), sort);
            }
        }
    }
}

fn count_drop(counts: &mut Drops, sort: usize, way: &str, dropped: &Ended) {
    let column = 3 * sort
        + match dropped.header.fields.message_type {
            DM_SDS_DATA => 0,
            DM_SDS_ACK => 1,
            _ => 2,
        };
    let also = [
        (NO_BITS, dropped.cut.bits() == 0),
        (NO_BLOCKS, dropped.cut.blocks.is_empty()),
        (NO_SOURCE, dropped.header.fields.source == 0),
    ];
    let also = also.iter().filter(|(_, is_so)| *is_so);
    for name in also.map(|(name, _)| *name).chain([way]) {
        add(counts, name.to_string(), column);
    }
}

fn table<const N: usize>(corner: &str, columns: [&str; N], counts: &Table<N>) -> String {
    let mut table = format!("{corner:14}");
    for column in columns {
        let _ = write!(table, "{column:>10}");
    }
    table.push('\n');
    for (name, columns) in counts {
        let _ = write!(table, "{name:14}");
        for count in columns {
            let _ = write!(table, "{count:>10}");
        }
        table.push('\n');
    }
    table
}

#[cfg(test)]
mod tests {
    use super::*;

    #[test]
    fn every_answer_comes() {
        let tables = stats(1, 60);
        let (answers, drops) = tables.split_once("\n\n").unwrap();
        let counts = |row: &str| -> Vec<u64> {
            let counts = row[14..].split_whitespace();
            counts.map(|count| count.parse().unwrap()).collect()
        };
        for row in answers.lines().skip(1) {
            assert!(counts(row).iter().any(|&count| count > 0), "{row}");
        }
        assert_eq!(drops.lines().count(), 1 + 8 + 3);
        for row in drops.lines().skip(1) {
            assert!(counts(row).iter().all(|&count| count > 2), "{row}");
        }
    }

    /// A line tells of what was dropped as the reports before it have it, if it is one of the two
    /// types, and of nothing where nothing was dropped.
    #[test]
    fn lost_ones_are_told_of() {
        let mut told = BTreeSet::new();
        for seed in 1..=20 {
            let (given, zeros) = (reports(seed), [0, 0, 0]);
            let printed = probe(&given);
            let ended = ended(&answered(&given, &printed, false));
            let mut dropped = ended.iter().filter(|ended| ended.dropped.is_some());
            for line in printed.lines().filter(|line| line.starts_with("report ")) {
                let words: Vec<&str> = line.split(' ').collect();
                let ended = (words[2] == "1").then(|| dropped.next().unwrap());
                let lost = ended.map_or(zeros, |ended| match ended.header.fields.message_type {
                    number @ 23..=24 => {
                        let bits = ended.cut.bits() as u64;
                        [ended.header.fields.source, number, bits]
                    }
                    _ => zeros,
                });
                assert_eq!(words[15..], lost.map(|number| number.to_string()), "{line}");
                told.insert(lost[1]);
            }
            assert!(dropped.next().is_none());
        }
        assert_eq!(told, BTreeSet::from([0, 23, 24]));
    }

    /// The transport calls alone: every answer of theirs, and most reads are taken or nearly.
    #[test]
    fn every_transport_answer_comes() {
        let mut counts = Counts::new();
        for seed in 1..=20 {
            for line in probe(&transport(seed)).lines() {
                count_call_line(&mut counts, line);
            }
        }
        let column = |name| COLUMNS.iter().position(|&other| other == name).unwrap();
        let count = |name: String, call| counts.get(&name).map_or(0, |row| row[column(call)]);
        let fault = |number: u8, call| count(fault_row(&number.to_string()), call);
        for (call, faults) in [
            ("transport", &[0, 13, 21, 22][..]),
            ("sdu", &[0, 1, 13, 21]),
            ("book", &[0, 13, 21, 22]),
        ] {
            assert!(faults.iter().all(|&number| fault(number, call) > 20));
            let all = count("line".to_string(), call);
            assert!(2 * fault(0, call) > all, "{call}: {counts:?}");
        }
        for kind in 1..=4 {
            let kind = kind_row(&kind.to_string());
            assert!(count(kind.clone(), "transport") > 20 && count(kind, "book") > 20);
        }
        for mark in 0..=2 {
            assert!(count(mark_row(&mark.to_string()), "book") > 100);
        }
    }

    /// The reports alone: copies with none to six other messages between them and what they repeat.
    #[test]
    fn copies_with_others_between_come() {
        let mut counts = Counts::new();
        for seed in 1..=30 {
            let given = reports(seed);
            count_copies(&mut counts, 1, &answered(&given, &probe(&given), false));
        }
        let count = |others| counts.get(&past_row(others)).map_or(0, |row| row[1]);
        assert!(count(0) > 300 && count(1) > 60, "{counts:?}");
        assert!((2..=6).all(|others| count(others) > 3), "{counts:?}");
        assert_eq!(counts.len(), 7, "{counts:?}");
    }

    #[test]
    fn the_same_seed_gives_the_same_input() {
        for made in [log, calls, reports, transport] {
            assert_eq!(made(7), made(7));
            assert_ne!(made(7), made(8));
        }
    }
}
