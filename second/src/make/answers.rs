//! What reports and the lines that answer them tell: the headers heard, and how assemblies ended.

use super::drops::{BREAK, END_EARLY, FAULT, FRAG_LAST, NOTHING, OTHERS, OWN, UNFRAGMENTED};
use super::logs::after;
use crate::blocks::{read_continuation, read_header, Continuation, Header, SCH_S_BYTES};
use crate::layout::Cut;
use crate::log::{Record, Records};

/// A report that was not refused: what it brings, and the numbers of its line.
pub struct Answered<'a> {
    /// The place of the one before it; none for a fresh receiver's first.
    before: Option<(u8, u8)>,
    pub place: (u8, u8),
    kind: u8,
    blocks: &'a [u8],
    pub outcome: &'a str,
    dropped: bool,
    fault: &'a str,
}

/// The reports that were not refused, of a log or of a file of calls. A log's first record has no
/// line; each other record has one.
pub fn answered<'a>(given: &'a [u8], lines: &'a str, is_log: bool) -> Vec<Answered<'a>> {
    let mut reports: Vec<Answered> = Vec::new();
    let mut before = None;
    let records = Records::new(given).skip(is_log.into());
    for (record, line) in records.zip(lines.lines()) {
        if line.starts_with("unit") {
            before = None;
        }
        if let Some(report) = read_off(record, line, before) {
            before = Some(report.place);
            reports.push(report);
        }
    }
    reports
}

fn read_off<'a>(
    record: Record<'a>,
    line: &'a str,
    before: Option<(u8, u8)>,
) -> Option<Answered<'a>> {
    let words: Vec<&str> = line.split(' ').collect();
    let (outcome, dropped, fault) = match words[..] {
        ["report", outcome, dropped, fault, ..] => (outcome, dropped, fault),
        [_, _, outcome, dropped, fault, _] => (outcome, dropped, fault),
        _ => return None,
    };
    let Record::Whole(kind, body) = record else {
        return None;
    };
    // The blocks of a log's report stand after frame and slot, those of a call's after five bytes.
    let (kind, blocks) = match kind {
        4 => (body[2], &body[5..]),
        _ => (kind as u8, &body[2..]),
    };
    let refused = ["15", "16", "1", "17"].contains(&fault);
    (!refused).then_some(Answered {
        before,
        place: (body[0], body[1]),
        kind,
        blocks,
        outcome,
        dropped: dropped == "1",
        fault,
    })
}

impl Answered<'_> {
    /// The header that it brings, if it is well-formed.
    pub fn header(&self) -> Option<Header> {
        let (sch_s, sch_h) = self.blocks.split_at_checked(SCH_S_BYTES)?;
        read_header(sch_s, sch_h, None).ok()
    }

    fn block(&self) -> Option<Continuation> {
        read_continuation(self.blocks).ok()
    }

    /// The way in which it drops an assembly.
    fn way(&self) -> &'static str {
        match self.kind {
            _ if self
                .before
                .is_some_and(|before| after(before) != self.place) =>
            {
                BREAK
            }
            1 => NOTHING,
            _ if self.fault != "0" => FAULT,
            3 if self.block().is_some_and(|block| block.last) => END_EARLY,
            3 => FRAG_LAST,
            _ if self.header().is_some_and(|header| !header.fragmented) => UNFRAGMENTED,
            _ if self.outcome == "3" => OWN,
            _ => OTHERS,
        }
    }
}

/// An assembly that ended: how it was dropped, if it was not handed over, its header, and where
/// what was joined of it is cut.
pub struct Ended {
    pub dropped: Option<&'static str>,
    pub header: Header,
    pub cut: Cut,
}

/// The assemblies that ended. The outcomes tell what was open, and which blocks were kept.
pub fn ended(reports: &[Answered]) -> Vec<Ended> {
    let mut ended = Vec::new();
    let mut open: Option<Ended> = None;
    for report in reports {
        if report.before.is_none() {
            open = None;
        }
        if let Some(mut lost) = open.take_if(|_| report.dropped) {
            lost.dropped = Some(report.way());
            ended.push(lost);
        }
        match (report.outcome, &mut open) {
            ("3", _) => open = report.header().map(begun),
            ("2" | "4", Some(open)) => {
                let length = report.block().map(|block| block.length);
                open.cut.blocks.extend(length);
            }
            _ => (),
        }
        ended.extend(open.take_if(|_| report.outcome == "2"));
    }
    ended
}

fn begun(header: Header) -> Ended {
    Ended {
        dropped: None,
        cut: Cut {
            head: header.length,
            blocks: Vec::new(),
        },
        header,
    }
}
