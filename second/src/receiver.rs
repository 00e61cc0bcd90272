//! The receiver, by its history: it keeps every accepted report and answers each one by looking
//! back over them. Nothing else is stored, so an open assembly is never a state, only a reading.

use crate::bits::{fits, pack};
use crate::blocks::{read_continuation, read_header, Continuation, Fields, Header, Place};
use crate::blocks::{HEADER_BYTES, SCH_F_BYTES, SCH_S_BYTES, TRUE_ADDRESS};
use crate::faults::{refuse, Fault};
use crate::layout::{due_frame, next_frame};
use crate::transport::{DM_SDS_ACK, DM_SDS_DATA};

/// The shortest message buffer.
pub const BUFFER: usize = 512;

/// From a header to the last due slot are at most nineteen frames: F + 1, fourteen more blocks,
/// and one frame 18. A header further back than this has no assembly open.
const REPORTS_TO_LAST_DUE: usize = 38;

/// The countdown is at most 3, so a repeat comes at most three frames, seven reports, later.
const REPORTS_TO_LAST_REPEAT: usize = 7;

/// What a report says. Kinds are the log's: 1 nothing, 2 SCH/S and SCH/H, 3 SCH/F.
pub struct Report<'a> {
    pub frame: u8,
    pub slot: u8,
    pub kind: u8,
    pub blocks: &'a [u8],
}

/// What a report is answered. `header` has the message's addresses, MNI, type and elements.
#[derive(Clone, Debug, Default, PartialEq, Eq)]
pub struct Answer {
    pub outcome: u8,
    pub dropped: bool,
    pub fault: Fault,
    pub bits: usize,
    pub header: Fields,
    pub lost: Lost,
}

/// What is told of a DM-SDS DATA or DM-SDS ACK whose assembly was dropped (7.4.21): its source
/// address, 0 where that is absent, its message type, and the bits joined so far. Three zeros
/// where there is none; the type is never 0 where there is one.
#[derive(Clone, Debug, Default, PartialEq, Eq)]
pub struct Lost {
    pub source: u64,
    pub message_type: u64,
    pub bits: usize,
}

const NOTHING: u8 = 0;
const UNFRAGMENTED: u8 = 1;
const JOINED: u8 = 2;
const OPENED: u8 = 3;
const KEPT: u8 = 4;
const COPY: u8 = 5;

enum Heard {
    Nothing,
    Header(Header),
    Block(Continuation),
}

/// An accepted report. `breaks`: it does not follow the one accepted before it.
struct Accepted {
    frame: u8,
    slot: u8,
    breaks: bool,
    heard: Heard,
}

impl Accepted {
    fn header(&self) -> Option<&Header> {
        match &self.heard {
            Heard::Header(header) => Some(header),
            _ => None,
        }
    }

    fn fragmented_header(&self) -> Option<&Header> {
        self.header().filter(|header| header.fragmented)
    }

    fn block(&self) -> Option<&Continuation> {
        match &self.heard {
            Heard::Block(block) => Some(block),
            _ => None,
        }
    }
}

/// The settings and all accepted reports. `Receiver::default()` is the fresh one with zeros.
#[derive(Default)]
pub struct Receiver {
    individual: u64,
    group: u64,
    mni: u64,
    history: Vec<Accepted>,
}

impl Receiver {
    /// A fresh receiver, or fault 13.
    pub fn fresh(individual: u64, group: u64, mni: u64) -> Result<Receiver, Fault> {
        let settings = [individual, group, mni];
        refuse(13, !settings.iter().all(|&number| fits(number, 24)))?;
        Ok(Receiver {
            individual,
            group,
            mni,
            history: Vec::new(),
        })
    }

    /// Answers one report, and writes a message handed over to the buffer's start.
    pub fn report(&mut self, report: &Report, buffer: &mut [u8]) -> Answer {
        let mut answer = Answer::default();
        if let Err(fault) = check_report(report, buffer.len()) {
            answer.fault = fault;
            return answer;
        }
        answer.fault = self.accept(report);
        let now = self.history.len() - 1;
        let open = self.open_before(now);
        answer.outcome = self.outcome(now, open);
        answer.dropped = self.dropped(now, open);
        answer.lost = self.lost(now, open).unwrap_or_default();
        if let Some((header, message)) = self.message(now, open, answer.outcome) {
            let bytes = pack(&message);
            buffer[..bytes.len()].copy_from_slice(&bytes);
            answer.bits = message.len();
            answer.header = header.fields.clone();
        }
        answer
    }

    /// Adds a report to the history. A block that reads with a fault counts as nothing heard.
    fn accept(&mut self, report: &Report) -> Fault {
        let (heard, fault) = match hear(report) {
            Ok(heard) => (heard, 0),
            Err(fault) => (Heard::Nothing, fault),
        };
        let last = self.history.last();
        self.history.push(Accepted {
            frame: report.frame,
            slot: report.slot,
            breaks: last.is_some_and(|last| !follows(last, report)),
            heard,
        });
        fault
    }

    /// The header of the assembly that was open when report `now` came: the latest fragmented
    /// header heard from anyone, if it was for this unit and blocks are still to come.
    fn open_before(&self, now: usize) -> Option<usize> {
        let earliest = now.saturating_sub(REPORTS_TO_LAST_DUE);
        let fragmented = |&at: &usize| self.history[at].fragmented_header().is_some();
        let opened = (earliest..now).rev().find(fragmented)?;
        let open = self.is_for_this_unit(opened)
            && self.stands(opened, now - 1)
            && !self.is_whole(opened, now - 1);
        open.then_some(opened)
    }

    /// The due slots after a fragmented header, as far as they were told of (rule 1).
    fn due_slots(&self, opened: usize, upto: usize) -> Vec<usize> {
        let mut due = Vec::new();
        if let Some(header) = self.history[opened].fragmented_header() {
            for at in opened + 1..=upto {
                if is_due(header, due.len(), &self.history[at]) {
                    due.push(at);
                }
            }
        }
        due
    }

    /// Nothing since has dropped the assembly: no break, no fragmented header (rule 2), and
    /// every due slot brought a block of the due kind.
    fn stands(&self, opened: usize, upto: usize) -> bool {
        let since = &self.history[opened + 1..=upto];
        let due = self.due_slots(opened, upto);
        let drops = |report: &Accepted| report.breaks || report.fragmented_header().is_some();
        let of_due_kind = |(i, &at): (usize, &usize)| {
            let last = i + 1 == self.count(opened);
            self.history[at]
                .block()
                .is_some_and(|block| block.last == last)
        };
        !since.iter().any(drops) && due.iter().enumerate().all(of_due_kind)
    }

    /// All due slots have come.
    fn is_whole(&self, opened: usize, upto: usize) -> bool {
        self.due_slots(opened, upto).len() == self.count(opened)
    }

    /// The number of SCH/F slots that a header tells of.
    fn count(&self, at: usize) -> usize {
        self.history[at]
            .header()
            .map_or(0, |header| header.count as usize)
    }

    fn outcome(&self, now: usize, open: Option<usize>) -> u8 {
        match &self.history[now].heard {
            Heard::Nothing => NOTHING,
            Heard::Header(_) if !self.is_for_this_unit(now) => NOTHING,
            Heard::Header(header) if header.fragmented => OPENED,
            Heard::Header(_) if self.is_copy(now) => COPY,
            Heard::Header(_) => UNFRAGMENTED,
            Heard::Block(_) => match open {
                Some(opened) if !self.keeps(opened, now) => NOTHING,
                Some(opened) if self.is_whole(opened, now) => JOINED,
                Some(_) => KEPT,
                None => NOTHING,
            },
        }
    }

    /// Report `now` is in a due slot and the assembly stands.
    fn keeps(&self, opened: usize, now: usize) -> bool {
        self.due_slots(opened, now).last() == Some(&now) && self.stands(opened, now)
    }

    /// An open assembly ended without being handed over, and not by its own header's repeat.
    fn dropped(&self, now: usize, open: Option<usize>) -> bool {
        open.is_some_and(|opened| !self.stands(opened, now) && !self.repeats(opened, now))
    }

    /// What is told of the assembly dropped at report `now`, if it was of one of the two types.
    /// What this report brings is not joined.
    fn lost(&self, now: usize, open: Option<usize>) -> Option<Lost> {
        let opened = open.filter(|_| self.dropped(now, open))?;
        let fields = &self.history[opened].header()?.fields;
        let told_of = [DM_SDS_DATA, DM_SDS_ACK].contains(&fields.message_type);
        told_of.then(|| Lost {
            source: fields.source,
            message_type: fields.message_type,
            bits: self.join(opened, now - 1).len(),
        })
    }

    /// The message handed over, with its header.
    fn message(
        &self,
        now: usize,
        open: Option<usize>,
        outcome: u8,
    ) -> Option<(&Header, Vec<bool>)> {
        match outcome {
            UNFRAGMENTED => {
                let header = self.history[now].header()?;
                Some((header, header.message().to_vec()))
            }
            JOINED => {
                let header = self.history[open?].header()?;
                Some((header, self.join(open?, now)))
            }
            _ => None,
        }
    }

    /// The header's message bits and then those of the blocks in the due slots.
    fn join(&self, opened: usize, upto: usize) -> Vec<bool> {
        let header = self.history[opened].header();
        let mut message = header.map_or(&[][..], Header::message).to_vec();
        for at in self.due_slots(opened, upto) {
            let block = self.history[at].block();
            message.extend(block.map_or(&[][..], Continuation::message));
        }
        message
    }

    /// Rule 4: any earlier well-formed header for this unit is repeated.
    fn is_copy(&self, now: usize) -> bool {
        let earliest = now.saturating_sub(REPORTS_TO_LAST_REPEAT);
        let mut ours = (earliest..now).filter(|&at| self.is_for_this_unit(at));
        ours.any(|earlier| self.repeats(earlier, now))
    }

    /// Rule 4's comparison of two headers: no break since, the same SCH/H bits but for the
    /// countdown, and the earlier countdown is the later one plus the frames gone by since.
    fn repeats(&self, earlier: usize, later: usize) -> bool {
        let since = &self.history[earlier + 1..=later];
        let frames = since.iter().filter(|report| report.slot == 1).count() as u64;
        let headers = (self.history[earlier].header(), self.history[later].header());
        let (Some(first), Some(second)) = headers else {
            return false;
        };
        !since.iter().any(|report| report.breaks)
            && first.but_for_countdown() == second.but_for_countdown()
            && first.fields.countdown == second.fields.countdown + frames
    }

    /// Report `at` brought a well-formed header to one of our true addresses, with our MNI.
    fn is_for_this_unit(&self, at: usize) -> bool {
        self.history[at].header().is_some_and(|header| {
            let fields = &header.fields;
            fields.dest_type == TRUE_ADDRESS
                && [self.individual, self.group].contains(&fields.dest)
                && fields.mni == self.mni
        })
    }
}

/// Faults 15, 16, 1, 17: the report is refused and has not happened.
fn check_report(report: &Report, buffer: usize) -> Result<(), Fault> {
    refuse(15, !(1..=18).contains(&report.frame))?;
    refuse(16, report.slot != 1 && report.slot != 3)?;
    refuse(1, length_of(report.kind) != Some(report.blocks.len()))?;
    refuse(17, buffer < BUFFER)
}

/// The bytes that a report of this kind brings.
pub fn length_of(kind: u8) -> Option<usize> {
    match kind {
        1 => Some(0),
        2 => Some(HEADER_BYTES),
        3 => Some(SCH_F_BYTES),
        _ => None,
    }
}

fn hear(report: &Report) -> Result<Heard, Fault> {
    let place = Place {
        frame: report.frame,
        slot: report.slot,
    };
    match report.kind {
        2 => {
            let (sch_s, sch_h) = report.blocks.split_at(SCH_S_BYTES);
            read_header(sch_s, sch_h, Some(place)).map(Heard::Header)
        }
        3 => read_continuation(report.blocks).map(Heard::Block),
        _ => Ok(Heard::Nothing),
    }
}

/// After slot 1 comes slot 3 of the same frame, then slot 1 of the next.
fn follows(last: &Accepted, report: &Report) -> bool {
    let expected = match last.slot {
        1 => (last.frame, 3),
        _ => (next_frame(last.frame), 1),
    };
    (report.frame, report.slot) == expected
}

/// True if this header tells of a block i, and the report's slot is that block's.
fn is_due(header: &Header, i: usize, report: &Accepted) -> bool {
    let (x, f) = (header.fields.frame as u8, header.fields.countdown as u8);
    let due = due_frame(x, f, i as u8);
    (i as u64) < header.count && report.slot == 1 && due == Ok(report.frame)
}

#[cfg(test)]
mod tests {
    use super::*;
    use crate::blocks::{build, continuation, sch_h};
    use crate::messages;

    /// A receiver with individual 1, group 2 and MNI 3, told of one slot after another.
    struct Air {
        receiver: Receiver,
        last: Answer,
        frame: u8,
        slot: u8,
        buffer: [u8; 600],
    }

    impl Air {
        fn at(frame: u8, slot: u8) -> Air {
            Air {
                receiver: Receiver::fresh(1, 2, 3).unwrap(),
                last: Answer::default(),
                frame,
                slot,
                buffer: [0x5A; 600],
            }
        }

        fn tell(&mut self, kind: u8, blocks: &[u8]) -> (u8, u8, u8, usize) {
            let (frame, slot) = (self.frame, self.slot);
            let report = Report {
                frame,
                slot,
                kind,
                blocks,
            };
            let answer = self.receiver.report(&report, &mut self.buffer);
            (self.frame, self.slot) = match slot {
                1 => (frame, 3),
                _ => (next_frame(frame), 1),
            };
            if !answer.dropped {
                assert_eq!(answer.lost, Lost::default());
            }
            self.last = answer.clone();
            (
                answer.outcome,
                answer.dropped.into(),
                answer.fault,
                answer.bits,
            )
        }

        /// A header for `dest` of n bits, sent here and now with this countdown.
        fn header(&mut self, dest: u64, n: u64, countdown: u64) -> (u8, u8, u8, usize) {
            self.header_of(&data(dest), n, countdown)
        }

        fn header_of(&mut self, fields: &Fields, n: u64, countdown: u64) -> (u8, u8, u8, usize) {
            let blocks = built(fields, n, countdown, self.frame, self.slot);
            self.tell(2, &blocks[..24])
        }

        /// Block i of a message of n bits.
        fn block(&mut self, n: u64, i: usize) -> (u8, u8, u8, usize) {
            let blocks = sent(1, n, 0, 1, 1);
            self.tell(3, &blocks[24 + 34 * i..58 + 34 * i])
        }

        fn nothing(&mut self, count: usize) {
            (0..count).for_each(|_| assert_eq!(self.tell(1, &[]), (0, 0, 0, 0)));
        }
    }

    /// A DM-SDS DATA from 9 (h = 103: 21 bits unfragmented, 17 before blocks).
    fn data(dest: u64) -> Fields {
        Fields {
            system: 13,
            dest,
            source: 9,
            mni: 3,
            message_type: 23,
            width: 8,
            ..Fields::default()
        }
    }

    /// A message of n bits, all of them 1.
    fn built(fields: &Fields, n: u64, countdown: u64, frame: u8, slot: u8) -> Vec<u8> {
        let fields = Fields {
            slot: u64::from(slot) - 1,
            frame: frame.into(),
            countdown,
            ..fields.clone()
        };
        build(&fields, n, &[0xFF; 512], 1_024).unwrap().bytes
    }

    fn sent(dest: u64, n: u64, countdown: u64, frame: u8, slot: u8) -> Vec<u8> {
        built(&data(dest), n, countdown, frame, slot)
    }

    const OPENED_NEW: (u8, u8, u8, usize) = (3, 0, 0, 0);
    const KEPT_ONE: (u8, u8, u8, usize) = (4, 0, 0, 0);
    const LOST: (u8, u8, u8, usize) = (0, 1, 0, 0);
    const UNTOUCHED: (u8, u8, u8, usize) = (0, 0, 0, 0);

    #[test]
    fn two_blocks_past_frame_18() {
        let n = 17 + 264 + 3;
        let mut air = Air::at(17, 1);
        assert_eq!(air.header(1, n, 0), OPENED_NEW);
        assert_eq!(air.header(1, n, 0), OPENED_NEW);
        assert_eq!(
            air.block(n, 0),
            UNTOUCHED,
            "slot 1 of frame 18 is no due slot"
        );
        air.nothing(1);
        assert_eq!(air.block(n, 0), KEPT_ONE);
        assert_eq!(air.block(n, 1), UNTOUCHED, "slot 3 is no due slot");
        assert_eq!(air.buffer, [0x5A; 600]);
        assert_eq!(air.block(n, 1), (2, 0, 0, 284));
        assert_eq!(air.buffer[..35], [0xFF; 35]);
        assert_eq!(air.buffer[35], 0xF0);
        assert_eq!(air.buffer[36..], [0x5A; 564]);
        assert_eq!(air.block(n, 1), UNTOUCHED);
    }

    #[test]
    fn header_fields_of_a_joined_message() {
        let mut air = Air::at(4, 3);
        air.header(2, 30, 0);
        assert_eq!(air.last.header, Fields::default());
        assert_eq!(air.block(30, 0), (2, 0, 0, 30));
        let header = &air.last.header;
        assert_eq!((header.dest, header.source, header.mni), (2, 9, 3));
        assert_eq!((header.message_type, header.width), (23, 8));
    }

    /// An assembly of two blocks, open before its first due slot, frame 6 slot 1.
    fn open() -> Air {
        let mut air = Air::at(5, 3);
        assert_eq!(air.header(1, 300, 0), OPENED_NEW);
        air
    }

    #[test]
    fn what_drops_in_a_due_slot() {
        assert_eq!(open().tell(1, &[]), LOST);
        assert_eq!(open().block(300, 1), LOST, "END before the last due slot");
        assert_eq!(open().tell(3, &[0; 34]), (0, 1, 12, 0));
        assert_eq!(open().header(7, 5, 0), LOST, "another unit's");
        assert_eq!(open().header(2, 5, 0), (1, 1, 0, 5));
        assert_eq!(open().header(1, 300, 0), (3, 1, 0, 0));
        let mut air = open();
        air.block(300, 0);
        air.nothing(1);
        assert_eq!(air.block(300, 0), LOST, "FRAG in the last due slot");
        assert_eq!(air.block(300, 1), UNTOUCHED);
    }

    #[test]
    fn what_comes_between_due_slots() {
        let with = |between: fn(&mut Air) -> (u8, u8, u8, usize)| {
            let mut air = open();
            air.block(300, 0);
            (between(&mut air), air.block(300, 1).0)
        };
        assert_eq!(with(|air| air.block(300, 1)), (UNTOUCHED, 2));
        assert_eq!(with(|air| air.tell(3, &[0; 34])), ((0, 0, 12, 0), 2));
        assert_eq!(with(|air| air.header(7, 5, 0)), (UNTOUCHED, 2));
        assert_eq!(with(|air| air.header(1, 5, 0)), ((1, 0, 0, 5), 2));
        assert_eq!(with(|air| air.header(7, 300, 0)), (LOST, 0));
        assert_eq!(with(|air| air.header(1, 300, 0)), ((3, 1, 0, 0), 0));
    }

    #[test]
    fn a_break_drops() {
        let mut air = open();
        air.frame = 7;
        assert_eq!(air.block(300, 0), LOST);
        let mut air = open();
        (air.frame, air.slot) = (5, 3);
        assert_eq!(air.header(1, 300, 0), (3, 1, 0, 0), "told of twice");
    }

    #[test]
    fn repeats_of_the_open_assemblys_header() {
        let mut air = Air::at(17, 1);
        assert_eq!(air.header(1, 300, 2), OPENED_NEW);
        assert_eq!(air.header(2, 5, 0), (1, 0, 0, 5));
        assert_eq!(air.header(1, 300, 1), OPENED_NEW);
        assert_eq!(
            air.header(1, 300, 2),
            (3, 1, 0, 0),
            "the countdown does not fit"
        );
        assert_eq!(air.header(1, 300, 1), OPENED_NEW);
        assert_eq!(air.header(7, 300, 1), LOST);
        assert_eq!(air.header(1, 300, 0), OPENED_NEW, "none was open");
    }

    #[test]
    fn the_mark_looks_at_the_open_assemblys_header_alone() {
        let mut air = Air::at(17, 1);
        assert_eq!(air.header(1, 300, 2), OPENED_NEW);
        assert_eq!(air.header(2, 300, 2), (3, 1, 0, 0));
        assert_eq!(air.header(1, 300, 1), (3, 1, 0, 0), "an earlier one's");
        assert_eq!(air.header(1, 300, 1), OPENED_NEW, "its own");
    }

    #[test]
    fn copies() {
        let mut air = Air::at(18, 1);
        assert_eq!(air.header(1, 5, 3).0, 1);
        assert_eq!(air.header(1, 5, 3).0, 5);
        assert_eq!(air.header(1, 5, 2).0, 5);
        assert_eq!(air.header(7, 5, 2).0, 0);
        assert_eq!(
            air.header(1, 5, 1).0,
            5,
            "a header for another unit between"
        );
        assert_eq!(air.header(1, 6, 1).0, 1);
        assert_eq!(
            air.header(1, 5, 0).0,
            5,
            "another header for this unit between"
        );
        assert_eq!(air.header(1, 5, 1).0, 1, "the countdown does not fit");
    }

    /// The outcomes of headers one slot after the other: a message's letter, and the countdown.
    fn told(headers: &str) -> String {
        let mut air = Air::at(17, 1);
        let outcomes = headers.split(' ').map(|header| {
            let (letter, countdown) = (header.as_bytes()[0], header.as_bytes()[1]);
            let n = u64::from(letter - b'a');
            let (outcome, dropped, fault, bits) = air.header(1, n, u64::from(countdown - b'0'));
            assert_eq!((dropped, fault), (0, 0));
            assert_eq!(bits, if outcome == 1 { n as usize } else { 0 });
            char::from(b'0' + outcome)
        });
        outcomes.collect()
    }

    #[test]
    fn two_senders_in_turn() {
        assert_eq!(told("a1 b1 a0"), "115");
        assert_eq!(told("a3 b3 a2 b2 a1 b1 a0 b0"), "11555555");
        assert_eq!(told("a1 b2 a0 b1 b0 a0 b0"), "1155511");
        assert_eq!(told("a3 b3 b2 b2 b1 b1 b0 a0"), "11555555");
    }

    #[test]
    fn three_senders_in_turn() {
        assert_eq!(told("a3 b3 c3 a2 b1 c2 a0 b0"), "11155555");
        assert_eq!(told("a3 b3 c3 a3 b2 c1 a1 b0"), "11111155");
    }

    /// Seven headers, each in a slot of its own, and then those that still can come again.
    #[test]
    fn seven_senders_in_turn() {
        let seven = "a3 b3 c3 d3 e3 f3 g3";
        for again in ["a0", "b0", "c1", "d1", "e2", "f2", "g3"] {
            assert_eq!(told(&format!("{seven} {again}")), "11111115", "{again}");
        }
        for misfit in ["a1", "b3", "c0", "d2", "e1", "f3", "g2"] {
            assert_eq!(told(&format!("{seven} {misfit}")), "11111111", "{misfit}");
        }
        let all = format!("{seven} a0 c0 d0 e0 f0 g0 g0");
        assert_eq!(told(&all), "11111115555555");
    }

    /// The same header with a countdown that fits none is handed over, and later ones fit either.
    #[test]
    fn copies_of_one_message_sent_twice() {
        assert_eq!(told("a3 a3 a3 a2 a1 a2 a0 a1"), "15155555");
        assert_eq!(told("a3 a3 a3 a2 a0 a3 a2 a0"), "15151155");
        assert_eq!(told("a3 b3 a3 b3 a2 b2 a0 b0 a0 b0"), "1111555555");
    }

    #[test]
    fn nothing_fits_once_the_countdown_has_run_out() {
        assert_eq!(told("a0 b0 a0 b0"), "1111");
        assert_eq!(told("a1 b3 a0 b2 a0"), "11551");
        assert_eq!(told("a2 b3 a1 b2 a0 b1 a0"), "1155551");
        assert_eq!(told("a3 b3 a2 b2 a1 b1 a0 b0 a0"), "115555551");
    }

    #[test]
    fn a_break_forgets_every_header() {
        let mut air = Air::at(17, 1);
        assert_eq!(air.header(1, 5, 3).0, 1);
        assert_eq!(air.header(1, 6, 3).0, 1);
        assert_eq!(air.header(1, 5, 2).0, 5);
        (air.frame, air.slot) = (1, 1);
        assert_eq!(air.header(1, 6, 1).0, 1, "a slot left out");
        assert_eq!(air.header(1, 5, 1).0, 1);
        assert_eq!(air.header(1, 6, 0).0, 5);
        assert_eq!(air.header(1, 5, 0).0, 5);
        (air.frame, air.slot) = (2, 3);
        assert_eq!(air.header(1, 5, 0).0, 1, "told of twice");
    }

    #[test]
    fn what_comes_between_two_copies() {
        let with = |between: fn(&mut Air) -> (u8, u8, u8, usize)| {
            let mut air = Air::at(17, 3);
            assert_eq!(air.header(1, 5, 2).0, 1);
            (between(&mut air), air.header(1, 5, 1))
        };
        let copy = (5, 0, 0, 0);
        assert_eq!(with(|air| air.header(1, 300, 3)), (OPENED_NEW, copy));
        assert_eq!(with(|air| air.header(7, 300, 3)), (UNTOUCHED, copy));
        assert_eq!(with(|air| air.header(7, 5, 1)), (UNTOUCHED, copy));
        assert_eq!(with(|air| air.header(2, 5, 1)), ((1, 0, 0, 5), copy));
        assert_eq!(with(|air| air.header(1, 5, 0)), ((1, 0, 0, 5), copy));
        assert_eq!(with(|air| air.tell(1, &[])), (UNTOUCHED, copy));
        assert_eq!(with(|air| air.block(300, 0)), (UNTOUCHED, copy));
        assert_eq!(with(|air| air.tell(2, &[0; 24])), ((0, 0, 3, 0), copy));
    }

    /// Nor is one that reads with a fault, or whose report was refused.
    #[test]
    fn a_header_for_another_unit_is_no_earlier_one() {
        let mut air = Air::at(17, 1);
        assert_eq!(air.header(7, 5, 3), UNTOUCHED);
        assert_eq!(air.header(7, 5, 3), UNTOUCHED);
        assert_eq!(air.header(1, 5, 2), (1, 0, 0, 5));
        let mut damaged = sent(1, 6, 2, 18, 3);
        damaged[23] |= 1;
        assert_eq!(air.tell(2, &damaged[..24]), (0, 0, 2, 0));
        assert_eq!(air.header(1, 6, 1), (1, 0, 0, 6));
        let refused = Report {
            frame: 1,
            slot: 2,
            kind: 2,
            blocks: &sent(1, 7, 1, 1, 1)[..24],
        };
        assert_eq!(air.receiver.report(&refused, &mut air.buffer).fault, 16);
        assert_eq!(air.header(1, 7, 1), (1, 0, 0, 7));
    }

    #[test]
    fn no_copy_after_a_break_or_eighteen_frames() {
        let mut air = Air::at(3, 1);
        assert_eq!(air.header(1, 5, 1).0, 1);
        (air.frame, air.slot) = (3, 1);
        assert_eq!(air.header(1, 5, 1).0, 1, "a break at this report");
        air.nothing(35);
        assert_eq!((air.frame, air.slot), (3, 1));
        assert_eq!(air.header(1, 5, 1).0, 1, "eighteen frames later");
    }

    #[test]
    fn the_last_repeat_comes_seven_reports_later() {
        let mut air = Air::at(3, 1);
        assert_eq!(air.header(1, 5, 3).0, 1);
        air.nothing(6);
        assert_eq!(air.header(1, 5, 0).0, 5);
    }

    #[test]
    fn the_last_block_comes_thirty_eight_reports_later() {
        let n = 17 + 15 * 264;
        let mut air = Air::at(5, 1);
        air.header(1, n, 3);
        air.nothing(7);
        for i in 0..14 {
            assert_eq!(air.block(n, i), KEPT_ONE);
            air.nothing(if air.frame == 17 { 3 } else { 1 });
        }
        assert_eq!(air.receiver.history.len(), 38);
        assert_eq!(air.block(n, 14), (2, 0, 0, 3_977));
    }

    #[test]
    fn a_refused_report_has_not_happened() {
        let mut air = open();
        let mut refused = |frame, slot, kind, blocks: &[u8], buffer: usize| {
            let report = Report {
                frame,
                slot,
                kind,
                blocks,
            };
            air.receiver
                .report(&report, &mut air.buffer[..buffer])
                .fault
        };
        assert_eq!(refused(0, 2, 9, &[], 0), 15);
        assert_eq!(refused(19, 1, 1, &[], 512), 15);
        assert_eq!(refused(18, 2, 9, &[], 0), 16);
        assert_eq!(refused(18, 1, 9, &[], 0), 1);
        assert_eq!(refused(18, 1, 3, &[], 0), 1);
        assert_eq!(refused(18, 1, 1, &[], 511), 17);
        assert_eq!(air.block(300, 0), KEPT_ONE);
    }

    /// A message to 1 from 9 of a type, its elements all 0.
    fn of_type(message_type: u64) -> Fields {
        let width = messages::width(message_type, &[false; 40]).unwrap();
        Fields {
            message_type,
            width: width as u64,
            ..data(1)
        }
    }

    /// An assembly of three blocks (n = 600), open with so many of them kept; the next report is in
    /// slot 1 of frame 6, 7 or 8, the next due slot.
    fn open_with(fields: &Fields, kept: usize) -> Air {
        let mut air = Air::at(5, 3);
        assert_eq!(air.header_of(fields, 600, 0), OPENED_NEW);
        for i in 0..kept {
            assert_eq!(air.block(600, i), KEPT_ONE);
            air.nothing(1);
        }
        air
    }

    fn lost(source: u64, message_type: u64, bits: usize) -> Lost {
        Lost {
            source,
            message_type,
            bits,
        }
    }

    type Way = fn(&mut Air, usize) -> (u8, u8, u8, usize);

    /// What drops that assembly in a due slot: nothing; a block and a header with a fault; DMAC-END
    /// before the last due slot, or DMAC-FRAG in it; headers, fragmented or not, for another unit
    /// or this one.
    const IN_A_DUE_SLOT: [Way; 8] = [
        |air, _| air.tell(1, &[]),
        |air, _| air.tell(3, &[0; 34]),
        |air, _| air.tell(2, &[0; 24]),
        |air, kept| air.block(600, if kept < 2 { 2 } else { 0 }),
        |air, _| air.header(7, 300, 0),
        |air, _| air.header(1, 300, 0),
        |air, _| air.header(7, 5, 0),
        |air, _| air.header(2, 5, 0),
    ];

    /// Breaks: a slot left out, with nothing, with the due block, with a header for this unit and
    /// one for another; a report twice; one that goes back.
    const BREAKS: [Way; 6] = [
        |air, _| skipped(air).tell(1, &[]),
        |air, kept| skipped(air).block(600, kept),
        |air, _| skipped(air).header(1, 300, 0),
        |air, _| skipped(air).header(7, 300, 0),
        |air, kept| {
            (air.frame, air.slot) = (5 + kept as u8, 3);
            air.tell(1, &[])
        },
        |air, _| {
            air.frame = 5;
            air.header(1, 600, 0)
        },
    ];

    fn skipped(air: &mut Air) -> &mut Air {
        air.slot = 3;
        air
    }

    /// 25 bits of an SCH/H are left for the elements and the message.
    #[test]
    fn each_type_in_each_way_of_being_dropped() {
        let types = (0..32).filter(|&number| messages::elements(number).is_some());
        for fields in types.map(of_type) {
            for (number, way) in IN_A_DUE_SLOT.iter().chain(&BREAKS).enumerate() {
                for kept in 0..=2 {
                    let mut air = open_with(&fields, kept);
                    assert_eq!(way(&mut air, kept).1, 1);
                    let bits = 25 - fields.width as usize + 264 * kept;
                    let expected = match fields.message_type {
                        23 => lost(9, 23, bits),
                        24 => lost(9, 24, bits),
                        _ => lost(0, 0, 0),
                    };
                    let case = (fields.message_type, number, kept);
                    assert_eq!(air.last.lost, expected, "{case:?}");
                }
            }
        }
    }

    /// The same in the slot before a due slot, where only a fragmented header drops, or a break.
    #[test]
    fn lost_between_due_slots() {
        for (kept, bits) in [(1, 281), (2, 545)] {
            let between = |way: Way| {
                let mut air = open_with(&data(1), kept - 1);
                assert_eq!(air.block(600, kept - 1), KEPT_ONE);
                (way(&mut air, kept).1, air.last.lost)
            };
            for (number, way) in IN_A_DUE_SLOT.into_iter().enumerate() {
                let expected = match number {
                    4 | 5 => (1, lost(9, 23, bits)),
                    _ => (0, lost(0, 0, 0)),
                };
                assert_eq!(between(way), expected, "{number}");
            }
            let left_out: Way = |air, kept| {
                (air.frame, air.slot) = (6 + kept as u8, 1);
                air.block(600, kept)
            };
            assert_eq!(between(left_out), (1, lost(9, 23, bits)));
        }
    }

    #[test]
    fn an_assembly_of_one_block_lost() {
        let mut air = Air::at(5, 3);
        assert_eq!(air.header_of(&of_type(24), 100, 0), OPENED_NEW);
        assert_eq!(air.block(600, 0), LOST, "FRAG in the last due slot");
        assert_eq!(air.last.lost, lost(9, 24, 24));
        let mut air = Air::at(17, 1);
        assert_eq!(air.header(1, 100, 0), OPENED_NEW);
        air.nothing(3);
        assert_eq!(air.tell(1, &[]), LOST, "frame 1");
        assert_eq!(air.last.lost, lost(9, 23, 17));
    }

    #[test]
    fn the_longest_lost() {
        let fields = Fields {
            source_type: 2,
            source: 0,
            ..of_type(24)
        };
        let mut air = Air::at(17, 3);
        assert_eq!(air.header_of(&fields, 48 + 15 * 264, 0), OPENED_NEW);
        air.nothing(2);
        for _ in 0..14 {
            assert_eq!(air.block(600, 0), KEPT_ONE);
            air.nothing(1);
        }
        assert_eq!(air.block(600, 0), LOST);
        assert_eq!(air.last.lost, lost(0, 24, 48 + 14 * 264));
    }

    #[test]
    fn sources_of_lost_ones() {
        let largest = (1 << 24) - 1;
        // The address that is absent leaves 24 bits more to the message.
        for (source_type, source, head) in [(0, largest, 17), (1, 5, 17), (0, 0, 17), (2, 0, 41)] {
            let fields = Fields {
                source_type,
                source,
                ..data(1)
            };
            let mut air = open_with(&fields, 1);
            assert_eq!(air.tell(1, &[]), LOST);
            assert_eq!(air.last.lost, lost(source, 23, head + 264));
        }
    }

    /// Fill leaves fewer bits, or none, in a header and in a block.
    #[test]
    fn bits_of_lost_ones() {
        let open = |head: usize| {
            let sch_h = sch_h(&data(1), &[true; 17][..head], 3).block();
            let mut air = Air::at(5, 3);
            let header = [&sent(1, 600, 0, 5, 3)[..8], &sch_h].concat();
            assert_eq!(air.tell(2, &header), OPENED_NEW);
            air
        };
        for (head, part) in [(0, 0), (0, 263), (5, 0), (16, 1)] {
            let mut room = [false; 264];
            room[..=part].fill(true);
            let mut air = open(head);
            assert_eq!(air.tell(3, &continuation(false, true, &room)), KEPT_ONE);
            air.nothing(1);
            assert_eq!(air.tell(3, &continuation(true, true, &room)), LOST);
            assert_eq!(air.last.lost, lost(9, 23, head + part), "not the END's");
            let mut air = open(head);
            assert_eq!(air.tell(1, &[]), LOST);
            assert_eq!(air.last.lost, lost(9, 23, head), "the type marks it");
        }
    }

    #[test]
    fn a_repeat_loses_nothing() {
        let told = [lost(0, 0, 0), lost(9, 23, 17), lost(9, 24, 24)];
        for (fields, told) in [22, 23, 24].map(of_type).iter().zip(told) {
            let mut air = Air::at(17, 1);
            for countdown in [2, 2, 1, 1, 0] {
                assert_eq!(air.header_of(fields, 600, countdown), OPENED_NEW);
            }
            (air.frame, air.slot) = (1, 1);
            assert_eq!(air.header_of(fields, 600, 0), (3, 1, 0, 0), "told twice");
            assert_eq!(air.last.lost, told);
            assert_eq!(air.header_of(fields, 600, 0), OPENED_NEW);
            assert_eq!(air.header_of(fields, 600, 0), (3, 1, 0, 0), "a due slot");
            assert_eq!(air.last.lost, told);
        }
    }

    /// Each header drops the assembly of the one before it, which is the one that is told of.
    #[test]
    fn one_header_after_another() {
        let mut air = Air::at(5, 1);
        assert_eq!(air.header_of(&of_type(24), 600, 3), OPENED_NEW);
        assert_eq!(air.header_of(&of_type(22), 600, 3), (3, 1, 0, 0));
        assert_eq!(air.last.lost, lost(9, 24, 24));
        assert_eq!(air.header(1, 600, 3), (3, 1, 0, 0));
        assert_eq!(air.last.lost, lost(0, 0, 0));
        (air.frame, air.slot) = (9, 3);
        assert_eq!(air.header_of(&of_type(24), 600, 0), (3, 1, 0, 0), "a break");
        assert_eq!(air.last.lost, lost(9, 23, 17));
        assert_eq!(air.block(600, 0), KEPT_ONE);
        assert_eq!(air.header(7, 600, 3), LOST);
        assert_eq!(air.last.lost, lost(9, 24, 288));
        assert_eq!(air.header(1, 600, 3), OPENED_NEW, "none was open");
    }

    /// From a repeat of its header, after it was told lost.
    #[test]
    fn lost_and_joined_later() {
        let mut air = Air::at(5, 1);
        assert_eq!(air.header(1, 300, 1), OPENED_NEW);
        assert_eq!(air.header(7, 300, 0), LOST);
        assert_eq!(air.last.lost, lost(9, 23, 17));
        air.nothing(1);
        assert_eq!(air.header(1, 300, 0), OPENED_NEW);
        assert_eq!(air.block(300, 0), KEPT_ONE);
        air.nothing(1);
        assert_eq!(air.block(300, 1), (2, 0, 0, 300));
        air.frame = 1;
        assert_eq!(air.tell(1, &[]), UNTOUCHED, "a break with none open");
    }

    #[test]
    fn a_refused_report_loses_nothing() {
        let mut air = open_with(&data(1), 1);
        for (frame, slot, kind, fault) in
            [(19, 1, 1, 15), (7, 2, 1, 16), (7, 1, 3, 1), (9, 3, 9, 1)]
        {
            let report = Report {
                frame,
                slot,
                kind,
                blocks: &[],
            };
            let answer = air.receiver.report(&report, &mut air.buffer);
            let expected = Answer {
                fault,
                ..Answer::default()
            };
            assert_eq!(answer, expected);
        }
        assert_eq!(air.tell(1, &[]), LOST);
        assert_eq!(air.last.lost, lost(9, 23, 281));
    }

    #[test]
    fn a_header_is_for_this_unit() {
        let told = |dest, mni, dest_type| {
            let mut blocks = sent(dest, 5, 0, 1, 1);
            blocks[9] |= dest_type;
            let mut receiver = Receiver::fresh(1, 2, mni).unwrap();
            let report = Report {
                frame: 1,
                slot: 1,
                kind: 2,
                blocks: &blocks[..24],
            };
            receiver.report(&report, &mut [0; 512]).outcome
        };
        assert_eq!(told(1, 3, 0), 1);
        assert_eq!(told(2, 3, 0), 1);
        assert_eq!(told(3, 3, 0), 0);
        assert_eq!(told(1, 4, 0), 0);
        assert_eq!(told(1, 3, 1), 0, "a pseudo address");
    }

    #[test]
    fn settings() {
        let largest = (1 << 24) - 1;
        assert!(Receiver::fresh(largest, largest, largest).is_ok());
        assert_eq!(Receiver::fresh(1 << 24, 0, 0).err(), Some(13));
        assert_eq!(Receiver::fresh(0, 1 << 24, 0).err(), Some(13));
        assert_eq!(Receiver::fresh(0, 0, 1 << 24).err(), Some(13));
    }
}
