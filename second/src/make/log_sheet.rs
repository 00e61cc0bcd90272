//! The fixed sheet of reports: a slot log over every rule of the receiver, for one unit.

use super::drops::{put_fault, put_first_header, put_header, Change, WAYS};
use super::logs::{after, draw_message, episodes, for_another, for_this_unit};
use super::logs::{headers_in, merge, push, send, Slot};
use super::parts::{draw_continuation, fields_of, record};
use super::parts::{Message, Raw, Unit, HEADER_FAULTS};
use super::records;
use super::rng::Rng;
use crate::blocks::{HEADER_BYTES, SCH_F_BYTES, TRUE_ADDRESS};
use crate::layout::{Cut, BLOCK_ROOM};
use crate::transport::{DM_SDS_ACK, DM_SDS_DATA, DM_SDS_UDATA};

/// The sheet as far as it is written.
struct Sheet {
    rng: Rng,
    unit: Unit,
    records: Vec<Vec<u8>>,
}

/// The whole sheet, with a record that is cut at its end and a report after that.
pub fn slots() -> Vec<u8> {
    let mut sheet = Sheet::begun();
    sheet.every_run();
    sheet.every_cut();
    sheet.every_change();
    sheet.every_drop();
    sheet.every_countdown();
    sheet.every_copy();
    sheet.every_two_in_turn();
    sheet.every_three_in_turn();
    sheet.every_one_again();
    sheet.every_three_countdowns();
    sheet.every_change_among_copies();
    sheet.every_header_fault();
    sheet.every_place();
    sheet.mutated();
    sheet.longest_records();
    sheet.records.push(record(2, &[5, 1, 0xD0]));
    sheet.tell(&[Slot::nothing((5, 1))]);
    sheet.records.concat()
}

impl Sheet {
    /// The settings alone.
    fn begun() -> Sheet {
        let unit = Unit {
            individual: 5_001,
            group: 900,
            mni: 901,
        };
        Sheet {
            rng: Rng::new(0, 9),
            records: vec![unit.record()],
            unit,
        }
    }

    fn tell(&mut self, slots: &[Slot]) {
        self.records.extend(slots.iter().map(Slot::record));
    }

    /// A message for this unit of so many blocks.
    fn message(&mut self, blocks: usize) -> Message {
        let fields = for_this_unit(&mut self.rng, &self.unit, true).fields;
        Message::of(&mut self.rng, fields, blocks)
    }

    fn message_of(&mut self, message_type: u64, blocks: usize) -> Message {
        let mut fields = fields_of(&mut self.rng, message_type, 0);
        fields.dest = self.rng.pick(&[self.unit.individual, self.unit.group]);
        fields.mni = self.unit.mni;
        Message::of(&mut self.rng, fields, blocks)
    }

    /// Every frame X with every F, one to fifteen blocks; all headers heard, or one of them.
    fn every_run(&mut self) {
        for x in 1..=18 {
            for f in 0..=3 {
                let blocks = (5 * x as usize + 3 * f as usize) % 15 + 1;
                let mut run = send(&self.message(blocks), x, f);
                let headers = 2 * (usize::from(f) + 1);
                let heard = self.rng.index(2 * headers);
                for at in (0..headers).filter(|&at| heard < headers && at != heard) {
                    run[at].put(1, Vec::new());
                }
                self.tell(&run);
            }
        }
    }

    /// One message, cut at one place and at another: the same bits are handed over each time.
    fn every_cut(&mut self) {
        let mut fields = self.message_of(DM_SDS_DATA, 1).fields;
        (fields.source_type, fields.source) = (TRUE_ADDRESS, 7);
        let bits = self.rng.bits(BLOCK_ROOM);
        for (cut, x) in cuts().into_iter().zip((1..=18).cycle()) {
            let message = Message {
                fields: fields.clone(),
                bits: bits.clone(),
                cut,
            };
            self.tell(&send(&message, x, x % 2));
        }
    }

    /// Every change at every due slot of runs of one to three blocks, and at the slot before it.
    fn every_change(&mut self) {
        let mut x = 0;
        for change in CHANGES {
            for (blocks, i) in [(1, 0), (2, 0), (2, 1), (3, 0), (3, 1), (3, 2)] {
                for before in 0..=1 {
                    x = x % 18 + 1;
                    let mut run = send(&self.message(blocks), x, 0);
                    let due = (0..run.len()).filter(|&at| run[at].due).nth(i);
                    let at = due.expect("the block has a slot") - before;
                    change(&mut self.rng, &self.unit, &mut run, at);
                    self.tell(&run);
                }
            }
        }
    }

    /// Every way of being dropped, at every due slot of a message of one block and of three: a DM-SDS
    /// DATA, a DM-SDS ACK, and one that is not told of when it is lost. Then each is handed over, with
    /// all its repeats.
    fn every_drop(&mut self) {
        let mut x = 0;
        for message_type in [DM_SDS_DATA, DM_SDS_ACK, DM_SDS_UDATA] {
            let changes = WAYS
                .iter()
                .flat_map(|way| way.changes.iter().map(move |change| (way, change)));
            for (way, change) in changes {
                for (blocks, i) in [(1, 0), (3, 0), (3, 1), (3, 2)] {
                    x = x % 18 + 1;
                    let mut run = send(&self.message_of(message_type, blocks), x, x % 2);
                    if let Some(&at) = way.due_slots(&run).get(i) {
                        change(&mut self.rng, &self.unit, &mut run, at);
                        self.tell(&run);
                    }
                }
            }
            let whole = send(&self.message_of(message_type, 3), x, 3);
            self.tell(&whole);
        }
    }

    /// A header and the same one again up to eight slots later, with every two countdowns.
    fn every_countdown(&mut self) {
        for fragmented in [false, true] {
            for first in 0..=3 {
                for second in 0..=3 {
                    for gap in 0..=8 {
                        let message = for_this_unit(&mut self.rng, &self.unit, fragmented);
                        let place = (self.rng.between(1, 18) as u8, self.rng.pick(&[1, 3]));
                        self.tell(&twice(&message, place, (first, second), gap));
                    }
                }
            }
        }
    }

    /// A repeat that fits, with something between the two or with another bit in one of them.
    fn every_copy(&mut self) {
        for fragmented in [false, true] {
            for between in COPIES {
                for gone in 0..=3 {
                    let message = for_this_unit(&mut self.rng, &self.unit, fragmented);
                    let place = (self.rng.between(1, 18) as u8, 1);
                    let gap = 2 * usize::from(gone) + 1;
                    let mut run = twice(&message, place, (3, 3 - gone), gap);
                    between(&mut self.rng, &self.unit, &mut run, gap / 2 + 1);
                    self.tell(&run);
                }
            }
        }
    }

    /// So many unfragmented messages for this unit.
    fn short_ones(&mut self, count: usize) -> Vec<Message> {
        (0..count)
            .map(|_| for_this_unit(&mut self.rng, &self.unit, false))
            .collect()
    }

    /// Two messages in turn, with every two countdowns; the second is for this unit or another,
    /// fragmented or not.
    fn every_two_in_turn(&mut self) {
        for (ours, fragmented) in [(true, false), (true, true), (false, false), (false, true)] {
            for f in 0..=3 {
                for g in 0..=3 {
                    let first = for_this_unit(&mut self.rng, &self.unit, false);
                    let second = draw_message(&mut self.rng, &self.unit, ours, fragmented);
                    let x = self.rng.between(1, 18) as u8;
                    self.tell(&two_in_turn((&first, f), (&second, g), x));
                }
            }
        }
    }

    /// Three messages in every order, and then each of them in its place for another unit,
    /// fragmented, or the same as its neighbour.
    fn every_three_in_turn(&mut self) {
        for (first, second) in [(0, 1), (0, 2), (1, 0), (1, 2), (2, 0), (2, 1)] {
            let messages = self.short_ones(3);
            self.three_in_turn(&messages, [first, second, 3 - first - second]);
        }
        for odd in 0..3 {
            for sort in 0..4 {
                let mut messages = self.short_ones(3);
                messages[odd] = match sort {
                    0 => for_another(&mut self.rng, &self.unit, false),
                    1 => for_another(&mut self.rng, &self.unit, true),
                    2 => self.message(2),
                    _ => messages[(odd + 1) % 3].clone(),
                };
                self.three_in_turn(&messages, [0, 1, 2]);
            }
        }
    }

    /// Three messages that begin in the same slot; one of them is heard, then the next.
    fn three_in_turn(&mut self, messages: &[Message], order: [usize; 3]) {
        let x = self.rng.between(1, 18) as u8;
        let runs: Vec<Vec<Slot>> = messages.iter().map(|message| send(message, x, 3)).collect();
        let mut turns = order.into_iter().cycle();
        let heard = merge(&runs, |on_air| {
            let next = turns.find(|turn| on_air.contains(turn));
            next.expect("it is one of the three")
        });
        self.tell(&heard);
    }

    /// One to eight headers, each in a slot of its own, and in the next slot each of them again.
    fn every_one_again(&mut self) {
        for count in 1..=8 {
            for again in 0..count {
                for slot in [1, 3] {
                    let messages = self.short_ones(count);
                    let place = (self.rng.between(1, 18) as u8, slot);
                    self.tell(&once_and_again(&messages, place, again));
                }
            }
        }
    }

    /// Two messages in turn, three times each, with every three countdowns.
    fn every_three_countdowns(&mut self) {
        for number in 0..64 {
            let messages = self.short_ones(2);
            let mut slots = Vec::new();
            let mut place = (self.rng.between(1, 18) as u8, 1);
            for countdown in [number / 16, number / 4 % 4, number % 4] {
                for message in &messages {
                    let header = message.blocks(place.0, place.1, countdown);
                    place = push(&mut slots, place, 2, header[0].clone());
                }
            }
            self.tell(&slots);
        }
    }

    /// Every change within the headers of two messages in turn.
    fn every_change_among_copies(&mut self) {
        for change in CHANGES.into_iter().chain(COPIES) {
            for at in [2, 3, 5] {
                let messages = self.short_ones(2);
                let x = self.rng.between(1, 18) as u8;
                let mut run = two_in_turn((&messages[0], 3), (&messages[1], 3), x);
                change(&mut self.rng, &self.unit, &mut run, at);
                self.tell(&run);
            }
        }
    }

    /// Every fault of a header by itself, and every two of them.
    fn every_header_fault(&mut self) {
        for first in HEADER_FAULTS {
            for second in HEADER_FAULTS {
                let fragmented = self.rng.chance(50);
                let message = for_this_unit(&mut self.rng, &self.unit, fragmented);
                let frame = self.rng.between(1, 18) as u8;
                let mut slots = twice(&message, (frame, 1), (0, 0), 0);
                if let Some(mut raw) = Raw::of(&slots[1].blocks) {
                    raw.damage(&mut self.rng, first);
                    raw.damage(&mut self.rng, second);
                    slots[1].put(2, raw.bytes());
                }
                self.tell(&slots);
            }
        }
    }

    /// Frames and slots that there are and that there are not, with each kind of report.
    fn every_place(&mut self) {
        for frame in [0, 1, 17, 18, 19, 20, 31, 32, 128, 255] {
            for slot in [0, 1, 2, 3, 4, 5, 128, 129, 254, 255] {
                for (kind, bytes) in [(1, 0), (2, HEADER_BYTES), (3, SCH_F_BYTES)] {
                    let mut report = Slot::nothing((frame, slot));
                    report.put(kind, vec![0x60; bytes]);
                    self.tell(&[report]);
                }
            }
        }
    }

    /// Mutated runs, with records between them that are no reports.
    fn mutated(&mut self) {
        for slot in episodes(&mut self.rng, &self.unit, 2_000) {
            if self.rng.chance(3) {
                let odd = records::odd(&mut self.rng, &self.unit, &slot);
                self.records.extend((odd.len() < 1_000).then_some(odd));
            }
            self.tell(&[slot]);
        }
    }

    /// Records that are skipped, up to the longest that there is, within a run.
    fn longest_records(&mut self) {
        let mut run = send(&self.message(3), 16, 1).into_iter();
        for length in [4_096, 4_097, 32_766, 65_533] {
            self.tell(&run.by_ref().take(2).collect::<Vec<Slot>>());
            self.records.push(record(9, &vec![0; length]));
        }
        self.records.push(record(3, &[0x60; 37]));
        self.tell(&run.collect::<Vec<Slot>>());
    }
}

/// A header, so many slots of nothing, and the same header again.
fn twice(message: &Message, place: (u8, u8), countdowns: (u8, u8), gap: usize) -> Vec<Slot> {
    let mut slots = Vec::new();
    let header = |place: (u8, u8), countdown| message.blocks(place.0, place.1, countdown).remove(0);
    let mut next = push(&mut slots, place, 2, header(place, countdowns.0));
    for _ in 0..gap {
        next = push(&mut slots, next, 1, Vec::new());
    }
    push(&mut slots, next, 2, header(next, countdowns.1));
    slots
}

/// Two messages with their countdowns: the headers of the first in slot 1, of the second in slot 3.
fn two_in_turn(first: (&Message, u8), second: (&Message, u8), x: u8) -> Vec<Slot> {
    let mut runs = [send(first.0, x, first.1), send(second.0, x, second.1)];
    headers_in(&mut runs[0], &[1]);
    headers_in(&mut runs[1], &[3]);
    merge(&runs, |on_air| on_air[0])
}

/// Headers with countdown 3, one slot after the other, and one of them again, its countdown less
/// by the frames gone by, or 3 again after four.
fn once_and_again(messages: &[Message], place: (u8, u8), again: usize) -> Vec<Slot> {
    let mut slots = Vec::new();
    let mut next = place;
    for message in messages {
        let header = message.blocks(next.0, next.1, 3);
        next = push(&mut slots, next, 2, header[0].clone());
    }
    let gone = (next.0 + 18 - slots[again].frame) % 18;
    let header = messages[again].blocks(next.0, next.1, 3 - gone % 4);
    push(&mut slots, next, 2, header[0].clone());
    slots
}

/// Cuts of 264 bits where a fragmented header has room for 17.
fn cuts() -> [Cut; 14] {
    let parts: [(usize, &[usize]); 14] = [
        // As they are laid out; in the header a bit less, a bit, none.
        (17, &[247]),
        (16, &[248]),
        (1, &[263]),
        (0, &[264]),
        // Empty blocks in front, at the end, in the middle.
        (0, &[0, 264]),
        (17, &[0, 0, 247]),
        (0, &[264, 0]),
        (17, &[247, 0, 0]),
        (0, &[132, 0, 132]),
        // Fifteen blocks: bit by bit and the rest, all alike, all but one of them empty.
        (17, &[1, 1, 1, 1, 1, 1, 1, 1, 1, 1, 1, 1, 1, 1, 233]),
        (0, &[250, 1, 1, 1, 1, 1, 1, 1, 1, 1, 1, 1, 1, 1, 1]),
        (9, &[17; 15]),
        (0, &[0, 0, 0, 0, 0, 0, 0, 0, 0, 0, 0, 0, 0, 0, 264]),
        (17, &[247, 0, 0, 0, 0, 0, 0, 0, 0, 0, 0, 0, 0, 0, 0]),
    ];
    parts.map(|(head, blocks)| Cut {
        head,
        blocks: blocks.to_vec(),
    })
}

/// What can go wrong, or seem to, at a report of a run.
const CHANGES: [Change; 22] = [
    |_, _, run, at| run[at].put(1, Vec::new()),
    |rng, _, run, at| run[at].put(3, draw_continuation(rng, false)),
    |rng, _, run, at| run[at].put(3, draw_continuation(rng, true)),
    |rng, _, run, at| put_fault(rng, &mut run[at], 2),
    |rng, _, run, at| put_fault(rng, &mut run[at], 12),
    |rng, _, run, at| put_fault(rng, &mut run[at], 11),
    |rng, unit, run, at| put_header(rng, unit, &mut run[at], true, false),
    |rng, unit, run, at| put_header(rng, unit, &mut run[at], false, false),
    |rng, unit, run, at| put_header(rng, unit, &mut run[at], true, true),
    |rng, unit, run, at| put_header(rng, unit, &mut run[at], false, true),
    |rng, unit, run, at| {
        put_header(rng, unit, &mut run[at], true, true);
        run[at].blocks[HEADER_BYTES - 1] |= 1;
    },
    |_, _, run, at| put_first_header(run, at),
    // No message bits, or one bit of fill.
    |_, _, run, at| {
        let last = run[at].blocks.first().map_or(0x20, |byte| byte & 0x20);
        run[at].put(3, [&[0x58 | last][..], &[0; 33]].concat());
    },
    |_, _, run, at| {
        let last = run[at].blocks.first().map_or(0x20, |byte| byte & 0x20);
        run[at].put(3, [&[0x50 | last][..], &[0; 32], &[0x10]].concat());
    },
    // Breaks: left out, told twice, gone back, gone on.
    |_, _, run, at| drop(run.remove(at)),
    |_, _, run, at| run.insert(at, run[at].clone()),
    |_, _, run, at| run.insert(at, run[at - 1].clone()),
    |_, _, run, at| run.insert(at + 1, run[at - 1].clone()),
    |_, _, run, at| {
        run.truncate(at);
        let place = (run[at - 1].frame, run[at - 1].slot);
        run.push(Slot::nothing(after(after(place))));
    },
    // Refused reports have not happened.
    |_, _, run, at| {
        let mut refused = run[at].clone();
        refused.frame = 19;
        run.insert(at, refused);
    },
    |_, _, run, at| {
        let mut refused = run[at].clone();
        refused.slot = 2;
        run.insert(at, refused);
    },
    |_, _, _, _| (),
];

/// What may come between a header and its repeat, or be another in one of the two.
const COPIES: [Change; 12] = [
    |_, _, _, _| (),
    |rng, unit, run, at| put_header(rng, unit, &mut run[at], true, false),
    |rng, unit, run, at| put_header(rng, unit, &mut run[at], false, false),
    |rng, unit, run, at| put_header(rng, unit, &mut run[at], true, true),
    |rng, unit, run, at| put_header(rng, unit, &mut run[at], false, true),
    |rng, _, run, at| run[at].put(3, draw_continuation(rng, true)),
    |_, _, run, at| run.insert(at, run[at - 1].clone()),
    |_, _, run, at| drop(run.remove(at)),
    // A bit of SCH/S, and one of SCH/H.
    |rng, _, run, _| {
        let slot = run.last_mut().expect("a run has reports");
        slot.blocks[0] = rng.pick(&[0xA0, 0xF0]);
    },
    |rng, _, run, _| {
        let slot = run.last_mut().expect("a run has reports");
        slot.blocks[8] ^= 1 << rng.below(8);
    },
    // The repeat is a whole multiframe later: the same frame, and no copy.
    |_, _, run, _| {
        let repeat = run.pop().expect("a run has reports");
        let mut next = (repeat.frame, repeat.slot);
        for _ in 0..36 {
            next = push(run, next, 1, Vec::new());
        }
        run.push(repeat);
    },
    |rng, unit, run, at| {
        let other = for_another(rng, unit, false);
        let (frame, slot) = (run[at].frame, run[at].slot);
        run[at].put(2, other.blocks(frame, slot, 0).remove(0));
    },
];

#[cfg(test)]
mod tests {
    use super::super::answers::{answered, ended};
    use super::*;
    use crate::blocks::NO_ADDRESS;
    use crate::log::print;
    use std::collections::BTreeSet;

    #[test]
    fn every_answer_is_there() {
        let lines = print(&slots());
        let column = |number: usize, value: u8| {
            let wanted = value.to_string();
            let words = |line: &str| line.split(' ').nth(number) == Some(&wanted);
            assert!(lines.lines().any(words), "{value} in column {number}");
        };
        (0..=5).for_each(|outcome| column(2, outcome));
        (0..=1).for_each(|dropped| column(3, dropped));
        let faults = [0, 2, 3, 4, 5, 6, 7, 8, 9, 10, 11, 12, 15, 16, 18];
        faults.into_iter().for_each(|fault| column(4, fault));
        assert!(lines.contains("\nkind\n"));
        assert!(lines.ends_with("\ncut\n"));
    }

    /// Each of them whole, and nothing is dropped.
    #[test]
    fn every_cut_is_handed_over() {
        let mut sheet = Sheet::begun();
        sheet.every_cut();
        let sheet = sheet.records.concat();
        let lines = print(&sheet);
        let ended = ended(&answered(&sheet, &lines, true));
        assert!(ended.iter().all(|ended| ended.dropped.is_none()), "{lines}");
        let joined = ended.into_iter().map(|ended| ended.cut);
        assert!(joined.eq(cuts()), "{lines}");
        let whole = lines.lines().filter(|line| line.ends_with(" 2 0 0 264"));
        assert_eq!(whole.count(), cuts().len(), "{lines}");
    }

    /// With no block kept and with some, and with the source absent.
    #[test]
    fn every_drop_is_there() {
        let sheet = slots();
        let lines = print(&sheet);
        let (mut found, mut absent) = (BTreeSet::new(), BTreeSet::new());
        let ended = ended(&answered(&sheet, &lines, true));
        for ended in ended.iter().filter(|ended| ended.dropped.is_some()) {
            let fields = &ended.header.fields;
            let kept = !ended.cut.blocks.is_empty();
            found.insert((ended.dropped, fields.message_type, kept));
            absent.extend((fields.source_type == NO_ADDRESS).then_some(fields.message_type));
        }
        for message_type in [DM_SDS_DATA, DM_SDS_ACK, DM_SDS_UDATA] {
            for (way, kept) in WAYS.iter().flat_map(|way| [(way, false), (way, true)]) {
                let wanted = (Some(way.name), message_type, kept);
                assert!(found.contains(&wanted), "{wanted:?}");
            }
            assert!(absent.contains(&message_type), "{message_type}");
        }
    }
}
