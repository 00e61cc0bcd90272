//! Two fixed sheets of calls: reads and layouts, and builds.

use super::calls::{header_call, BuildCall};
use super::parts::{cases, damage_continuation, draw_continuation, fields_of, lengths, record};
use super::parts::{elements, set_types, Raw, DM_RESERVED, DM_TX_CEASED};
use super::parts::{HEADER_FAULTS, LISTED, UNLISTED};
use super::rng::Rng;
use crate::blocks::{continuation, header_bits, sch_h, sch_s, Fields};
use crate::blocks::{SCH_F_BYTES, SCH_H_BYTES, SCH_S_BYTES};
use crate::layout::{BLOCK_ROOM, COUNT_WIDTH, HEADER_ROOM};

/// Both addresses there, one there, none there.
const TYPES: [(u64, u64); 5] = [(0, 0), (1, 1), (0, 2), (2, 0), (2, 2)];

/// Every message type with an entry, in every case of its flags.
fn every_case() -> Vec<(u64, u64)> {
    let all = |message_type| (0..cases(message_type)).map(move |case| (message_type, case));
    LISTED.into_iter().flat_map(all).collect()
}

/// Reads of headers and continuations, and layouts.
pub fn blocks() -> Vec<u8> {
    let mut rng = Rng::new(0, 3);
    let mut records = Vec::new();
    valid_headers(&mut rng, &mut records);
    damaged_headers(&mut rng, &mut records);
    long_headers(&mut rng, &mut records);
    touched_headers(&mut rng, &mut records);
    header_lengths(&mut rng, &mut records);
    continuations(&mut rng, &mut records);
    layouts(&mut records);
    records.concat()
}

fn read_header(raw: &Raw) -> Vec<u8> {
    let bytes = raw.bytes();
    header_call(&bytes[..SCH_S_BYTES], &bytes[SCH_S_BYTES..])
}

/// A header with so many blocks to come and so many of its room's bits left over.
fn header(rng: &mut Rng, fields: &Fields, blocks: usize, left: usize) -> Option<Raw> {
    let count_width = if blocks > 0 { COUNT_WIDTH } else { 0 };
    let room = HEADER_ROOM.checked_sub(header_bits(fields) + count_width)?;
    let head = rng.bits(room.checked_sub(left)?);
    Some(Raw {
        sch_s: sch_s(fields),
        sch_h: sch_h(fields, &head, blocks),
        pads: [0, 0],
    })
}

fn valid_headers(rng: &mut Rng, records: &mut Vec<Vec<u8>>) {
    for (message_type, case) in every_case() {
        for (dest_type, source_type) in TYPES {
            let mut fields = fields_of(rng, message_type, case);
            set_types(rng, &mut fields, dest_type, source_type);
            let count = rng.index(15) + 1;
            for (blocks, left) in [(0, 0), (0, 3), (count, 0), (count, 1)] {
                records.extend(header(rng, &fields, blocks, left).as_ref().map(read_header));
            }
        }
    }
}

/// Every fault by itself on several headers, then every two together.
fn damaged_headers(rng: &mut Rng, records: &mut Vec<Vec<u8>>) {
    let faults = HEADER_FAULTS.map(|fault| vec![fault]);
    let pairs = HEADER_FAULTS.map(|first| HEADER_FAULTS.map(|second| vec![first, second]));
    for faults in faults
        .iter()
        .chain(&faults)
        .chain(&faults)
        .chain(pairs.as_flattened())
    {
        for blocks in [0, 1, 15] {
            let case = rng.pick(&every_case());
            let fields = fields_of(rng, case.0, case.1);
            if let Some(mut raw) = header(rng, &fields, blocks, 0) {
                faults.iter().for_each(|&fault| raw.damage(rng, fault));
                records.push(read_header(&raw));
            }
        }
    }
}

/// Headers that fill the block or run over it, and every code without an entry.
fn long_headers(rng: &mut Rng, records: &mut Vec<Vec<u8>>) {
    let long = [(DM_RESERVED, 1), (DM_TX_CEASED, 2), (DM_TX_CEASED, 3)];
    let unlisted = UNLISTED.map(|message_type| (message_type, 0));
    for (message_type, case) in long.into_iter().chain(unlisted) {
        for (fill, fragmented) in [(false, false), (false, true), (true, false), (true, true)] {
            for (dest_type, source_type) in TYPES {
                let mut fields = fields_of(rng, 11, 0);
                set_types(rng, &mut fields, dest_type, source_type);
                let mut raw = header(rng, &fields, usize::from(fragmented), 0)
                    .expect("a header without elements has room");
                raw.sch_h.fill = fill;
                raw.sch_h.message_type = message_type;
                raw.sch_h.elements = elements(rng, message_type, case);
                records.push(read_header(&raw));
            }
        }
    }
}

/// Reserved bits one by one, and every value of the small elements.
fn touched_headers(rng: &mut Rng, records: &mut Vec<Vec<u8>>) {
    let fields = fields_of(rng, 23, 0);
    let raw = header(rng, &fields, 2, 4).expect("DM-SDS DATA has room");
    let mut with = |change: &dyn Fn(&mut Raw)| {
        let mut raw = raw.clone();
        change(&mut raw);
        records.push(read_header(&raw));
    };
    (0..39).for_each(|bit| with(&|raw| raw.sch_s.reserved = 1 << bit));
    (0..10).for_each(|bit| with(&|raw| raw.sch_h.reserved = 1 << bit));
    (0..4).for_each(|link| with(&|raw| raw.sch_s.link = link));
    (0..4).for_each(|ab| with(&|raw| raw.sch_s.ab = ab));
    (0..4).for_each(|slot| with(&|raw| raw.sch_s.slot = slot));
    (0..32).for_each(|frame| with(&|raw| raw.sch_s.frame = frame));
    (0..16).for_each(|system| with(&|raw| raw.sch_s.system = system));
    (0..4).for_each(|countdown| with(&|raw| raw.sch_h.countdown = countdown));
    (0..16).for_each(|count| with(&|raw| raw.sch_h.count = count));
    (0..32).for_each(|code| with(&|raw| raw.sch_h.message_type = code));
    (0..8).for_each(|pad| with(&|raw| raw.pads[pad / 4] = 1 << (pad % 4)));
    with(&|raw| {
        (raw.sch_s.reserved, raw.sch_s.link, raw.sch_h.reserved) = (u64::MAX, 3, u64::MAX);
    });
}

/// Blocks of other lengths, with and without pad bits.
fn header_lengths(rng: &mut Rng, records: &mut Vec<Vec<u8>>) {
    for sch_s in [0, 1, 7, SCH_S_BYTES, 9, SCH_H_BYTES, 255] {
        for sch_h in [0, 8, 15, SCH_H_BYTES, 17, SCH_F_BYTES, 255] {
            let fields = fields_of(rng, 22, 0);
            let raw = header(rng, &fields, 1, 0).expect("DM-SDS UDATA has room");
            let (mut first, mut second) = (raw.sch_s.block(), raw.sch_h.block());
            first.resize(sch_s, 0);
            second.resize(sch_h, 0);
            records.push(header_call(&first, &second));
            first
                .iter_mut()
                .chain(&mut second)
                .for_each(|byte| *byte |= 1);
            records.push(header_call(&first, &second));
        }
    }
}

fn continuations(rng: &mut Rng, records: &mut Vec<Vec<u8>>) {
    for start in 0..16 {
        for one in [None, Some(0), Some(1), Some(4), Some(262), Some(263)] {
            let mut block = one_in_room(one);
            block[0] = block[0] & 0x0F | start << 4;
            records.push(record(7, &block));
        }
    }
    for last in [false, true] {
        for _ in 0..30 {
            records.push(record(7, &draw_continuation(rng, last)));
        }
        for fault in [2, 12, 11, 2, 12, 11] {
            let mut block = draw_continuation(rng, last);
            damage_continuation(rng, &mut block, fault);
            records.push(record(7, &block));
            damage_continuation(rng, &mut block, 2);
            records.push(record(7, &block));
        }
        for length in [0, 1, 8, 16, 24, 33, 35, 68] {
            let mut block = draw_continuation(rng, last);
            block.resize(length, 0xFF);
            records.push(record(7, &block));
        }
    }
}

/// A continuation block with at most one 1 in its room.
fn one_in_room(one: Option<usize>) -> Vec<u8> {
    let mut room = [false; BLOCK_ROOM];
    if let Some(at) = one {
        room[at] = true;
    }
    continuation(false, false, &room)
}

fn layouts(records: &mut Vec<Vec<u8>>) {
    for x in (0..=19).chain([255]) {
        for f in [0, 1, 2, 3, 4, 255] {
            for i in (0..=15).chain([255]) {
                records.push(record(8, &[x, f, i]));
            }
        }
    }
}

/// Builds: every message in every case around every cut, then what is refused.
pub fn builds() -> Vec<u8> {
    let mut rng = Rng::new(0, 4);
    let mut records = Vec::new();
    every_cut(&mut rng, &mut records);
    every_value(&mut rng, &mut records);
    every_width(&mut rng, &mut records);
    every_refusal(&mut rng, &mut records);
    records.concat()
}

/// A build of n bits with just enough output.
fn build_call(rng: &mut Rng, fields: Fields, n: usize) -> BuildCall {
    let spare = rng.index(2);
    let mut call = BuildCall {
        fields,
        n: n as u64,
        output: 0,
        message: rng.bytes(n.div_ceil(8) + spare),
    };
    call.output = call.just_enough().unwrap_or(1_024);
    call
}

fn every_cut(rng: &mut Rng, records: &mut Vec<Vec<u8>>) {
    for (message_type, case) in every_case() {
        for (dest_type, source_type) in TYPES {
            let mut fields = fields_of(rng, message_type, case);
            set_types(rng, &mut fields, dest_type, source_type);
            for n in lengths(header_bits(&fields)) {
                let mut call = build_call(rng, fields.clone(), n);
                call.output = rng.pick(&[call.output, call.output, call.output - 1, 1_024]);
                records.push(call.record());
            }
        }
    }
}

/// Every value of the small fields, and the ends of the large ones.
fn every_value(rng: &mut Rng, records: &mut Vec<Vec<u8>>) {
    let fields = fields_of(rng, 23, 0);
    let call = build_call(rng, fields, 300);
    let mut with = |change: &dyn Fn(&mut Fields)| {
        let mut call = call.clone();
        change(&mut call.fields);
        records.push(call.record());
    };
    let ends = [0, 1, (1 << 24) - 1, 1 << 24, 1 << 31, (1 << 32) - 1];
    (0..=16).for_each(|system| with(&|fields| fields.system = system));
    (0..=33).for_each(|frame| with(&|fields| fields.frame = frame));
    (0..=4).for_each(|ab| with(&|fields| fields.ab = ab));
    (0..=4).for_each(|slot| with(&|fields| fields.slot = slot));
    (0..=4).for_each(|countdown| with(&|fields| fields.countdown = countdown));
    (0..=34).for_each(|code| with(&|fields| fields.message_type = code));
    ends.into_iter()
        .for_each(|dest| with(&|fields| fields.dest = dest));
    ends.into_iter()
        .for_each(|source| with(&|fields| fields.source = source));
    ends.into_iter()
        .for_each(|mni| with(&|fields| fields.mni = mni));
    for pair in 0..100 {
        with(&|fields| {
            (fields.dest_type, fields.source_type) = (pair / 4 % 5, pair / 20);
            (fields.dest, fields.source) = (pair & 1, pair >> 1 & 1);
        });
    }
}

/// Every width for every message type, with no flag set and with all bits set.
fn every_width(rng: &mut Rng, records: &mut Vec<Vec<u8>>) {
    for message_type in (0..32).chain([32, 255]) {
        for width in (0..=36).chain([63, 64, 65, 255]) {
            let ones = u64::MAX.checked_shr(64 - width.min(64) as u32).unwrap_or(0);
            for numbers in [0, ones, ones.wrapping_add(1)] {
                let mut fields = fields_of(rng, 11, 0);
                (fields.message_type, fields.width, fields.elements) =
                    (message_type, width, numbers);
                let mut call = build_call(rng, fields, 0);
                call.output = 1_024;
                records.push(call.record());
            }
        }
    }
}

/// Every cause of a refusal by itself, and every two one after the other.
fn every_refusal(rng: &mut Rng, records: &mut Vec<Vec<u8>>) {
    let causes = causes();
    for first in &causes {
        for second in &causes {
            let mut fields = fields_of(rng, 18, 1);
            set_types(rng, &mut fields, 0, 1);
            let mut call = build_call(rng, fields, 40);
            first(&mut call);
            second(&mut call);
            records.push(call.record());
        }
    }
}

/// The causes, in the order of their faults: 3, 7, 13, 8, 9, 14, 1.
fn causes() -> Vec<fn(&mut BuildCall)> {
    vec![
        |call| call.fields.system = 9,
        |call| call.fields.frame = 19,
        |call| call.fields.ab = 4,
        |call| call.fields.slot = 4,
        |call| call.fields.countdown = 4,
        |call| call.fields.dest_type = 4,
        |call| call.fields.dest = 1 << 24,
        |call| call.fields.source_type = 4,
        |call| call.fields.source = 1 << 24,
        |call| call.fields.mni = 1 << 24,
        |call| call.fields.message_type = 32,
        |call| call.fields.width += 1,
        |call| call.fields.width = 2,
        |call| call.fields.elements = 1 << 22,
        |call| call.fields.elements = 0,
        |call| call.fields.source_type = 2,
        |call| (call.fields.dest_type, call.fields.dest) = (2, 1),
        |call| call.n = 8 * call.message.len() as u64 + 1,
        |call| call.fields.dest_type = 3,
        |call| call.fields.source_type = 3,
        |call| call.fields.message_type = 31,
        |call| {
            let run = 1 << 25 | 1 << 14;
            let fields = &mut call.fields;
            (fields.message_type, fields.width, fields.elements) = (DM_TX_CEASED, 33, run);
        },
        |call| {
            let fields = &mut call.fields;
            (fields.message_type, fields.width, fields.elements) = (DM_RESERVED, 26, 1 << 17);
        },
        |call| (call.n, call.message) = (4_800, vec![0xA5; 600]),
        |call| call.output = call.output.saturating_sub(1),
        |call| call.output = 0,
        |_| (),
    ]
}

#[cfg(test)]
mod tests {
    use super::*;
    use crate::bits::unpack;
    use crate::blocks::{build, read_continuation, read_header, Built, HEADER_BYTES};

    /// The message bits of a built header and its blocks, and how many are in the header.
    fn read_back(fields: &Fields, built: &Built) -> (usize, Vec<bool>) {
        let (header, blocks) = built.bytes.split_at(HEADER_BYTES);
        let (sch_s, sch_h) = header.split_at(SCH_S_BYTES);
        let header = read_header(sch_s, sch_h, None).unwrap();
        assert_eq!(&header.fields, fields);
        assert_eq!(header.count as usize, built.k);
        assert_eq!(header.fragmented, built.k > 0);
        let mut message = header.message().to_vec();
        for (i, block) in blocks.chunks(SCH_F_BYTES).enumerate() {
            let block = read_continuation(block).unwrap();
            assert_eq!(block.last, i + 1 == built.k);
            message.extend(block.message());
        }
        (header.length, message)
    }

    #[test]
    fn what_is_built_reads_back() {
        let mut rng = Rng::new(0, 5);
        let mut taken = 0;
        for (message_type, case) in every_case() {
            for (dest_type, source_type) in TYPES {
                let mut fields = fields_of(&mut rng, message_type, case);
                set_types(&mut rng, &mut fields, dest_type, source_type);
                let h = header_bits(&fields);
                for n in lengths(h) {
                    let message = rng.bytes(n.div_ceil(8));
                    let Ok(built) = build(&fields, n as u64, &message, 1_024) else {
                        continue;
                    };
                    let head = if n + h <= 124 { n } else { 120 - h };
                    let bits = unpack(&message)[..n].to_vec();
                    assert_eq!(read_back(&fields, &built), (head, bits));
                    taken += 1;
                }
            }
        }
        assert!(taken > 4_000, "{taken} taken");
    }
}
