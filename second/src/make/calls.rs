//! Random files of call records: every kind of call, well-formed ones frequent; and reports alone.

use super::logs::{episodes, Slot};
use super::parts::{damage_continuation, draw_continuation, draw_fields, lengths, record};
use super::parts::{set_types, Message, Raw, Unit, HEADER_FAULTS, UNLISTED};
use super::rng::Rng;
use super::transports::any_call;
use crate::blocks::{build, header_bits, Fields, HEADER_BYTES, SCH_F_BYTES, SCH_S_BYTES};

/// A build call as its record has it.
#[derive(Clone)]
pub struct BuildCall {
    pub fields: Fields,
    pub n: u64,
    pub output: u64,
    pub message: Vec<u8>,
}

impl BuildCall {
    pub fn record(&self) -> Vec<u8> {
        let fields = &self.fields;
        let numbers = [
            (fields.system, 1),
            (fields.ab, 1),
            (fields.slot, 1),
            (fields.frame, 1),
            (fields.countdown, 1),
            (fields.dest_type, 1),
            (fields.dest, 4),
            (fields.source_type, 1),
            (fields.source, 4),
            (fields.mni, 4),
            (fields.message_type, 1),
            (fields.width, 1),
            (fields.elements, 8),
            (self.n, 4),
            (self.output, 2),
        ];
        let little = |&(number, bytes): &(u64, usize)| number.to_le_bytes()[..bytes].to_vec();
        let mut body: Vec<u8> = numbers.iter().flat_map(little).collect();
        body.extend(&self.message);
        record(5, &body)
    }

    /// The output's length that is just enough, if there is one.
    pub fn just_enough(&self) -> Option<u64> {
        let built = build(&self.fields, self.n, &self.message, usize::MAX);
        built.ok().map(|built| built.bytes.len() as u64)
    }
}

/// A read of an SCH/S with its SCH/H.
pub fn header_call(sch_s: &[u8], sch_h: &[u8]) -> Vec<u8> {
    let lengths = [sch_s.len() as u8, sch_h.len() as u8];
    record(6, &[&lengths, sch_s, sch_h].concat())
}

/// A whole file of call records.
pub fn calls(seed: u64) -> Vec<u8> {
    let mut rng = Rng::new(seed, 2);
    let mut unit = Unit::draw(&mut rng);
    let target = rng.index(180) + 100;
    let mut records = Vec::new();
    if rng.chance(90) {
        records.push(unit.record());
    }
    while records.len() < target {
        some_calls(&mut rng, &mut unit, &mut records);
    }
    for _ in 0..rng.index(40) {
        let at = rng.index(records.len() + 1);
        records.insert(at, any_call(&mut rng));
    }
    if rng.chance(20) {
        let at = records.len() - rng.index(records.len() / 10 + 1);
        records.insert(at, cut_record(&mut rng));
    }
    records.concat()
}

/// A whole file of settings and reports: mutated runs, one close after the other.
pub fn reports(seed: u64) -> Vec<u8> {
    let mut rng = Rng::new(seed, 6);
    let mut unit = Unit::draw(&mut rng);
    let target = rng.index(400) + 200;
    let mut records = vec![unit.record()];
    while records.len() < target {
        if rng.chance(10) {
            new_settings(&mut rng, &mut unit, &mut records);
        }
        some_reports(&mut rng, &unit, &mut records);
    }
    records.concat()
}

fn some_calls(rng: &mut Rng, unit: &mut Unit, records: &mut Vec<Vec<u8>>) {
    match rng.below(40) {
        0 => some_reports(rng, unit, records),
        1..=19 => records.push(draw_build(rng)),
        20..=28 => records.push(draw_header_read(rng)),
        29..=33 => records.push(draw_block_read(rng)),
        34..=37 => records.push(draw_layout(rng)),
        38 => new_settings(rng, unit, records),
        _ => records.push(odd_record(rng)),
    }
}

fn some_reports(rng: &mut Rng, unit: &Unit, records: &mut Vec<Vec<u8>>) {
    let target = rng.index(20) + 4;
    for slot in episodes(rng, unit, target) {
        if rng.chance(4) {
            records.push(refused_report(rng, &slot));
        }
        let buffer = if rng.chance(1) {
            511
        } else {
            rng.pick(&[512, 512, 513, 1024])
        };
        records.push(report(&slot, buffer));
    }
}

fn report(slot: &Slot, buffer: u16) -> Vec<u8> {
    let buffer = buffer.to_le_bytes();
    let start = [slot.frame, slot.slot, slot.kind, buffer[0], buffer[1]];
    record(4, &[&start, &slot.blocks[..]].concat())
}

/// A report of the same slot that is refused: kind, length, buffer, or several of these.
fn refused_report(rng: &mut Rng, slot: &Slot) -> Vec<u8> {
    let mut slot = slot.clone();
    let mut buffer = 512;
    for _ in 0..rng.between(1, 2) {
        match rng.below(6) {
            0 => buffer = rng.pick(&[0, 1, 511]),
            1 => slot.kind = rng.pick(&[0, 4, 5, 255]),
            2 => slot.blocks.push(0),
            3 => slot.blocks.truncate(slot.blocks.len().saturating_sub(1)),
            4 => slot.frame = rng.pick(&[0, 19, 255]),
            _ => slot.slot = rng.pick(&[0, 2, 4, 255]),
        }
    }
    report(&slot, buffer)
}

/// A build around some cut, mostly one that is taken.
fn draw_build(rng: &mut Rng) -> Vec<u8> {
    let mut fields = draw_fields(rng);
    let types = (rng.pick(&[0, 0, 0, 1, 2]), rng.pick(&[0, 0, 0, 1, 2]));
    set_types(rng, &mut fields, types.0, types.1);
    fields.slot = rng.below(4);
    let n = rng.pick(&lengths(header_bits(&fields)));
    let spare = rng.pick(&[0, 0, 1, 2]);
    let mut call = BuildCall {
        fields,
        n: n as u64,
        output: 0,
        message: rng.bytes(n.div_ceil(8) + spare),
    };
    call.output = draw_output(rng, call.just_enough());
    if rng.chance(35) {
        spoil(rng, &mut call);
    }
    call.record()
}

fn draw_output(rng: &mut Rng, enough: Option<u64>) -> u64 {
    match (enough, rng.below(8)) {
        (Some(enough), 0) => enough - 1,
        (Some(enough), 1..=3) => enough,
        (Some(enough), 4) => enough + 1,
        (None, 0) => 0,
        _ => 1024,
    }
}

/// Puts one field or number of a build just out of range.
fn spoil(rng: &mut Rng, call: &mut BuildCall) {
    let fields = &mut call.fields;
    match rng.below(18) {
        0 => fields.system = rng.pick(&[0, 7, 9, 16, 255]),
        1 => fields.frame = rng.pick(&[0, 19, 32, 255]),
        2 => fields.ab = 4,
        3 => fields.slot = 4,
        4 => fields.countdown = 4,
        5 => fields.dest_type = rng.pick(&[3, 3, 4]),
        6 => fields.source_type = rng.pick(&[3, 3, 4]),
        7 => fields.dest = 1 << 24,
        8 => fields.source = 1 << 24,
        9 => fields.mni = 1 << 24,
        10 => fields.message_type = rng.pick(&UNLISTED),
        11 => fields.message_type = rng.pick(&[32, 255]),
        12 => {
            fields.width = rng.pick(&[fields.width + 1, fields.width.saturating_sub(1), 0, 64, 255])
        }
        13 => fields.elements |= 1 << fields.width,
        14 => (fields.dest_type, fields.dest) = (2, 1),
        15 => (fields.source_type, fields.source) = (2, 1),
        16 => call.n = 8 * call.message.len() as u64 + 1,
        _ => call.output = rng.pick(&[0, 23, 57]),
    }
}

/// A header block pair, well-formed or with a fault or two, now and then of another length.
fn draw_header_read(rng: &mut Rng) -> Vec<u8> {
    let fragmented = rng.chance(50);
    let message = Message::draw(rng, fragmented);
    let slot = rng.pick(&[1, 2, 3, 4]);
    let (frame, countdown) = (rng.between(1, 18) as u8, rng.below(4) as u8);
    let mut bytes = message.blocks(frame, slot, countdown).remove(0);
    if let Some(mut raw) = Raw::of(&bytes) {
        for _ in 0..rng.pick(&[0, 0, 1, 1, 1, 2]) {
            let fault = rng.pick(&HEADER_FAULTS);
            raw.damage(rng, fault);
        }
        if rng.chance(30) {
            raw.touch(rng);
        }
        bytes = raw.bytes();
    }
    let (sch_s, sch_h) = bytes.split_at(SCH_S_BYTES);
    match rng.below(20) {
        0 => header_call(&sch_s[1..], sch_h),
        1 => header_call(sch_s, &bytes[..HEADER_BYTES - 8]),
        2 => header_call(&[], &[]),
        3 => header_call(sch_h, sch_s),
        _ => header_call(sch_s, sch_h),
    }
}

fn draw_block_read(rng: &mut Rng) -> Vec<u8> {
    let last = rng.chance(50);
    let mut block = draw_continuation(rng, last);
    if rng.chance(50) {
        let fault = rng.pick(&[2, 12, 11]);
        damage_continuation(rng, &mut block, fault);
    }
    match rng.below(8) {
        0 => block.push(0),
        1 => block.truncate(rng.index(SCH_F_BYTES)),
        _ => (),
    }
    record(7, &block)
}

fn draw_layout(rng: &mut Rng) -> Vec<u8> {
    let x = if rng.chance(10) {
        rng.pick(&[0, 19, 255])
    } else {
        rng.between(1, 18) as u8
    };
    let f = if rng.chance(10) {
        rng.pick(&[4, 255])
    } else {
        rng.below(4) as u8
    };
    let i = if rng.chance(10) {
        rng.pick(&[15, 255])
    } else {
        rng.below(15) as u8
    };
    record(8, &[x, f, i])
}

/// Another unit, or settings out of range: the receiver then has three zeros.
fn new_settings(rng: &mut Rng, unit: &mut Unit, records: &mut Vec<Vec<u8>>) {
    *unit = Unit::draw(rng);
    if rng.chance(70) {
        records.push(unit.record());
        return;
    }
    let mut wrong = unit.clone();
    match rng.below(3) {
        0 => wrong.individual = 1 << 24,
        1 => wrong.group = u32::MAX.into(),
        _ => wrong.mni = 1 << 24,
    }
    records.push(wrong.record());
    (unit.individual, unit.group, unit.mni) = (0, 0, 0);
}

/// A record that prints `kind`.
fn odd_record(rng: &mut Rng) -> Vec<u8> {
    match rng.below(4) {
        0 => record(4, &[1, 1, 1, 1, 4]),
        1 => {
            let message = Message::draw(rng, false);
            let call = BuildCall {
                fields: message.fields,
                n: 0,
                output: 1025,
                message: Vec::new(),
            };
            call.record()
        }
        _ => {
            let (kind, length) = (rng.pick(&[1, 2, 3, 13, 256, 65_535]), rng.index(40));
            record(kind, &rng.bytes(length))
        }
    }
}

/// A record that prints `cut`; whatever comes after it is not read.
fn cut_record(rng: &mut Rng) -> Vec<u8> {
    match rng.below(5) {
        0 => vec![rng.below(2) as u8, 0],
        1 => vec![0xFF, 0xFF, 8, 0, 1, 1, 1],
        2 => record(rng.pick(&[7, 13]), &[0x60; 4_097]),
        3 => record(6, &[8]),
        _ => {
            let (kind, length) = rng.pick(&[(0, 12), (4, 5), (5, 35), (6, 2), (8, 3)]);
            let shorter = rng.index(length);
            record(kind, &rng.bytes(shorter))
        }
    }
}
