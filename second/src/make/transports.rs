//! Random files of transport calls: reads, builds and bookings, well-formed ones frequent.

use super::parts::record;
use super::rng::Rng;
use super::sdus::{draw_length, draw_message, draw_sdu, fixed, lend};
use super::sdus::{message_of, message_with, sdu_of};
use super::sdus::{LentCall, Sdu, SduCall, CARRIERS, FORWARD_TYPES, OTHER_FORWARD_TYPES};
use crate::bits::{spell, value};
use crate::fcs::{register, FCS_BITS};
use crate::transport::{longest, Message, Name, NAMES};
use crate::transport::{ACK, DM_SDS_ACK, DM_SDS_DATA, DM_SDS_UDATA, REPORT};
use crate::transport::{SHORT_REPORT, STATUS, TRANSFER, USER_DEFINED_4};

/// A whole file of transport calls.
pub fn transport(seed: u64) -> Vec<u8> {
    let mut rng = Rng::new(seed, 10);
    let mut pairs = Pairs::draw(&mut rng);
    let target = rng.index(400) + 300;
    let mut records = Vec::new();
    while records.len() < target {
        some_calls(&mut rng, &mut pairs, &mut records);
    }
    if rng.chance(20) {
        let at = records.len() - rng.index(records.len() / 10 + 1);
        records.insert(at, cut_record(&mut rng));
    }
    records.concat()
}

fn some_calls(rng: &mut Rng, pairs: &mut Pairs, records: &mut Vec<Vec<u8>>) {
    match rng.below(72) {
        0 => some_bookings(rng, pairs, records),
        1..=40 => records.push(draw_read(rng).read()),
        41..=70 => records.push(draw_build(rng)),
        _ => records.push(odd_record(rng)),
    }
}

/// Any one of the calls; bookings of few pairs, now and then after a fresh start.
pub fn any_call(rng: &mut Rng) -> Vec<u8> {
    match rng.below(20) {
        0..=8 => draw_read(rng).read(),
        9..=13 => draw_build(rng),
        14 if rng.chance(30) => record(11, &[]),
        14 => draw_read(rng).book(1),
        _ => {
            let (source, reference) = (rng.below(2), rng.below(3));
            booking(rng, source, DM_SDS_DATA, TRANSFER, reference).book(source)
        }
    }
}

/// A read: as sent, cut, flipped, damaged, or anything.
fn draw_read(rng: &mut Rng) -> LentCall {
    let sdu = draw_sdu(rng);
    spoilt_read(rng, sdu, 50)
}

/// A read of a DM-SDU that is as it was sent so many times in a hundred.
fn spoilt_read(rng: &mut Rng, mut sdu: Sdu, well: u64) -> LentCall {
    if rng.chance(well) {
        if rng.chance(30) {
            touch(rng, &mut sdu);
        }
        return lent(rng, &sdu, &sdu.bits());
    }
    match rng.below(20) {
        0..=4 => cut(rng, &sdu),
        5..=9 => flipped(rng, &sdu),
        10..=16 => {
            for _ in 0..rng.pick(&[1, 1, 1, 2]) {
                damage(rng, &mut sdu);
            }
            if rng.chance(20) {
                cut(rng, &sdu)
            } else {
                lent(rng, &sdu, &sdu.bits())
            }
        }
        17 => {
            if rng.chance(40) {
                damage(rng, &mut sdu);
            }
            let mut call = lent(rng, &sdu, &sdu.bits());
            let lent = 8 * call.bytes.len() as u64;
            call.n = lent + rng.pick(&[1, 2, 8, 1 << 31, u64::from(u32::MAX) - lent]);
            call
        }
        18 => short_frame(rng),
        _ => anything(rng),
    }
}

/// These bits lent, with bits and bytes after them that are not lent; of the header's elements
/// only the FCS flag is as the DM-SDU has it.
fn lent(rng: &mut Rng, sdu: &Sdu, bits: &[bool]) -> LentCall {
    let spare = rng.pick(&[0, 0, 1, 9]);
    let elements = match rng.below(3) {
        0 => 0,
        1 => rng.number(8),
        _ => rng.number(64),
    };
    LentCall {
        carrier: sdu.carrier,
        elements: elements & !1 | u64::from(sdu.fcs.is_some()),
        n: bits.len() as u64,
        bytes: lend(rng, bits, spare),
    }
}

/// Fewer bits: any number, or just before an element's end. The bits after them may still be lent.
fn cut(rng: &mut Rng, sdu: &Sdu) -> LentCall {
    let bits = sdu.bits();
    let frame = sdu.frame().len();
    let start = frame - sdu.data.len();
    let at = match rng.below(6) {
        0 => bits.len().saturating_sub(1),
        1 => frame.saturating_sub(rng.index(2)),
        2 => start + rng.pick(&[0, 6, 8, 11, 12, 13, 23, 24, 31, 32, 39, 40]),
        3 => rng.index(start + 1),
        4 => start + rng.index(70),
        _ => rng.index(bits.len() + 1),
    };
    let at = at.min(bits.len());
    if rng.chance(50) {
        return lent(rng, sdu, &bits[..at]);
    }
    let mut call = lent(rng, sdu, &bits);
    call.n = at as u64;
    call
}

/// One bit is another, or two are; now and then in the elements that tell.
fn flipped(rng: &mut Rng, sdu: &Sdu) -> LentCall {
    let mut bits = sdu.bits();
    let most = rng.pick(&[30, 130, bits.len()]).min(bits.len());
    for _ in 0..rng.pick(&[1, 1, 1, 2]) {
        let at = rng.index(most);
        bits[at] = !bits[at];
    }
    lent(rng, sdu, &bits)
}

/// A user defined data 4 with too few bits, so that there are about 32 ahead of its FCS: the right
/// one, or the one that complements 32 bits whatever is there, or another.
fn short_frame(rng: &mut Rng) -> LentCall {
    let carrier = rng.pick(&CARRIERS);
    let kind = rng.pick(&[REPORT, ACK]);
    let message = message_of(rng, carrier, kind);
    let mut sdu = Sdu::of(carrier, true, &message, &[]);
    sdu.addressing = None;
    sdu.resize(rng.index(9) + 10);
    let frame = sdu.frame();
    let bits = match rng.below(3) {
        0 => sdu.bits(),
        1 => [&frame[..], &register(&frame)].concat(),
        _ => [&frame[..], &rng.bits(FCS_BITS)].concat(),
    };
    lent(rng, &sdu, &bits)
}

/// Bits that were never sent, at times with a front that was.
fn anything(rng: &mut Rng) -> LentCall {
    let carrier = rng.pick(&[22, 22, 23, 23, 24, 24, 0, 21, 25, 31, 255]);
    let front = match (carrier, rng.below(3)) {
        (_, 0) => Vec::new(),
        (DM_SDS_ACK, _) => spell(0b0001, 4),
        _ => vec![false],
    };
    let sdti = rng.pick(&[USER_DEFINED_4, STATUS]);
    let length = rng.index(400);
    let mut bits = [front, spell(sdti, 4), rng.bits(length)].concat();
    bits.truncate(rng.index(bits.len() + 1));
    LentCall {
        carrier,
        elements: rng.number(64),
        n: bits.len() as u64,
        bytes: lend(rng, &bits, 0),
    }
}

/// Changes that are no faults: reserved bits, bits after the last element, an SDS-ACK's L with
/// bits after its elements.
fn touch(rng: &mut Rng, sdu: &mut Sdu) {
    let message_type = sdu.data.get(8..12).map(value);
    match message_type.filter(|_| sdu.length.is_some() && rng.chance(60)) {
        Some(0b0001) => {
            let reserved = rng.number(2);
            sdu.write(13, reserved, 2);
        }
        Some(0b0010) => {
            let reserved = rng.number(4);
            sdu.write(12, reserved, 4);
            let more = rng.index(40);
            sdu.data.extend(rng.bits(more));
            sdu.length = Some(sdu.data.len() as u64);
        }
        _ => {
            let more = rng.index(40);
            sdu.after = rng.bits(more);
        }
    }
}

/// One element says what it should not; the FCS is the right one for it.
fn damage(rng: &mut Rng, sdu: &mut Sdu) {
    match rng.below(15) {
        0 => sdu.sdti = rng.number(4),
        1 if sdu.carrier == DM_SDS_ACK => sdu.acknowledgement = rng.pick(&[0, 0, 2, 3, 5, 9, 15]),
        1 => {
            let addresses = rng.bits(48);
            sdu.addressing = Some((rng.number(4), addresses));
        }
        2 => sdu.write(0, 0, 1),
        3 | 4 => {
            let message_type = rng.number(4);
            sdu.write(8, message_type, 4);
        }
        5 if sdu.length.is_none() => {
            let start = 0b011111 ^ 1 << rng.below(6);
            sdu.write(0, start, 6);
        }
        5 | 6 => forward(rng, sdu),
        7 | 8 if sdu.fcs.is_some() => sdu.fcs = Some(1 << rng.below(32)),
        7..=10 if sdu.length.is_some() => {
            let length = rng.index(90);
            if rng.chance(70) {
                sdu.resize(length);
            } else {
                sdu.length = Some(length as u64);
            }
            if sdu.fcs.is_some() && rng.chance(30) {
                sdu.fcs = Some(rng.number(32));
            }
        }
        11 => sdu.length = sdu.length.map(|length| (length + 1) % 2_048),
        12 => sdu.length = sdu.length.map(|length| length.saturating_sub(1)),
        13 => sdu.carrier = rng.pick(&[0, 7, 21, 25, 31, 32, 255]),
        _ => sdu.carrier = rng.pick(&CARRIERS),
    }
}

/// Another forward address type, with the bits of the old one's address after it.
fn forward(rng: &mut Rng, sdu: &mut Sdu) {
    match sdu.forward_at {
        Some(at) => {
            let forward_type = rng.number(3);
            sdu.write(at, forward_type, 3);
        }
        None => {
            let kind = if sdu.carrier == DM_SDS_ACK {
                REPORT
            } else {
                rng.pick(&[TRANSFER, REPORT])
            };
            let other = rng.pick(&FORWARD_TYPES);
            let message = message_with(rng, kind, false, Some(other));
            let fcs = sdu.fcs.is_some();
            *sdu = Sdu::of(sdu.carrier, fcs, &message, &[]);
            let (at, wrong) = (sdu.forward_at, rng.pick(&OTHER_FORWARD_TYPES));
            sdu.write(at.expect("it is stored"), wrong, 3);
        }
    }
}

/// A build, mostly one that is taken, with an output of just enough bytes, or one more or less.
fn draw_build(rng: &mut Rng) -> Vec<u8> {
    let (carrier, message) = draw_message(rng);
    let fcs = rng.below(2);
    let n = draw_length(rng, carrier, fcs == 1, &message);
    let spare = rng.pick(&[0, 0, 1, 5]);
    let mut call = SduCall {
        carrier,
        fcs,
        message,
        n,
        output: 0,
        bytes: rng.bytes(n.div_ceil(8) as usize + spare),
    };
    if rng.chance(40) {
        for _ in 0..rng.pick(&[1, 1, 1, 2]) {
            spoil(rng, &mut call);
        }
    }
    call.output = match (call.just_enough(), rng.below(8)) {
        (Some(enough), 0) => enough - 1,
        (Some(enough), 1..=3) => enough,
        (Some(enough), 4) => enough + 1,
        (_, 5) => rng.pick(&[0, 1, 5, 1_023]),
        _ => 1_024,
    };
    call.record()
}

/// Puts one number of a build out of range, or at its edge.
fn spoil(rng: &mut Rng, call: &mut SduCall) {
    let message = &mut call.message;
    let large = rng.pick(&[1 << 24, (1 << 24) - 1, 1, u32::MAX.into()]);
    match rng.below(24) {
        0 => call.carrier = rng.pick(&[0, 21, 25, 31, 255]),
        1 => call.carrier = rng.pick(&CARRIERS),
        2 => message.kind = rng.pick(&[0, 5, 255]),
        3 => message.kind = rng.between(TRANSFER, SHORT_REPORT),
        4 => message.set(Name::Protocol, rng.pick(&[0, 1, 127, 128, 255])),
        5 => message.set(Name::ForwardType, rng.below(9)),
        6 => call.fcs = rng.pick(&[2, 3, 255]),
        7 => message.addressed = rng.pick(&[0, 1, 2, 255]),
        8 => message.mni = large,
        9 => message.ssi = large,
        10 => message.set(Name::Storage, rng.pick(&[0, 1, 2, 255])),
        11 => {
            let edge = rng.pick(&[24, 48, 63]);
            let number = (1_u64 << edge) - rng.below(2);
            message.set(Name::ForwardAddress, number);
        }
        12 => message.set(Name::Validity, rng.pick(&[0, 31, 32, 255])),
        13 => message.set(Name::Request, rng.pick(&[0, 3, 4, 255])),
        14 => message.set(Name::ShortForm, rng.pick(&[1, 2, 255])),
        15 => message.set(Name::AckRequired, rng.pick(&[1, 2, 255])),
        16 => message.set(Name::Status, rng.pick(&[0, 3, 4, 255])),
        17 => call.n = 8 * call.bytes.len() as u64 + rng.pick(&[0, 1, 1 << 20]),
        18 => (call.n, call.bytes) = (rng.pick(&[1, 8]), vec![0xA5]),
        19..=21 => {
            if rng.chance(50) {
                call.carrier = DM_SDS_ACK;
                *message = message_of(rng, DM_SDS_ACK, REPORT);
            }
            let most = longest(call.carrier, call.fcs == 1);
            let fixed = fixed(message);
            call.n = (most + rng.below(3)).saturating_sub(fixed + 1);
            call.bytes = rng.bytes(call.n.div_ceil(8) as usize);
        }
        _ => {
            let name = rng.pick(&NAMES);
            let (width, kind) = (rng.pick(&[1, 8]), message.kind);
            let number = match name {
                Name::ForwardType | Name::Storage if kind <= REPORT => message.get(name),
                _ => rng.number(width),
            };
            message.set(name, number);
        }
    }
}

/// The pairs that a file books: few enough to come again, and enough to be forgotten.
struct Pairs {
    pairs: Vec<(u64, u64)>,
    /// Taken in turn, or drawn.
    turn: Option<usize>,
}

impl Pairs {
    fn draw(rng: &mut Rng) -> Pairs {
        let mut sources: Vec<u64> = vec![0, (1 << 24) - 1];
        sources.extend((0..rng.below(6)).map(|_| rng.number(24)));
        sources.push(rng.pick(&sources) ^ 1 << rng.below(24));
        let references = rng.between(26, 60);
        let (target, mut pairs) = (rng.index(31) + 20, Vec::new());
        while pairs.len() < target {
            let reference = rng.below(references) | rng.pick(&[0, 0, 0, 128]);
            let pair = (rng.pick(&sources), reference);
            if !pairs.contains(&pair) {
                pairs.push(pair);
            }
        }
        let turn = rng.chance(40).then_some(0);
        Pairs { pairs, turn }
    }

    fn next(&mut self, rng: &mut Rng) -> (u64, u64) {
        match &mut self.turn {
            Some(turn) if rng.chance(90) => {
                *turn = (*turn + 1) % self.pairs.len();
                self.pairs[*turn]
            }
            _ => rng.pick(&self.pairs),
        }
    }
}

/// Bookings one after the other, with others between them that book nothing.
fn some_bookings(rng: &mut Rng, pairs: &mut Pairs, records: &mut Vec<Vec<u8>>) {
    for _ in 0..rng.index(50) + 20 {
        let (source, reference) = pairs.next(rng);
        let carrier = rng.pick(&[DM_SDS_UDATA, DM_SDS_DATA]);
        match rng.below(100) {
            0..=79 => records.push(booking(rng, source, carrier, TRANSFER, reference).book(source)),
            80..=85 => {
                let (carrier, kind) = (rng.pick(&CARRIERS), rng.pick(&[REPORT, ACK, SHORT_REPORT]));
                records.push(booking(rng, source, carrier, kind, reference).book(source));
            }
            86..=92 => {
                let message = with_reference(rng, carrier, TRANSFER, reference);
                let sdu = sdu_of(rng, carrier, &message);
                records.push(spoilt_read(rng, sdu, 0).book(source));
            }
            93..=95 => {
                let large = rng.pick(&[1 << 24, 1 << 24 | source, 1 << 31 | source]);
                let message = with_reference(rng, carrier, TRANSFER, reference);
                let sdu = sdu_of(rng, carrier, &message);
                records.push(spoilt_read(rng, sdu, 60).book(large));
            }
            96..=97 => {
                let fresh = rng.number(24);
                records.push(booking(rng, fresh, carrier, TRANSFER, reference).book(fresh));
            }
            98 if rng.chance(50) => {
                records.push(record(11, &[]));
                *pairs = Pairs::draw(rng);
            }
            _ => records.push(draw_read(rng).book(source)),
        }
    }
}

fn with_reference(rng: &mut Rng, carrier: u64, kind: u64, reference: u64) -> Message {
    let mut message = message_of(rng, carrier, kind);
    message.set(Name::Reference, reference);
    message
}

/// A message as sent, with this reference; its calling party is now and then the source itself.
fn booking(rng: &mut Rng, source: u64, carrier: u64, kind: u64, reference: u64) -> LentCall {
    let mut message = with_reference(rng, carrier, kind, reference);
    if message.addressed == 1 && rng.chance(30) {
        message.ssi = source;
    }
    let sdu = sdu_of(rng, carrier, &message);
    lent(rng, &sdu, &sdu.bits())
}

/// A record that prints `kind`, or one with more than its kind takes.
fn odd_record(rng: &mut Rng) -> Vec<u8> {
    match rng.below(3) {
        0 => {
            let (kind, length) = (rng.pick(&[13, 1, 9 << 8, 65_535]), rng.index(40));
            record(kind, &rng.bytes(length))
        }
        1 => {
            let (carrier, message) = draw_message(rng);
            let call = SduCall {
                carrier,
                fcs: 0,
                message,
                n: 0,
                output: rng.pick(&[1_025, 2_048, 65_535]),
                bytes: Vec::new(),
            };
            call.record()
        }
        _ => {
            let mut call = draw_read(rng);
            let more = rng.index(300);
            call.bytes.extend(rng.bytes(more));
            call.read()
        }
    }
}

/// A record that prints `cut`; whatever comes after it is not read.
fn cut_record(rng: &mut Rng) -> Vec<u8> {
    match rng.below(4) {
        0 => vec![0xFF, 0xFF, 9, 0, 22],
        1 => record(rng.pick(&[9, 10, 11, 12]), &[0x60; 4_097]),
        _ => {
            let (kind, length) = rng.pick(&[(9, 13), (10, 35), (12, 17)]);
            let shorter = rng.index(length);
            record(kind, &rng.bytes(shorter))
        }
    }
}
