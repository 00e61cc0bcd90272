//! The fixed sheet of transport calls: every rule of reading, building and booking, at its edges.

use super::parts::record;
use super::rng::Rng;
use super::sdus::{fixed, lend, message_with, LentCall, Sdu, SduCall};
use super::sdus::{CARRIERS, FORWARD_TYPES};
use crate::bits::pack;
use crate::fcs::register;
use crate::transport::{forward_width, longest, Message, Name, Part};
use crate::transport::{ACK, REPORT, SHORT_REPORT, TRANSFER};
use crate::transport::{DM_SDS_ACK, DM_SDS_DATA, DM_SDS_UDATA};
use crate::transport::{NO_ADDRESS, SSI, SSI_AND_EXTENSION};
use std::collections::HashSet;

/// The records, none of the reads and builds twice.
struct Sheet {
    rng: Rng,
    records: Vec<Vec<u8>>,
    seen: HashSet<Vec<u8>>,
}

/// Reads, builds and bookings.
pub fn transports() -> Vec<u8> {
    let mut sheet = Sheet {
        rng: Rng::new(0, 11),
        records: Vec::new(),
        seen: HashSet::new(),
    };
    every_message(&mut sheet);
    every_number(&mut sheet);
    every_code(&mut sheet);
    every_forward_type(&mut sheet);
    cut_at_every_bit(&mut sheet);
    cut_by_length(&mut sheet);
    every_flipped_bit(&mut sheet);
    short_frames(&mut sheet);
    both_faults(&mut sheet);
    not_looked_at(&mut sheet);
    lent_bits(&mut sheet);
    long_data(&mut sheet);
    every_field(&mut sheet);
    every_forward_address(&mut sheet);
    every_limit(&mut sheet);
    every_output(&mut sheet);
    every_refusal(&mut sheet);
    bookings(&mut sheet);
    framing(&mut sheet);
    sheet.records.concat()
}

impl Sheet {
    fn once(&mut self, record: Vec<u8>) {
        if self.seen.insert(record.clone()) {
            self.records.push(record);
        }
    }

    fn read(&mut self, sdu: &Sdu) {
        self.once(sdu.call().read());
    }

    /// A read of these bits; what is left of the last byte is drawn.
    fn read_bits(&mut self, carrier: u64, with_fcs: bool, bits: &[bool]) {
        let call = LentCall {
            carrier,
            elements: with_fcs.into(),
            n: bits.len() as u64,
            bytes: lend(&mut self.rng, bits, 0),
        };
        self.once(call.read());
    }

    fn build(&mut self, call: &SduCall) {
        self.once(call.record());
    }

    fn message(&mut self, kind: u64, addressed: bool, stored: Option<u64>) -> Message {
        message_with(&mut self.rng, kind, addressed, stored)
    }

    /// A DM-SDU with so many bits of user data.
    fn sdu(&mut self, carrier: u64, with_fcs: bool, message: &Message, length: usize) -> Sdu {
        let user_data = self.rng.bits(length);
        Sdu::of(carrier, with_fcs, message, &user_data)
    }

    /// A build with just enough output, if it is taken.
    fn call(&mut self, carrier: u64, with_fcs: bool, message: &Message, n: u64) -> SduCall {
        let mut call = SduCall {
            carrier,
            fcs: with_fcs.into(),
            message: message.clone(),
            n,
            output: 0,
            bytes: self.rng.bytes(n.div_ceil(8) as usize),
        };
        call.output = call.just_enough().unwrap_or(1_024);
        call
    }
}

/// The forward address types, and none, that a kind can have.
fn stored(kind: u64) -> &'static [Option<u64>] {
    match kind {
        TRANSFER | REPORT => &[None, Some(SSI), Some(SSI_AND_EXTENSION), Some(NO_ADDRESS)],
        _ => &[None],
    }
}

/// Every kind in every carrier that has it.
fn every_kind() -> Vec<(u64, u64)> {
    let kinds = |carrier| (TRANSFER..=SHORT_REPORT).map(move |kind| (carrier, kind));
    let all = CARRIERS.into_iter().flat_map(kinds);
    all.filter(|&pair| pair != (DM_SDS_ACK, TRANSFER)).collect()
}

/// Every kind in every carrier, with and without calling party, forward address and FCS.
fn every_message(sheet: &mut Sheet) {
    for (carrier, kind) in every_kind() {
        for addressed in [false, true] {
            for &forward_type in stored(kind) {
                for with_fcs in [false, true] {
                    if addressed && carrier == DM_SDS_ACK {
                        continue;
                    }
                    let message = sheet.message(kind, addressed, forward_type);
                    let lengths = if message.has_user_data() {
                        &[0, 9][..]
                    } else {
                        &[0]
                    };
                    for &length in lengths {
                        let sdu = sheet.sdu(carrier, with_fcs, &message, length);
                        sheet.read(&sdu);
                    }
                    let n = *lengths.last().expect("there is one") as u64;
                    let call = sheet.call(carrier, with_fcs, &message, n);
                    sheet.build(&call);
                }
            }
        }
    }
}

/// Every element at the ends of its width, among others that are all zeros, and all ones.
fn every_number(sheet: &mut Sheet) {
    let of = [
        (DM_SDS_UDATA, TRANSFER, Some(SSI_AND_EXTENSION)),
        (DM_SDS_DATA, REPORT, Some(SSI)),
        (DM_SDS_ACK, REPORT, None),
        (DM_SDS_UDATA, ACK, None),
        (DM_SDS_ACK, SHORT_REPORT, None),
    ];
    for (carrier, kind, forward_type) in of {
        for ones in [false, true] {
            let mut message = sheet.message(kind, carrier == DM_SDS_UDATA, forward_type);
            let parts = message.parts().expect("the forward address type is one");
            let elements: Vec<(Name, usize)> = parts
                .into_iter()
                .filter_map(|part| match part {
                    Part::Element(Name::Storage | Name::ForwardType, _) => None,
                    Part::Element(name, width) => Some((name, width)),
                    _ => None,
                })
                .collect();
            let most = |width: usize| if ones { (1 << width) - 1 } else { 0 };
            for &(name, width) in &elements {
                let first = if name == Name::Protocol { 128 } else { 0 };
                message.set(name, first | most(width));
            }
            if message.addressed == 1 {
                (message.mni, message.ssi) = (most(24), most(24));
            }
            for &(name, width) in &elements {
                let first = if name == Name::Protocol { 128 } else { 0 };
                for number in ends(width) {
                    let mut message = message.clone();
                    message.set(name, first | number);
                    let sdu = sheet.sdu(carrier, false, &message, 0);
                    sheet.read(&sdu);
                }
            }
            if message.addressed == 1 {
                for number in ends(24) {
                    for (mni, ssi) in [(number, message.ssi), (message.mni, number)] {
                        let message = Message {
                            mni,
                            ssi,
                            ..message.clone()
                        };
                        let sdu = sheet.sdu(carrier, false, &message, 0);
                        sheet.read(&sdu);
                    }
                }
            }
        }
    }
}

/// The numbers of so many bits with one bit set, the last or the first, with none and with all.
fn ends(width: usize) -> [u64; 4] {
    [0, 1, 1 << (width - 1), (1 << width) - 1]
}

/// Every value of the elements that tell, under a right FCS where there is one.
fn every_code(sheet: &mut Sheet) {
    let report = sheet.message(REPORT, false, None);
    let addressed = sheet.message(REPORT, true, None);
    let short = sheet.message(SHORT_REPORT, false, None);
    for carrier in (0..=32).chain([255]) {
        let mut sdu = sheet.sdu(DM_SDS_DATA, false, &report, 0);
        sdu.carrier = carrier;
        sheet.read(&sdu);
    }
    for number in 0..16 {
        for (carrier, with_fcs) in [(DM_SDS_UDATA, true), (DM_SDS_ACK, false)] {
            let mut sdu = sheet.sdu(carrier, with_fcs, &report, 80);
            sdu.sdti = number;
            sheet.read(&sdu);
            let mut sdu = sheet.sdu(carrier, with_fcs, &short, 0);
            sdu.sdti = number;
            sheet.read(&sdu);
            let mut sdu = sheet.sdu(carrier, !with_fcs, &report, 80);
            sdu.write(8, number, 4);
            sheet.read(&sdu);
        }
        for message in [&report, &short] {
            let mut sdu = sheet.sdu(DM_SDS_ACK, true, message, 0);
            sdu.acknowledgement = number;
            sheet.read(&sdu);
        }
        let mut sdu = sheet.sdu(DM_SDS_DATA, false, &addressed, 3);
        sdu.addressing = sdu.addressing.map(|(_, addresses)| (number, addresses));
        sheet.read(&sdu);
    }
    for protocol in [0, 1, 64, 126, 127, 128, 129, 192, 255] {
        for (carrier, kind) in [
            (DM_SDS_UDATA, TRANSFER),
            (DM_SDS_ACK, REPORT),
            (DM_SDS_DATA, ACK),
        ] {
            let mut message = sheet.message(kind, false, None);
            message.set(Name::Protocol, protocol);
            let sdu = sheet.sdu(carrier, true, &message, 0);
            sheet.read(&sdu);
        }
    }
    let flipped = (0..6).map(|bit| 0b011111 ^ 1 << bit);
    for start in flipped.chain([0b011111, 0, 0b100000]) {
        for with_fcs in [false, true] {
            let mut sdu = sheet.sdu(DM_SDS_UDATA, with_fcs, &short, 0);
            sdu.write(0, start, 6);
            sheet.read(&sdu);
        }
    }
}

/// Every forward address type: with bits enough, and with L or n just enough or one bit short, of
/// the type itself and of its address.
fn every_forward_type(sheet: &mut Sheet) {
    for (carrier, kind) in [(DM_SDS_UDATA, TRANSFER), (DM_SDS_ACK, REPORT)] {
        for forward_type in 0..8 {
            let message = sheet.message(kind, false, Some(SSI_AND_EXTENSION));
            let mut sdu = sheet.sdu(carrier, false, &message, 3);
            let at = sdu.forward_at.expect("it is stored");
            sdu.write(at, forward_type, 3);
            sheet.read(&sdu);
            let after = at + 3 + forward_width(forward_type).unwrap_or(0);
            let whole = sdu.frame().len() - sdu.data.len();
            for length in [at + 2, at + 3, after - 1, after] {
                let mut short = sdu.clone();
                short.resize(length);
                short.fcs = (length % 2 == 0).then_some(0);
                sheet.read(&short);
                sheet.read_bits(carrier, false, &sdu.bits()[..whole + length]);
            }
        }
    }
}

/// One message of each kind cut at every bit; the bits cut off are at times still lent.
fn cut_at_every_bit(sheet: &mut Sheet) {
    let of = [
        (DM_SDS_DATA, TRANSFER, true, Some(SSI), false, 3),
        (DM_SDS_ACK, REPORT, false, Some(SSI_AND_EXTENSION), true, 2),
        (DM_SDS_UDATA, ACK, false, None, false, 0),
        (DM_SDS_DATA, SHORT_REPORT, false, None, true, 0),
    ];
    for (carrier, kind, addressed, forward_type, with_fcs, length) in of {
        let message = sheet.message(kind, addressed, forward_type);
        let bits = sheet.sdu(carrier, with_fcs, &message, length).bits();
        for n in 0..=bits.len() {
            let lent = if n % 2 == 0 { bits.len() } else { n };
            let call = LentCall {
                carrier,
                elements: with_fcs.into(),
                n: n as u64,
                bytes: pack(&bits[..lent]),
            };
            sheet.once(call.read());
        }
    }
}

/// User defined data 4 that ends at every bit, by L: without FCS, with the right one, and with one
/// that has a wrong bit; then lengths that the data does not have.
fn cut_by_length(sheet: &mut Sheet) {
    let message = sheet.message(REPORT, false, Some(SSI));
    let sdu = sheet.sdu(DM_SDS_DATA, true, &message, 0);
    for length in 6..=sdu.data.len() + 2 {
        let mut cut = sdu.clone();
        cut.resize(length);
        sheet.read(&cut);
        cut.fcs = Some(1 << (length % 32));
        sheet.read(&cut);
        cut.fcs = None;
        cut.after = vec![true; length % 3];
        sheet.read(&cut);
    }
    for (carrier, kind) in [(DM_SDS_UDATA, TRANSFER), (DM_SDS_ACK, ACK)] {
        let message = sheet.message(kind, false, None);
        let sdu = sheet.sdu(carrier, kind == TRANSFER, &message, 0);
        for length in 8..=sdu.data.len() + 2 {
            let mut cut = sdu.clone();
            cut.resize(length);
            sheet.read(&cut);
        }
    }
    for (kind, length, mores) in [
        (REPORT, 30, &[1, 2, 31, 32, 33, 1_000][..]),
        (ACK, 0, &[1, 33]),
    ] {
        let message = sheet.message(kind, false, None);
        let sdu = sheet.sdu(DM_SDS_DATA, true, &message, length);
        for &more in mores {
            for fcs in [None, Some(0)] {
                let mut said = sdu.clone();
                said.length = Some(said.data.len() as u64 + more);
                said.fcs = fcs;
                sheet.read(&said);
                said.after = vec![false; more as usize];
                sheet.read(&said);
                said.after.pop();
                sheet.read(&said);
            }
        }
    }
}

/// A bit that is another, at every place of messages with an FCS.
fn every_flipped_bit(sheet: &mut Sheet) {
    let of = [
        (DM_SDS_DATA, TRANSFER, true, Some(NO_ADDRESS), 2),
        (DM_SDS_ACK, SHORT_REPORT, false, None, 0),
    ];
    for (carrier, kind, addressed, forward_type, length) in of {
        let message = sheet.message(kind, addressed, forward_type);
        let bits = sheet.sdu(carrier, true, &message, length).bits();
        for at in 0..bits.len() {
            let mut flipped = bits.clone();
            flipped[at] = !flipped[at];
            sheet.read_bits(carrier, true, &flipped);
        }
    }
}

/// Frames of about 32 bits: with their FCS, with that of a register, and with one bit wrong.
fn short_frames(sheet: &mut Sheet) {
    let mut frames = Vec::new();
    for carrier in [DM_SDS_UDATA, DM_SDS_ACK] {
        let short = sheet.message(SHORT_REPORT, false, None);
        frames.push(sheet.sdu(carrier, true, &short, 0));
        for length in 11..=18 {
            let report = sheet.message(REPORT, false, None);
            let mut sdu = sheet.sdu(carrier, true, &report, 0);
            sdu.resize(length);
            frames.push(sdu);
        }
    }
    for mut sdu in frames {
        sheet.read(&sdu);
        let frame = sdu.frame();
        let checked = [&frame[..], &register(&frame)].concat();
        sheet.read_bits(sdu.carrier, true, &checked);
        sdu.fcs = Some(1 << (frame.len() % 32));
        sheet.read(&sdu);
    }
}

/// Where 21 and 22 both hold, and each of the two alone.
fn both_faults(sheet: &mut Sheet) {
    for (carrier, kind) in [(DM_SDS_DATA, TRANSFER), (DM_SDS_ACK, REPORT)] {
        for (forward_type, missing) in [(SSI, 0), (0b011, 0), (SSI, 1), (0b011, 1), (0b100, 20)] {
            for (wrong, lost) in [(0, 0), (1, 0), (1 << 31, 1), (0, 1), (1, 32)] {
                let message = sheet.message(kind, false, Some(SSI));
                let mut sdu = sheet.sdu(carrier, true, &message, 0);
                let at = sdu.forward_at.expect("it is stored");
                sdu.write(at, forward_type, 3);
                sdu.resize(sdu.data.len() - missing);
                sdu.fcs = Some(wrong);
                let bits = sdu.bits();
                sheet.read_bits(carrier, true, &bits[..bits.len() - lost]);
            }
        }
    }
}

/// Reserved bits, bits after the last element, bits of an SDS-ACK's L after its elements, and all
/// of the header's elements but the last bit.
fn not_looked_at(sheet: &mut Sheet) {
    for (carrier, kind, at, width) in [(DM_SDS_DATA, REPORT, 13, 2), (DM_SDS_ACK, ACK, 12, 4)] {
        let message = sheet.message(kind, false, None);
        for reserved in 0..1 << width {
            for with_fcs in [false, true] {
                let mut sdu = sheet.sdu(carrier, with_fcs, &message, 0);
                sdu.write(at, reserved, width);
                sheet.read(&sdu);
            }
        }
    }
    for kind in TRANSFER..=SHORT_REPORT {
        for with_fcs in [false, true] {
            let message = sheet.message(kind, false, stored(kind).last().copied().flatten());
            let mut sdu = sheet.sdu(DM_SDS_UDATA, with_fcs, &message, 0);
            for more in [1, 3, 8, 32, 200] {
                sdu.after = sheet.rng.bits(more);
                sheet.read(&sdu);
            }
        }
    }
    let message = sheet.message(ACK, false, None);
    for with_fcs in [false, true] {
        for more in [1, 8, 31, 32, 33, 300, 2_015] {
            let mut sdu = sheet.sdu(DM_SDS_ACK, with_fcs, &message, 0);
            sdu.data.extend(sheet.rng.bits(more));
            sdu.length = Some(sdu.data.len() as u64);
            sheet.read(&sdu);
            let mut bits = sdu.bits();
            let last = sdu.frame().len() - 1;
            bits[last] = !bits[last];
            sheet.read_bits(DM_SDS_ACK, with_fcs, &bits);
        }
    }
    for with_fcs in [false, true] {
        let message = sheet.message(TRANSFER, false, None);
        let mut call = sheet.sdu(DM_SDS_DATA, with_fcs, &message, 4).call();
        for elements in [0, 2, 0xFE, 1 << 32, 1 << 63, u64::MAX - 1] {
            for flag in [0, 1] {
                call.elements = elements | flag;
                sheet.once(call.read());
            }
        }
    }
}

/// n around the bits that are lent.
fn lent_bits(sheet: &mut Sheet) {
    let message = sheet.message(TRANSFER, false, None);
    for with_fcs in [false, true] {
        let mut call = sheet.sdu(DM_SDS_UDATA, with_fcs, &message, 0).call();
        let lent = 8 * call.bytes.len() as u64;
        let edges = [lent - 1, lent, lent + 1, lent + 8, 1 << 24, 1 << 31];
        for n in edges.into_iter().chain([u64::from(u32::MAX)]) {
            for carrier in [DM_SDS_UDATA, 0] {
                (call.n, call.carrier) = (n, carrier);
                sheet.once(call.read());
            }
        }
    }
    for carrier in [0, DM_SDS_UDATA, DM_SDS_ACK] {
        for n in [0, 1] {
            let call = LentCall {
                carrier,
                elements: 0,
                n,
                bytes: Vec::new(),
            };
            sheet.once(call.read());
        }
    }
}

/// The longest user defined data 4 that there is, and in a DM-SDS ACK more than a build writes.
fn long_data(sheet: &mut Sheet) {
    for with_fcs in [false, true] {
        for (carrier, kind, length) in [
            (DM_SDS_UDATA, TRANSFER, 2_047),
            (DM_SDS_DATA, TRANSFER, 2_046),
            (DM_SDS_ACK, REPORT, 237),
            (DM_SDS_ACK, REPORT, 238),
            (DM_SDS_ACK, REPORT, 269),
            (DM_SDS_ACK, REPORT, 270),
            (DM_SDS_ACK, REPORT, 2_047),
        ] {
            let message = sheet.message(kind, false, None);
            let length = length - fixed(&message) as usize;
            let sdu = sheet.sdu(carrier, with_fcs, &message, length);
            sheet.read(&sdu);
            let mut short = sdu.call();
            short.n -= 1;
            sheet.once(short.read());
        }
    }
}

/// Every field of a build at the ends of its range and beyond, in every kind.
fn every_field(sheet: &mut Sheet) {
    for (carrier, kind) in every_kind() {
        if carrier == DM_SDS_UDATA {
            continue;
        }
        let forward_type = stored(kind).get(1).copied().flatten();
        let message = sheet.message(kind, carrier == DM_SDS_DATA, forward_type);
        let n = if message.has_user_data() { 12 } else { 0 };
        let call = sheet.call(carrier, carrier == DM_SDS_DATA, &message, n);
        let mut with = |change: &dyn Fn(&mut SduCall)| {
            let mut call = call.clone();
            change(&mut call);
            call.output = call.just_enough().unwrap_or(1_024);
            sheet.build(&call);
        };
        for number in [0, 1, 2, 255] {
            with(&|call| call.fcs = number);
            with(&|call| call.message.addressed = number);
            with(&|call| {
                let message = &mut call.message;
                (message.addressed, message.mni, message.ssi) = (number, 0, 0);
            });
            with(&|call| call.message.set(Name::Storage, number));
        }
        for number in [0, 1, 2] {
            with(&|call| call.message.set(Name::ShortForm, number));
            with(&|call| call.message.set(Name::AckRequired, number));
        }
        for number in [0, 1, 3, 4, 255] {
            with(&|call| call.message.set(Name::Request, number));
            with(&|call| call.message.set(Name::Status, number));
        }
        for number in [0, 1, 2, 3, 4, 5, 255] {
            with(&|call| call.message.kind = number);
        }
        for number in [0, 1, (1 << 24) - 1, 1 << 24, (1 << 32) - 1] {
            with(&|call| call.message.mni = number);
            with(&|call| call.message.ssi = number);
        }
        for number in [0, 1, 127, 128, 255] {
            with(&|call| call.message.set(Name::Protocol, number));
        }
        for number in [0, 1, 31, 32, 255] {
            with(&|call| call.message.set(Name::Validity, number));
        }
        for number in [0, 255] {
            with(&|call| call.message.set(Name::Reference, number));
        }
        for number in [0, 1, 7] {
            with(&|call| call.message.set(Name::ForwardType, number));
        }
        for number in [0, 1, 1 << 63] {
            with(&|call| call.message.set(Name::ForwardAddress, number));
        }
        for n in [0, 1, 15, 16, 17, 1 << 31, (1 << 32) - 1] {
            with(&|call| (call.n, call.bytes) = (n, vec![0xC5, 0x39]));
        }
    }
    for carrier in (0..=32).chain([255]) {
        let message = sheet.message(REPORT, false, None);
        let mut call = sheet.call(DM_SDS_DATA, true, &message, 5);
        call.carrier = carrier;
        call.output = 1_024;
        sheet.build(&call);
    }
}

/// Forward address types with addresses at their ends, stored or not.
fn every_forward_address(sheet: &mut Sheet) {
    let ends = [0, 1, (1 << 24) - 1, 1 << 24, (1 << 48) - 1, 1 << 48];
    for forward_type in [0, 1, 2, 3, 4, 5, 6, 7, 8, 255] {
        for storage in [0, 1, 2] {
            for address in ends {
                if storage != 1 && address > 1 {
                    continue;
                }
                let kind = [TRANSFER, REPORT][(forward_type % 2) as usize];
                let mut message = sheet.message(kind, false, None);
                message.set(Name::Storage, storage);
                message.set(Name::ForwardType, forward_type);
                message.set(Name::ForwardAddress, address);
                let call = sheet.call(DM_SDS_DATA, false, &message, 3);
                sheet.build(&call);
            }
        }
    }
    for kind in [TRANSFER, REPORT] {
        let mut message = sheet.message(kind, false, None);
        message.set(Name::Validity, 1);
        let call = sheet.call(DM_SDS_UDATA, false, &message, 3);
        sheet.build(&call);
    }
}

/// User defined data 4 of as many bits as there may be, and of one more.
fn every_limit(sheet: &mut Sheet) {
    for (carrier, kind) in every_kind() {
        for &forward_type in stored(kind) {
            for with_fcs in [false, true] {
                let message = sheet.message(kind, false, forward_type);
                if !message.has_user_data() {
                    continue;
                }
                let most = longest(carrier, with_fcs) - fixed(&message);
                for n in [most, most + 1] {
                    let call = sheet.call(carrier, with_fcs, &message, n);
                    sheet.build(&call);
                }
            }
        }
    }
}

/// Outputs around just enough, and fault 13 before fault 1.
fn every_output(sheet: &mut Sheet) {
    for (carrier, kind) in every_kind() {
        let message = sheet.message(kind, false, None);
        let n = if message.has_user_data() { 21 } else { 0 };
        let mut call = sheet.call(carrier, kind % 2 == 0, &message, n);
        let enough = call.output;
        for output in [0, enough - 1, enough, enough + 1, 1_024] {
            call.output = output;
            sheet.build(&call);
        }
    }
}

/// Every cause of a refusal by itself, and every two together.
fn every_refusal(sheet: &mut Sheet) {
    let causes = causes();
    for (i, first) in causes.iter().enumerate() {
        for second in &causes[i + 1..] {
            let message = sheet.message(TRANSFER, true, Some(SSI));
            let mut call = sheet.call(DM_SDS_DATA, true, &message, 20);
            first(&mut call);
            second(&mut call);
            sheet.build(&call);
        }
    }
}

/// The causes, in the order of their faults: 21, 13, 1.
fn causes() -> Vec<fn(&mut SduCall)> {
    vec![
        |call| call.carrier = 25,
        |call| call.message.kind = 5,
        |call| call.carrier = DM_SDS_ACK,
        |call| call.message.set(Name::Protocol, 127),
        |call| call.message.set(Name::ForwardType, 0b011),
        |call| call.fcs = 2,
        |call| call.message.addressed = 2,
        |call| call.message.mni = 1 << 24,
        |call| call.message.ssi = 1 << 31,
        |call| call.message.set(Name::Request, 4),
        |call| call.message.set(Name::ShortForm, 2),
        |call| call.message.set(Name::AckRequired, 1),
        |call| call.message.set(Name::Storage, 2),
        |call| call.message.set(Name::Status, 1),
        |call| call.message.set(Name::Validity, 32),
        |call| call.message.set(Name::ForwardAddress, 1 << 24),
        |call| call.n = 8 * call.bytes.len() as u64 + 1,
        |call| (call.n, call.bytes) = (2_047 - 55, vec![0x5A; 250]),
        |call| call.output = 0,
        |_| (),
    ]
}

/// Bookings, each sort after a fresh start.
fn bookings(sheet: &mut Sheet) {
    repeats(sheet);
    again_moves_nothing(sheet);
    around_and_around(sheet);
    pairs(sheet);
    not_booked(sheet);
}

impl Sheet {
    fn fresh(&mut self) {
        self.records.push(record(11, &[]));
    }

    /// A transfer from this source with this reference; the rest drawn.
    fn transfer(&mut self, reference: u64) -> LentCall {
        let stored = self.rng.chance(30).then(|| self.rng.pick(&FORWARD_TYPES));
        let addressed = self.rng.chance(30);
        let mut message = self.message(TRANSFER, addressed, stored);
        message.set(Name::Reference, reference);
        let carrier = self.rng.pick(&[DM_SDS_UDATA, DM_SDS_DATA]);
        let with_fcs = self.rng.chance(30);
        self.sdu(carrier, with_fcs, &message, 2).call()
    }

    fn book(&mut self, source: u64, reference: u64) {
        let call = self.transfer(reference);
        self.records.push(call.book(source));
    }
}

/// 31, 32 and 33 other pairs between a pair and its repeat.
fn repeats(sheet: &mut Sheet) {
    for between in [31, 32, 33] {
        sheet.fresh();
        sheet.book(7, 200);
        (0..between).for_each(|reference| sheet.book(7, reference));
        sheet.book(7, 200);
        sheet.book(7, 200);
        sheet.book(7, 0);
    }
}

/// A pair that comes again goes out when it would have gone out.
fn again_moves_nothing(sheet: &mut Sheet) {
    sheet.fresh();
    (0..32).for_each(|source| sheet.book(source, 9));
    (0..32)
        .rev()
        .step_by(5)
        .for_each(|source| sheet.book(source, 9));
    sheet.book(0, 9);
    sheet.book(100, 9);
    sheet.book(0, 9);
    sheet.book(2, 9);
    sheet.book(1, 9);
}

/// More bookings than twice the index, then the last 32 again, and the one before them.
fn around_and_around(sheet: &mut Sheet) {
    sheet.fresh();
    let source = |i: u64| (i * 0x04_0001) & 0xFF_FFFF;
    (0..75).for_each(|i| sheet.book(source(i), i));
    (43..75).for_each(|i| sheet.book(source(i), i));
    sheet.book(source(42), 42);
    sheet.book(source(43), 43);
    sheet.book(source(45), 45);
}

/// What makes two pairs the same, and what does not.
fn pairs(sheet: &mut Sheet) {
    sheet.fresh();
    for source in [0, 1, (1 << 24) - 1, 1 << 23, 256] {
        for reference in [0, 255, 1, 128] {
            sheet.book(source, reference);
        }
    }
    for source in [1 << 24, (1 << 24) + 1, 1 << 31, (1 << 32) - 1] {
        sheet.book(source, 0);
    }
    sheet.fresh();
    for with_fcs in [false, true] {
        for carrier in [DM_SDS_UDATA, DM_SDS_DATA] {
            for (addressed, forward_type) in [(false, None), (true, None), (true, Some(SSI))] {
                let mut message = sheet.message(TRANSFER, addressed, forward_type);
                message.set(Name::Reference, 77);
                let call = sheet.sdu(carrier, with_fcs, &message, 11).call();
                sheet.records.push(call.book(5));
            }
        }
    }
}

/// Other messages and refused ones, of pairs that are booked and of pairs that are not.
fn not_booked(sheet: &mut Sheet) {
    sheet.fresh();
    sheet.book(7, 200);
    (0..31).for_each(|reference| sheet.book(7, reference));
    for (carrier, kind) in every_kind() {
        for reference in [200, 201] {
            if kind != TRANSFER {
                let mut message = sheet.message(kind, false, None);
                message.set(Name::Reference, reference);
                let call = sheet.sdu(carrier, kind == ACK, &message, 0).call();
                sheet.records.push(call.book(7));
            }
        }
    }
    for reference in [200, 201] {
        let whole = sheet.transfer(reference);
        let changes: [fn(&mut LentCall); 6] = [
            |call| call.n = 8 * call.bytes.len() as u64 + 1,
            |call| call.n = 30,
            |call| call.n = 12,
            |call| call.n = 0,
            |call| call.carrier = DM_SDS_ACK,
            |call| call.carrier = 21,
        ];
        for change in changes {
            let mut call = whole.clone();
            change(&mut call);
            sheet.records.push(call.book(7));
        }
        sheet.records.push(whole.book(1 << 24 | 7));
        let mut message = sheet.message(TRANSFER, false, None);
        message.set(Name::Reference, reference);
        let mut wrong = sheet.sdu(DM_SDS_DATA, true, &message, 3);
        wrong.fcs = Some(1);
        sheet.records.push(wrong.call().book(7));
    }
    let mut both = sheet.transfer(200);
    for n in [8 * both.bytes.len() as u64 + 1, 30, 0] {
        both.n = n;
        sheet.records.push(both.book(1 << 24));
    }
    sheet.book(7, 200);
    sheet.book(7, 201);
    sheet.book(7, 200);
}

/// Bodies with more than their kind takes, the largest ones, and outputs that are too long. The
/// receiver's settings leave the bookings alone.
fn framing(sheet: &mut Sheet) {
    sheet.book(1, 2);
    sheet.records.push(record(0, &[0; 12]));
    sheet.book(1, 2);
    sheet.records.push(record(11, &[0xFF; 17]));
    sheet.book(1, 2);
    sheet.records.push(record(11, &[0; 4_096]));
    sheet.book(1, 2);
    let mut call = sheet.transfer(3);
    call.bytes.resize(4_096 - 13, 0xFF);
    sheet.once(call.read());
    call.n = 8 * call.bytes.len() as u64;
    sheet.once(call.read());
    call.n += 1;
    sheet.once(call.read());
    call.bytes.truncate(4_096 - 17);
    sheet.records.push(call.book(1));
    call.n = 8 * call.bytes.len() as u64;
    sheet.records.push(call.book(1));
    let message = sheet.message(REPORT, false, None);
    let mut call = sheet.call(DM_SDS_UDATA, false, &message, 7);
    for output in [1_023, 1_024, 1_025, 65_535] {
        call.output = output;
        sheet.build(&call);
    }
    call.output = 1_024;
    call.bytes = vec![0xFF; 4_096 - 35];
    for n in [7, 2_015, 2_016, 8 * (4_096 - 35), 8 * (4_096 - 35) + 1] {
        call.n = n;
        sheet.build(&call);
    }
}

#[cfg(test)]
mod tests {
    use super::*;
    use crate::log::{Record, Records};
    use crate::probe::probe;

    #[test]
    fn every_record_has_its_line() {
        let sheet = transports();
        let lines = probe(&sheet);
        assert!(!lines.contains("cut\n"));
        let whole = |record: &Record| matches!(record, Record::Whole(0 | 9..=12, _));
        let records = Records::new(&sheet);
        let count = records.inspect(|record| assert!(whole(record))).count();
        assert_eq!(lines.lines().count(), count);
        assert!(count < 3_200, "{count} records");
    }
}
