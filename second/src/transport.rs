//! The four SDS-TL messages (Annex E; EN 300 392-2, 29.4.2) inside the DM-SDU of the three short
//! data messages (9.5.15 to 9.5.17, 9.7). Each message is a list of its parts, the same for
//! reading and for building.

use crate::bits::{fits, spell, unpack, Taker};
use crate::faults::{refuse, Fault};
use crate::fcs::{fcs, FCS_BITS};

/// The header's message types that carry short data (9.3.19).
pub const DM_SDS_UDATA: u64 = 22;
pub const DM_SDS_DATA: u64 = 23;
pub const DM_SDS_ACK: u64 = 24;

/// The four messages.
pub const TRANSFER: u64 = 1;
pub const REPORT: u64 = 2;
pub const ACK: u64 = 3;
pub const SHORT_REPORT: u64 = 4;

/// 9.7.1: data in the acknowledgement.
pub const WITH_DATA: u64 = 0b0001;
/// 9.7.3.
pub const CALLING_PARTY: u64 = 0b0001;
/// 9.7.16: the short data types that carry the four messages.
pub const USER_DEFINED_4: u64 = 0b0011;
pub const STATUS: u64 = 0b0100;
/// The protocol identifiers from here on are those of SDS-TL.
pub const FIRST_PROTOCOL: u64 = 128;
/// Forward address types of direct mode: an SSI, an SSI with its extension, none.
pub const SSI: u64 = 0b001;
pub const SSI_AND_EXTENSION: u64 = 0b010;
pub const NO_ADDRESS: u64 = 0b111;

/// Widths of an MNI and an SSI, of the length indicator and of the pre-coded status.
const ADDRESS: usize = 24;
const LENGTH_INDICATOR: usize = 11;
const STATUS_BITS: usize = 16;

/// The elements that a message may have, in the order in which they are printed.
#[derive(Clone, Copy, Debug, PartialEq, Eq)]
pub enum Name {
    Protocol,
    Request,
    ShortForm,
    AckRequired,
    Storage,
    Status,
    Reference,
    Validity,
    ForwardType,
    ForwardAddress,
}

pub const NAMES: [Name; 10] = [
    Name::Protocol,
    Name::Request,
    Name::ShortForm,
    Name::AckRequired,
    Name::Storage,
    Name::Status,
    Name::Reference,
    Name::Validity,
    Name::ForwardType,
    Name::ForwardAddress,
];

/// A part of a message: a code that is always the same, reserved bits, or an element; and its
/// width.
#[derive(Clone, Copy)]
pub enum Part {
    Code(u64, usize),
    Reserved(usize),
    Element(Name, usize),
}

impl Part {
    pub fn width(self) -> usize {
        match self {
            Part::Code(_, width) | Part::Reserved(width) | Part::Element(_, width) => width,
        }
    }
}

/// 29.4.2.4.
const TRANSFER_PARTS: [Part; 6] = [
    Part::Element(Name::Protocol, 8),
    Part::Code(0b0000, 4),
    Part::Element(Name::Request, 2),
    Part::Element(Name::ShortForm, 1),
    Part::Element(Name::Storage, 1),
    Part::Element(Name::Reference, 8),
];

/// 29.4.2.2.
const REPORT_PARTS: [Part; 7] = [
    Part::Element(Name::Protocol, 8),
    Part::Code(0b0001, 4),
    Part::Element(Name::AckRequired, 1),
    Part::Reserved(2),
    Part::Element(Name::Storage, 1),
    Part::Element(Name::Status, 8),
    Part::Element(Name::Reference, 8),
];

/// 29.4.2.1.
const ACK_PARTS: [Part; 5] = [
    Part::Element(Name::Protocol, 8),
    Part::Code(0b0010, 4),
    Part::Reserved(4),
    Part::Element(Name::Status, 8),
    Part::Element(Name::Reference, 8),
];

/// 29.4.2.3.
const SHORT_REPORT_PARTS: [Part; 3] = [
    Part::Code(0b011111, 6),
    Part::Element(Name::Status, 2),
    Part::Element(Name::Reference, 8),
];

/// What a transfer or a report has ahead of its forward address if its storage is 1.
const STORED_PARTS: [Part; 2] = [
    Part::Element(Name::Validity, 5),
    Part::Element(Name::ForwardType, 3),
];

/// The parts that every message of a kind has.
fn first_parts(kind: u64) -> &'static [Part] {
    match kind {
        TRANSFER => &TRANSFER_PARTS,
        REPORT => &REPORT_PARTS,
        ACK => &ACK_PARTS,
        SHORT_REPORT => &SHORT_REPORT_PARTS,
        _ => &[],
    }
}

/// The forward address's width; `None` for a type that is not direct mode's.
pub fn forward_width(forward_type: u64) -> Option<usize> {
    match forward_type {
        SSI => Some(ADDRESS),
        SSI_AND_EXTENSION => Some(2 * ADDRESS),
        NO_ADDRESS => Some(0),
        _ => None,
    }
}

/// One of the four messages, but for its user data.
#[derive(Clone, Debug, Default, PartialEq, Eq)]
pub struct Message {
    /// 1 to 4.
    pub kind: u64,
    /// 1 with a calling party.
    pub addressed: u64,
    pub mni: u64,
    pub ssi: u64,
    /// By their names; one that the message does not have is 0.
    pub elements: [u64; NAMES.len()],
}

impl Message {
    pub fn get(&self, name: Name) -> u64 {
        self.elements[name as usize]
    }

    pub fn set(&mut self, name: Name, number: u64) {
        self.elements[name as usize] = number;
    }

    /// Takes some parts, and keeps what the elements among them say.
    fn take(&mut self, taker: &mut Taker, parts: &[Part]) -> Result<(), Fault> {
        for part in parts {
            let number = taker.next(part.width()).ok_or(22)?;
            if let Part::Element(name, _) = *part {
                self.set(name, number);
            }
        }
        Ok(())
    }

    /// Only transfers and reports have user data, and may be stored.
    pub fn has_user_data(&self) -> bool {
        self.kind == TRANSFER || self.kind == REPORT
    }

    fn is_stored(&self) -> bool {
        self.has_user_data() && self.get(Name::Storage) == 1
    }

    /// All parts ahead of the user data; `None` for a forward address type that is not direct
    /// mode's.
    pub fn parts(&self) -> Option<Vec<Part>> {
        let mut parts = first_parts(self.kind).to_vec();
        if self.is_stored() {
            let width = forward_width(self.get(Name::ForwardType))?;
            parts.extend(STORED_PARTS);
            parts.push(Part::Element(Name::ForwardAddress, width));
        }
        Some(parts)
    }
}

/// The message bits that are lent: so many of the first bits of some bytes, in a carrier, which is
/// the header's message type, with or without the FCS flag.
#[derive(Clone, Copy)]
pub struct Lent<'a> {
    pub carrier: u64,
    pub fcs: bool,
    pub n: u64,
    pub bytes: &'a [u8],
}

/// A message as read, with its user data's first bit and number of bits.
#[derive(Clone, Debug, PartialEq, Eq)]
pub struct Read {
    pub message: Message,
    pub first: usize,
    pub bits: usize,
}

/// What the elements that tell say: the kind and the calling party, and where the element that
/// carries the message starts and ends, though there may be fewer bits.
struct Told {
    message: Message,
    start: usize,
    end: usize,
}

impl Lent<'_> {
    /// Reads one of the four messages. Faults 13, 21, 22.
    pub fn read(&self) -> Result<Read, Fault> {
        let bits = unpack(self.bytes);
        refuse(13, self.n > bits.len() as u64)?;
        let sdu = &bits[..self.n as usize];
        let told = tell(self.carrier, sdu).ok_or(21)?;
        refuse(21, self.fcs && is_wrong(sdu, told.end))?;
        let carried = &sdu[..told.end.min(sdu.len())];
        let (message, after) = take_parts(told.message, &carried[told.start..])?;
        let last = if self.fcs { FCS_BITS } else { 0 };
        refuse(22, sdu.len() < told.end + last)?;
        let first = told.start + after;
        let (first, bits) = match message.has_user_data() {
            true => (first, told.end - first),
            false => (0, 0),
        };
        Ok(Read {
            message,
            first,
            bits,
        })
    }
}

/// Goes by the elements that tell; `None` where one ends early or says that it is none of the four.
fn tell(carrier: u64, sdu: &[bool]) -> Option<Told> {
    let mut taker = Taker::new(sdu);
    let mut message = match carrier {
        DM_SDS_UDATA | DM_SDS_DATA => take_caller(&mut taker)?,
        DM_SDS_ACK => {
            let acknowledgement = taker.next(4)?;
            (acknowledgement == WITH_DATA).then(Message::default)?
        }
        _ => return None,
    };
    let sdti = taker.next(4)?;
    let length = match sdti {
        USER_DEFINED_4 => taker.next(LENGTH_INDICATOR)? as usize,
        STATUS => STATUS_BITS,
        _ => return None,
    };
    let (start, end) = (taker.at, taker.at + length);
    let mut carried = Taker::new(&sdu[start..end.min(sdu.len())]);
    message.kind = match sdti {
        STATUS => (carried.next(6)? == 0b011111).then_some(SHORT_REPORT)?,
        _ => {
            let (protocol, message_type) = (carried.next(8)?, carried.next(4)?);
            let kind = match message_type {
                0b0000 if carrier != DM_SDS_ACK => TRANSFER,
                0b0001 => REPORT,
                0b0010 => ACK,
                _ => return None,
            };
            (protocol >= FIRST_PROTOCOL).then_some(kind)?
        }
    };
    Some(Told {
        message,
        start,
        end,
    })
}

/// A message that has nothing yet but its calling party, if there is one (9.7.2 to 9.7.4).
fn take_caller(taker: &mut Taker) -> Option<Message> {
    let mut message = Message {
        addressed: taker.next(1)?,
        ..Message::default()
    };
    if message.addressed == 1 {
        (taker.next(4)? == CALLING_PARTY).then_some(())?;
        message.mni = taker.next(ADDRESS)?;
        message.ssi = taker.next(ADDRESS)?;
    }
    Some(message)
}

/// True if an FCS over so many bits is all there and wrong.
fn is_wrong(sdu: &[bool], over: usize) -> bool {
    let there = sdu.get(over..over + FCS_BITS);
    there.is_some_and(|there| there != fcs(&sdu[..over]))
}

/// Takes a message's parts from the element that carries it; with the number of bits that they
/// took. 22 where it ends before they do, 21 for a forward address type that is not direct mode's.
fn take_parts(mut message: Message, carried: &[bool]) -> Result<(Message, usize), Fault> {
    let mut taker = Taker::new(carried);
    message.take(&mut taker, first_parts(message.kind))?;
    if message.is_stored() {
        message.take(&mut taker, &STORED_PARTS)?;
        let width = forward_width(message.get(Name::ForwardType)).ok_or(21)?;
        message.take(&mut taker, &[Part::Element(Name::ForwardAddress, width)])?;
    }
    Ok((message, taker.at))
}

/// What a build is asked for: a message in a carrier, with an FCS flag.
#[derive(Clone)]
pub struct Wanted<'a> {
    pub carrier: u64,
    pub fcs: u64,
    pub message: Message,
    /// The user data: so many of the first bits of some bytes.
    pub n: u64,
    pub bytes: &'a [u8],
}

impl Wanted<'_> {
    /// The DM-SDU's bits, for an output of so many bytes. Faults 21, 13, 1.
    pub fn build(&self, output: usize) -> Result<Vec<bool>, Fault> {
        let parts = self.parts().ok_or(21)?;
        refuse(13, !self.in_range(&parts))?;
        let user_data = &unpack(self.bytes)[..self.n as usize];
        let sdu = sdu(
            self.carrier,
            self.fcs == 1,
            &self.message,
            &parts,
            user_data,
        );
        refuse(1, output < sdu.len().div_ceil(8))?;
        Ok(sdu)
    }

    /// The parts of the message; `None` if it is none of the four, or not one for its carrier.
    fn parts(&self) -> Option<Vec<Part>> {
        let kinds = match self.carrier {
            DM_SDS_UDATA | DM_SDS_DATA => TRANSFER..=SHORT_REPORT,
            DM_SDS_ACK => REPORT..=SHORT_REPORT,
            _ => return None,
        };
        kinds.contains(&self.message.kind).then_some(())?;
        let has_protocol = self.message.kind != SHORT_REPORT;
        let protocol = self.message.get(Name::Protocol);
        (!has_protocol || protocol >= FIRST_PROTOCOL).then_some(())?;
        self.message.parts()
    }

    /// Fault 13.
    fn in_range(&self, parts: &[Part]) -> bool {
        let width = |name| {
            let with_width = |&part: &Part| match part {
                Part::Element(other, width) if other == name => Some(width),
                _ => None,
            };
            parts.iter().find_map(with_width).unwrap_or(0)
        };
        fits(self.fcs, 1)
            && self.caller_in_range()
            && NAMES
                .iter()
                .all(|&name| fits(self.message.get(name), width(name)))
            && self.length_in_range(parts)
    }

    fn caller_in_range(&self) -> bool {
        let message = &self.message;
        let width = if message.addressed == 1 { ADDRESS } else { 0 };
        let flag = if self.carrier == DM_SDS_ACK { 0 } else { 1 };
        fits(message.addressed, flag) && fits(message.mni, width) && fits(message.ssi, width)
    }

    fn length_in_range(&self, parts: &[Part]) -> bool {
        if !self.message.has_user_data() {
            return self.n == 0;
        }
        let fixed: usize = parts.iter().map(|part| part.width()).sum();
        let lent = 8 * self.bytes.len() as u64;
        self.n <= lent && fixed as u64 + self.n <= longest(self.carrier, self.fcs == 1)
    }
}

/// The longest user defined data 4: what the length indicator can say, and in a DM-SDS ACK what
/// one header and one block hold (6.3, with the protocol identifier).
pub fn longest(carrier: u64, with_fcs: bool) -> u64 {
    match (carrier, with_fcs) {
        (DM_SDS_ACK, false) => 269,
        (DM_SDS_ACK, true) => 237,
        _ => 2_047,
    }
}

/// The DM-SDU, element after element.
fn sdu(
    carrier: u64,
    with_fcs: bool,
    message: &Message,
    parts: &[Part],
    user_data: &[bool],
) -> Vec<bool> {
    let mut sdu = match (carrier, message.addressed) {
        (DM_SDS_ACK, _) => spell(WITH_DATA, 4),
        (_, 0) => vec![false],
        _ => [
            vec![true],
            spell(CALLING_PARTY, 4),
            spell(message.mni, ADDRESS),
            spell(message.ssi, ADDRESS),
        ]
        .concat(),
    };
    let carried = carried(message, parts, user_data);
    if message.kind == SHORT_REPORT {
        sdu.extend(spell(STATUS, 4));
    } else {
        sdu.extend(spell(USER_DEFINED_4, 4));
        sdu.extend(spell(carried.len() as u64, LENGTH_INDICATOR));
    }
    sdu.extend(carried);
    if with_fcs {
        sdu.extend(fcs(&sdu));
    }
    sdu
}

/// The element that carries a message: user defined data 4 or the pre-coded status.
pub fn carried(message: &Message, parts: &[Part], user_data: &[bool]) -> Vec<bool> {
    let bits = |&part: &Part| match part {
        Part::Code(code, width) => spell(code, width),
        Part::Reserved(width) => vec![false; width],
        Part::Element(name, width) => spell(message.get(name), width),
    };
    let mut carried: Vec<bool> = parts.iter().flat_map(bits).collect();
    carried.extend(user_data);
    carried
}

#[cfg(test)]
mod tests {
    use super::*;
    use crate::bits::pack;
    use crate::fcs::register;

    /// Bits written down as 0 and 1, with spaces between the elements.
    fn bits(words: &str) -> Vec<bool> {
        let digits = words.chars().filter(|&digit| digit != ' ');
        digits.map(|digit| digit == '1').collect()
    }

    fn read(carrier: u64, fcs: bool, sdu: &[bool]) -> Result<Read, Fault> {
        read_some(carrier, fcs, sdu, sdu.len())
    }

    fn read_some(carrier: u64, fcs: bool, lent: &[bool], n: usize) -> Result<Read, Fault> {
        let bytes = pack(lent);
        let n = n as u64;
        let lent = Lent {
            carrier,
            fcs,
            n,
            bytes: &bytes,
        };
        lent.read()
    }

    /// The fault of a read, 0 for none.
    fn fault(carrier: u64, fcs: bool, sdu: &[bool]) -> Fault {
        read(carrier, fcs, sdu).err().unwrap_or(0)
    }

    fn message(kind: u64, elements: &[(Name, u64)]) -> Message {
        let mut message = Message {
            kind,
            ..Message::default()
        };
        for &(name, number) in elements {
            message.set(name, number);
        }
        message
    }

    fn called_by(mni: u64, ssi: u64, message: Message) -> Message {
        Message {
            addressed: 1,
            mni,
            ssi,
            ..message
        }
    }

    /// A message put together by hand: carrier, DM-SDU, how many of its bits are needed to tell,
    /// and what it reads as.
    struct Example {
        carrier: u64,
        sdu: Vec<bool>,
        tells: usize,
        read: Read,
    }

    fn example(
        carrier: u64,
        words: &str,
        tells: usize,
        message: Message,
        data: (usize, usize),
    ) -> Example {
        Example {
            carrier,
            sdu: bits(words),
            tells,
            read: Read {
                message,
                first: data.0,
                bits: data.1,
            },
        }
    }

    const CALLER: &str = "1 0001 000000000000000000000011 111111111111111111111110";

    fn examples() -> Vec<Example> {
        let plain = [(Name::Protocol, 130), (Name::Request, 2)];
        let plain = [&plain[..], &[(Name::ShortForm, 1), (Name::Reference, 165)]].concat();
        let stored = [(Name::Protocol, 255), (Name::Storage, 1)];
        let stored = [&stored[..], &[(Name::Validity, 17)]].concat();
        let with = |more: &[(Name, u64)]| [&stored, more].concat();
        let ssi = with(&[(Name::ForwardType, 1), (Name::ForwardAddress, 0x80_0001)]);
        let both = with(&[
            (Name::ForwardType, 2),
            (Name::ForwardAddress, 0x8000_0100_0002),
        ]);
        let report = [
            (Name::AckRequired, 1),
            (Name::Status, 0xC1),
            (Name::Reference, 1),
        ];
        let none = with(&[(Name::ForwardType, 7)]);
        let ack = [
            (Name::Protocol, 128),
            (Name::Status, 0x81),
            (Name::Reference, 255),
        ];
        let short = [(Name::Status, 2), (Name::Reference, 5)];
        vec![
            example(
                22,
                "0 0011 00000011101 10000010 0000 10 1 0 10100101 10110",
                28,
                message(TRANSFER, &plain),
                (40, 5),
            ),
            example(
                23,
                &format!(
                    "{CALLER} 0011 00000111000 \
                     11111111 0000 00 0 1 00000000 10001 001 100000000000000000000001"
                ),
                53 + 4 + 11 + 12,
                called_by(3, 0xFF_FFFE, message(TRANSFER, &ssi)),
                (53 + 15 + 56, 0),
            ),
            example(
                22,
                "0 0011 00001010001 11111111 0000 00 0 1 00000000 10001 010 \
                 100000000000000000000001 000000000000000000000010 1",
                28,
                message(TRANSFER, &both),
                (96, 1),
            ),
            example(
                24,
                "0001 0011 00000101010 11111111 0001 1 11 1 11000001 00000001 10001 111 10",
                31,
                message(REPORT, &[&none[..], &report].concat()),
                (59, 2),
            ),
            example(
                23,
                "0 0011 00000100000 11111111 0001 1 00 0 11000001 00000001",
                28,
                message(REPORT, &[&[(Name::Protocol, 255)], &report[..]].concat()),
                (48, 0),
            ),
            example(
                24,
                "0001 0011 00000100000 10000000 0010 1010 10000001 11111111",
                31,
                message(ACK, &ack),
                (0, 0),
            ),
            example(
                22,
                &format!("{CALLER} 0011 00000100010 10000000 0010 0000 10000001 11111111 11"),
                53 + 4 + 11 + 12,
                called_by(3, 0xFF_FFFE, message(ACK, &ack)),
                (0, 0),
            ),
            example(
                23,
                "0 0100 011111 10 00000101",
                11,
                message(SHORT_REPORT, &short),
                (0, 0),
            ),
            example(
                24,
                "0001 0100 011111 10 00000101",
                14,
                message(SHORT_REPORT, &short),
                (0, 0),
            ),
            example(
                23,
                &format!("{CALLER} 0100 011111 10 00000101"),
                53 + 4 + 6,
                called_by(3, 0xFF_FFFE, message(SHORT_REPORT, &short)),
                (0, 0),
            ),
        ]
    }

    fn with_fcs(sdu: &[bool]) -> Vec<bool> {
        [sdu, &fcs(sdu)].concat()
    }

    #[test]
    fn by_hand() {
        for Example {
            carrier, sdu, read, ..
        } in examples()
        {
            let told = Ok(read);
            assert_eq!(super::tests::read(carrier, false, &sdu), told);
            let checked = with_fcs(&sdu);
            assert_eq!(super::tests::read(carrier, true, &checked), told);
            assert_eq!(super::tests::read(carrier, false, &checked), told);
            assert_eq!(fault(carrier, true, &sdu), 22);
            for more in 1..=9 {
                let after = vec![true; more];
                let longer = [&sdu[..], &after].concat();
                assert_eq!(super::tests::read(carrier, false, &longer), told);
                let longer = [&checked[..], &after].concat();
                assert_eq!(super::tests::read(carrier, true, &longer), told);
            }
        }
    }

    #[test]
    fn cut_at_every_bit() {
        for Example {
            carrier,
            sdu,
            tells,
            ..
        } in examples()
        {
            let expected = |n, whole| match n {
                _ if n < tells => 21,
                _ if n < whole => 22,
                _ => 0,
            };
            let checked = with_fcs(&sdu);
            for n in 0..=sdu.len() {
                let told = fault(carrier, false, &sdu[..n]);
                assert_eq!(told, expected(n, sdu.len()), "{n} bits");
            }
            for n in 0..=checked.len() {
                let told = fault(carrier, true, &checked[..n]);
                assert_eq!(told, expected(n, checked.len()), "{n} bits with FCS");
                let told = read_some(carrier, true, &checked, n).err().unwrap_or(0);
                assert_eq!(told, expected(n, checked.len()), "{n} of the bits lent");
            }
        }
    }

    /// Where the length indicator stands, if there is one.
    fn length_indicator(example: &Example) -> std::ops::Range<usize> {
        let kind = example.read.message.kind;
        let end = if kind == SHORT_REPORT {
            0
        } else {
            example.tells - 12
        };
        end.saturating_sub(LENGTH_INDICATOR)..end
    }

    #[test]
    fn every_flipped_bit_under_an_fcs() {
        for example in examples() {
            let checked = with_fcs(&example.sdu);
            let length = length_indicator(&example);
            for at in 0..checked.len() {
                let mut flipped = checked.clone();
                flipped[at] = !flipped[at];
                // A length that is too large by one bit leaves the data, or the FCS, not all there.
                let larger = length.contains(&at) && flipped[at];
                let expected = if larger { 22 } else { 21 };
                let told = fault(example.carrier, true, &flipped);
                assert_eq!(told, expected, "bit {at}");
            }
        }
    }

    #[test]
    fn two_flipped_bits_of_a_short_report() {
        for example in examples().iter().filter(|example| example.sdu.len() < 32) {
            let checked = with_fcs(&example.sdu);
            for first in 0..checked.len() {
                for second in 0..first {
                    let mut flipped = checked.clone();
                    flipped[first] = !flipped[first];
                    flipped[second] = !flipped[second];
                    assert_eq!(fault(example.carrier, true, &flipped), 21);
                }
            }
        }
    }

    /// A transfer with one number in place of another.
    fn transfer(carrier: u64, protocol: u64, message_type: u64) -> Vec<bool> {
        let front = if carrier == 24 { "0001" } else { "0" };
        [
            bits(front),
            bits("0011 00000011000"),
            spell(protocol, 8),
            spell(message_type, 4),
            bits("000000000000"),
        ]
        .concat()
    }

    #[test]
    fn what_cannot_be_told() {
        let plain = transfer(22, 128, 0);
        for carrier in (0..22).chain([25, 31, 32, 255]) {
            assert_eq!(fault(carrier, false, &plain), 21, "carrier {carrier}");
        }
        assert_eq!(fault(22, false, &plain), 0);
        assert_eq!(fault(24, false, &transfer(24, 128, 0)), 21);
        for protocol in 0..256 {
            let expected = if protocol < 128 { 21 } else { 0 };
            assert_eq!(fault(23, false, &transfer(23, protocol, 0)), expected);
        }
        for message_type in 1..16 {
            // A report or an SDS-ACK has 32 bits, and here are 24.
            let expected = if message_type <= 2 { 22 } else { 21 };
            assert_eq!(fault(23, false, &transfer(23, 128, message_type)), expected);
            assert_eq!(fault(24, false, &transfer(24, 128, message_type)), expected);
        }
        let report = "0100 011111 00 00000000";
        for number in 0..16 {
            let acknowledgement = [spell(number, 4), bits(report)].concat();
            let expected = if number == 1 { 0 } else { 21 };
            assert_eq!(fault(24, false, &acknowledgement), expected);
            let caller = [bits("1"), spell(number, 4), bits(&CALLER[6..])].concat();
            let addressed = [caller, bits(report)].concat();
            assert_eq!(fault(22, false, &addressed), expected);
            let data = [&[false][..], &spell(number, 4), &[true; 300]].concat();
            assert_eq!(fault(22, false, &data), 21, "SDTI {number}");
        }
        for number in 0..64 {
            let status = [bits("0 0100"), spell(number, 6), bits("00 00000000")].concat();
            let expected = if number == 0b011111 { 0 } else { 21 };
            assert_eq!(fault(23, false, &status), expected, "status {number:06b}");
        }
    }

    /// A stored report in a DM-SDS DATA, with a forward address type, its data cut to some bits.
    fn stored_report(forward_type: u64, length: usize) -> Vec<bool> {
        let mut data = bits("10000000 0001 0 00 1 00000000 00000000 00000");
        data.extend(spell(forward_type, 3));
        data.resize(length, true);
        let front = [bits("0 0011"), spell(length as u64, 11)].concat();
        [front, data].concat()
    }

    #[test]
    fn forward_address_types() {
        for forward_type in 0..8 {
            let width = forward_width(forward_type);
            for length in 0..=90 {
                let expected = match width {
                    _ if length < 12 => 21,
                    _ if length < 40 => 22,
                    None => 21,
                    Some(width) if length < 40 + width => 22,
                    _ => 0,
                };
                let sdu = stored_report(forward_type, length);
                assert_eq!(fault(23, false, &sdu), expected, "{forward_type} {length}");
                let checked = with_fcs(&sdu);
                assert_eq!(fault(23, true, &checked), expected, "with FCS");
                let mut wrong = checked.clone();
                wrong[sdu.len() + length % 32] ^= true;
                assert_eq!(fault(23, true, &wrong), 21, "with a wrong FCS");
                // An FCS that is not all there: only what goes first goes first.
                let cut = fault(23, true, &wrong[..wrong.len() - 1]);
                assert_eq!(cut, expected.max(22 * u8::from(expected == 0)), "cut");
            }
        }
    }

    #[test]
    fn both_faults() {
        // The forward address type is not direct mode's, and bits are missing after it.
        let sdu = stored_report(0b011, 90);
        assert_eq!(fault(23, false, &sdu[..16 + 40]), 21);
        assert_eq!(fault(23, false, &sdu[..16 + 39]), 22);
        // The data ends early by L, and the FCS after it is all there and wrong.
        let sdu = stored_report(0b001, 20);
        assert_eq!(fault(23, true, &with_fcs(&sdu)), 22);
        assert_eq!(fault(23, true, &[&sdu[..], &[false; 32]].concat()), 21);
        assert_eq!(fault(23, true, &[&sdu[..], &[false; 31]].concat()), 22);
    }

    #[test]
    fn short_frames_with_fcs() {
        for length in 12..=15 {
            let sdu = stored_report(0, length);
            assert!(sdu.len() < 32);
            assert_eq!(fault(23, true, &with_fcs(&sdu)), 22);
            // Complementing 32 bits, as if there were so many, gives another FCS.
            assert_eq!(fault(23, true, &[&sdu[..], &register(&sdu)].concat()), 21);
        }
        for example in examples().iter().filter(|example| example.sdu.len() < 32) {
            let checked = [&example.sdu[..], &register(&example.sdu)].concat();
            assert_eq!(fault(example.carrier, true, &checked), 21);
        }
    }

    #[test]
    fn more_bits_than_are_lent() {
        let lent = |carrier, n, bytes| Lent {
            carrier,
            fcs: false,
            n,
            bytes,
        };
        assert_eq!(lent(0, 1, &[]).read(), Err(13));
        assert_eq!(lent(22, 17, &[0xFF, 0xFF]).read(), Err(13));
        assert_eq!(lent(22, u64::from(u32::MAX), &[0xFF, 0xFF]).read(), Err(13));
        assert_eq!(lent(22, 16, &[0xFF, 0xFF]).read(), Err(21));
        assert_eq!(lent(22, 0, &[]).read(), Err(21));
    }

    /// What a build of a message that was put together by hand is asked for.
    fn wanted(example: &Example, fcs: u64, user_data: &[u8]) -> Wanted<'static> {
        Wanted {
            carrier: example.carrier,
            fcs,
            message: example.read.message.clone(),
            n: example.read.bits as u64,
            bytes: user_data.to_vec().leak(),
        }
    }

    #[test]
    fn builds_by_hand() {
        for example in examples() {
            let Read { first, bits, .. } = example.read;
            let user_data = pack(&example.sdu[first..first + bits]);
            for with in [0, 1] {
                let wanted = wanted(&example, with, &user_data);
                let built = wanted.build(1_024).unwrap();
                let told = read(example.carrier, with == 1, &built);
                assert_eq!(told.as_ref(), Ok(&example.read));
                let bytes = built.len().div_ceil(8);
                assert_eq!(wanted.build(bytes).as_ref(), Ok(&built));
                assert_eq!(wanted.build(bytes - 1), Err(1));
            }
            let built = wanted(&example, 0, &user_data).build(1_024).unwrap();
            let mut zeroed = example.sdu.clone();
            match example.read.message.kind {
                // Its reserved bits, and bits of L after its elements, are not written.
                REPORT => zeroed[example.tells + 1..example.tells + 3].fill(false),
                ACK => {
                    zeroed[example.tells..example.tells + 4].fill(false);
                    zeroed.truncate(example.tells + 20);
                    let said = example.tells - 12;
                    zeroed.splice(said - 11..said, spell(32, 11));
                }
                _ => (),
            }
            assert_eq!(built, zeroed);
        }
    }

    #[test]
    fn longest_builds() {
        let bytes = [0xA5; 300];
        let mut stored = message(REPORT, &[(Name::Protocol, 128), (Name::Storage, 1)]);
        stored.set(Name::ForwardType, SSI);
        let plain = message(REPORT, &[(Name::Protocol, 128)]);
        for (message, fixed) in [(plain, 32), (stored, 64)] {
            for (carrier, fcs, most) in [(22, 0, 2_047), (23, 1, 2_047), (24, 0, 269), (24, 1, 237)]
            {
                for (n, expected) in [(most - fixed, Ok(())), (most - fixed + 1, Err(13))] {
                    let wanted = Wanted {
                        carrier,
                        fcs,
                        message: message.clone(),
                        n,
                        bytes: &bytes,
                    };
                    assert_eq!(wanted.build(1_024).map(|_| ()), expected);
                }
            }
        }
        // What one header of a DM-SDS ACK and one block hold: 120 - 96 and 264 bits.
        assert_eq!(4 + 4 + 11 + longest(24, false), 288);
        assert_eq!(4 + 4 + 11 + longest(24, true) + 32, 288);
    }

    /// A transfer with everything that a transfer may have, in a DM-SDS DATA.
    fn full() -> Wanted<'static> {
        let stored = [(Name::Protocol, 128), (Name::Storage, 1)];
        let forward = [(Name::ForwardType, SSI), (Name::ForwardAddress, 7)];
        Wanted {
            carrier: DM_SDS_DATA,
            fcs: 1,
            message: called_by(3, 4, message(TRANSFER, &[stored, forward].concat())),
            n: 16,
            bytes: &[0xFF, 0xFF],
        }
    }

    fn spoilt(change: impl Fn(&mut Wanted)) -> Fault {
        let mut wanted = full();
        change(&mut wanted);
        wanted.build(1_024).err().unwrap_or(0)
    }

    #[test]
    fn refused_builds() {
        assert_eq!(spoilt(|_| ()), 0);
        for carrier in [0, 21, 24, 25, 255] {
            assert_eq!(spoilt(|wanted| wanted.carrier = carrier), 21);
        }
        for kind in [0, 5, 255] {
            assert_eq!(spoilt(|wanted| wanted.message.kind = kind), 21);
        }
        let set = |name, number| spoilt(|wanted| wanted.message.set(name, number));
        assert_eq!(set(Name::Protocol, 127), 21);
        assert_eq!(set(Name::Protocol, 255), 0);
        for forward_type in [0, 3, 4, 5, 6, 8, 255] {
            assert_eq!(set(Name::ForwardType, forward_type), 21);
        }
        assert_eq!(set(Name::ForwardType, NO_ADDRESS), 13, "its address is 7");
        assert_eq!(set(Name::ForwardType, SSI_AND_EXTENSION), 0);
        assert_eq!(set(Name::ForwardAddress, (1 << 24) - 1), 0);
        assert_eq!(set(Name::ForwardAddress, 1 << 24), 13);
        assert_eq!(set(Name::Storage, 0), 13, "it has a forward address");
        assert_eq!(set(Name::Storage, 2), 13);
        for (name, largest) in [
            (Name::Request, 3),
            (Name::ShortForm, 1),
            (Name::Validity, 31),
        ] {
            assert_eq!(set(name, largest), 0);
            assert_eq!(set(name, largest + 1), 13);
        }
        assert_eq!(set(Name::Status, 1), 13);
        assert_eq!(set(Name::AckRequired, 1), 13);
        assert_eq!(spoilt(|wanted| wanted.fcs = 2), 13);
        assert_eq!(spoilt(|wanted| wanted.message.addressed = 2), 13);
        assert_eq!(spoilt(|wanted| wanted.message.addressed = 0), 13);
        assert_eq!(spoilt(|wanted| wanted.message.mni = 1 << 24), 13);
        assert_eq!(spoilt(|wanted| wanted.message.ssi = 1 << 24), 13);
        assert_eq!(spoilt(|wanted| wanted.n = 17), 13);
        let two = |wanted: &mut Wanted| (wanted.carrier, wanted.message.kind) = (24, REPORT);
        assert_eq!(spoilt(two), 13, "a calling party in a DM-SDS ACK");
        assert_eq!(spoilt(|wanted| (wanted.fcs, wanted.carrier) = (2, 0)), 21);
    }

    #[test]
    fn refused_builds_of_acks_and_short_reports() {
        for kind in [ACK, SHORT_REPORT] {
            let protocol = if kind == ACK { 128 } else { 0 };
            let bare = Wanted {
                carrier: DM_SDS_ACK,
                fcs: 0,
                message: message(kind, &[(Name::Protocol, protocol)]),
                n: 0,
                bytes: &[0xFF],
            };
            assert!(bare.build(1_024).is_ok());
            for (name, largest) in [
                (Name::Request, 0),
                (Name::ShortForm, 0),
                (Name::AckRequired, 0),
                (Name::Storage, 0),
                (Name::Status, if kind == ACK { 255 } else { 3 }),
                (Name::Validity, 0),
                (Name::ForwardType, 0),
                (Name::ForwardAddress, 0),
            ] {
                for (number, expected) in [(largest, None), (largest + 1, Some(13))] {
                    let mut wanted = bare.clone();
                    wanted.message.set(name, number);
                    assert_eq!(wanted.build(1_024).err(), expected, "{name:?} {number}");
                }
            }
            let long = Wanted { n: 1, ..bare };
            assert_eq!(long.build(1_024), Err(13), "user data");
        }
        let protocol = Wanted {
            carrier: DM_SDS_ACK,
            fcs: 0,
            message: message(SHORT_REPORT, &[(Name::Protocol, 128)]),
            n: 0,
            bytes: &[],
        };
        assert_eq!(protocol.build(1_024), Err(13));
    }
}
