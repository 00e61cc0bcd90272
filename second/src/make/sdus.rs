//! Made DM-SDUs with SDS-TL messages, taken apart to be damaged, and the records of their calls.

use super::parts::record;
use super::rng::Rng;
use crate::bits::{pack, spell, unpack};
use crate::fcs::{fcs, FCS_BITS};
use crate::transport::{carried, longest, Message, Name, Part, Wanted, NAMES};
use crate::transport::{ACK, REPORT, SHORT_REPORT, TRANSFER};
use crate::transport::{CALLING_PARTY, FIRST_PROTOCOL, STATUS, USER_DEFINED_4, WITH_DATA};
use crate::transport::{DM_SDS_ACK, DM_SDS_DATA, DM_SDS_UDATA};
use crate::transport::{NO_ADDRESS, SSI, SSI_AND_EXTENSION};

pub const CARRIERS: [u64; 3] = [DM_SDS_UDATA, DM_SDS_DATA, DM_SDS_ACK];
pub const FORWARD_TYPES: [u64; 3] = [SSI, SSI_AND_EXTENSION, NO_ADDRESS];
/// Forward address types that are not direct mode's.
pub const OTHER_FORWARD_TYPES: [u64; 5] = [0, 3, 4, 5, 6];

/// Little-endian numbers of so many bytes each.
fn numbers(numbers: &[(u64, usize)]) -> Vec<u8> {
    let little = |&(number, bytes): &(u64, usize)| number.to_le_bytes()[..bytes].to_vec();
    numbers.iter().flat_map(little).collect()
}

/// The message bits of a read or of a booking, as the record has them.
#[derive(Clone)]
pub struct LentCall {
    pub carrier: u64,
    pub elements: u64,
    pub n: u64,
    pub bytes: Vec<u8>,
}

impl LentCall {
    fn body(&self) -> Vec<u8> {
        let start = [(self.carrier, 1), (self.elements, 8), (self.n, 4)];
        [numbers(&start), self.bytes.clone()].concat()
    }

    pub fn read(&self) -> Vec<u8> {
        record(9, &self.body())
    }

    pub fn book(&self, source: u64) -> Vec<u8> {
        record(12, &[numbers(&[(source, 4)]), self.body()].concat())
    }
}

/// A build of a DM-SDU, as the record has it.
#[derive(Clone)]
pub struct SduCall {
    pub carrier: u64,
    pub fcs: u64,
    pub message: Message,
    pub n: u64,
    pub output: u64,
    pub bytes: Vec<u8>,
}

impl SduCall {
    pub fn record(&self) -> Vec<u8> {
        let message = &self.message;
        let start = [
            (self.carrier, 1),
            (self.fcs, 1),
            (message.addressed, 1),
            (message.mni, 4),
            (message.ssi, 4),
            (message.kind, 1),
        ];
        let width = |name| if name == Name::ForwardAddress { 8 } else { 1 };
        let elements = NAMES.map(|name| (message.get(name), width(name)));
        let end = [(self.n, 4), (self.output, 2)];
        let body = [
            numbers(&start),
            numbers(&elements),
            numbers(&end),
            self.bytes.clone(),
        ];
        record(10, &body.concat())
    }

    /// The output's length that is just enough, if there is one.
    pub fn just_enough(&self) -> Option<u64> {
        let wanted = Wanted {
            carrier: self.carrier,
            fcs: self.fcs,
            message: self.message.clone(),
            n: self.n,
            bytes: &self.bytes,
        };
        let built = wanted.build(usize::MAX).ok()?;
        Some(built.len().div_ceil(8) as u64)
    }
}

/// A DM-SDU, element by element. What they say may be anything; the FCS is the right one for it.
#[derive(Clone)]
pub struct Sdu {
    pub carrier: u64,
    /// The acknowledgement type of a DM-SDS ACK.
    pub acknowledgement: u64,
    /// The additional address type of another, and what comes after it.
    pub addressing: Option<(u64, Vec<bool>)>,
    pub sdti: u64,
    /// The length indicator, where there is one.
    pub length: Option<u64>,
    /// User defined data 4, or the pre-coded status.
    pub data: Vec<bool>,
    /// With an FCS, in which these bits are wrong.
    pub fcs: Option<u64>,
    /// Bits after the last element.
    pub after: Vec<bool>,
    /// Where the forward address type stands in the data.
    pub forward_at: Option<usize>,
}

impl Sdu {
    /// A message as it is sent.
    pub fn of(carrier: u64, with_fcs: bool, message: &Message, user_data: &[bool]) -> Sdu {
        let parts = message.parts().expect("a made message has its parts");
        let data = carried(message, &parts, user_data);
        let short = message.kind == SHORT_REPORT;
        let addresses = [spell(message.mni, 24), spell(message.ssi, 24)].concat();
        Sdu {
            carrier,
            acknowledgement: WITH_DATA,
            addressing: (message.addressed == 1).then_some((CALLING_PARTY, addresses)),
            sdti: if short { STATUS } else { USER_DEFINED_4 },
            length: (!short).then_some(data.len() as u64),
            data,
            fcs: with_fcs.then_some(0),
            after: Vec::new(),
            forward_at: place(&parts, Name::ForwardType),
        }
    }

    /// What stands ahead of the data.
    fn front(&self) -> Vec<bool> {
        let mut bits = match &self.addressing {
            _ if self.carrier == DM_SDS_ACK => spell(self.acknowledgement, 4),
            None => vec![false],
            Some((kind, addresses)) => [&[true], &spell(*kind, 4)[..], addresses].concat(),
        };
        bits.extend(spell(self.sdti, 4));
        bits.extend(self.length.map_or(Vec::new(), |length| spell(length, 11)));
        bits
    }

    /// All that is under the FCS.
    pub fn frame(&self) -> Vec<bool> {
        [self.front(), self.data.clone()].concat()
    }

    pub fn bits(&self) -> Vec<bool> {
        let mut bits = self.frame();
        if let Some(wrong) = self.fcs {
            let right = fcs(&bits);
            let wrong = spell(wrong, FCS_BITS);
            bits.extend(
                right
                    .iter()
                    .zip(wrong)
                    .map(|(&right, wrong)| right != wrong),
            );
        }
        bits.extend(&self.after);
        bits
    }

    /// All of it, lent in just enough bytes.
    pub fn call(&self) -> LentCall {
        let bits = self.bits();
        LentCall {
            carrier: self.carrier,
            elements: self.fcs.is_some().into(),
            n: bits.len() as u64,
            bytes: pack(&bits),
        }
    }

    /// Cuts user defined data 4 to so many bits, or makes it so long; the length indicator says so.
    pub fn resize(&mut self, length: usize) {
        self.length = Some(length as u64);
        self.data.resize(length, true);
    }

    /// Writes a number over some bits of the data, as far as there are any.
    pub fn write(&mut self, at: usize, number: u64, width: usize) {
        let bits = spell(number, width);
        let there = self.data.iter_mut().skip(at);
        there.zip(bits).for_each(|(old, new)| *old = new);
    }
}

/// Where an element starts, counted from the first part.
fn place(parts: &[Part], name: Name) -> Option<usize> {
    let is = |part: &Part| matches!(part, Part::Element(other, _) if *other == name);
    let before = parts.iter().take_while(|part| !is(part));
    parts
        .iter()
        .any(is)
        .then(|| before.map(|part| part.width()).sum())
}

/// A number of so many bits, now and then the first or the last.
fn draw_number(rng: &mut Rng, width: u64) -> u64 {
    match rng.below(8) {
        0 => 0,
        1 => (1 << width) - 1,
        _ => rng.number(width),
    }
}

/// A carrier, and a message for it.
pub fn draw_message(rng: &mut Rng) -> (u64, Message) {
    let carrier = rng.pick(&CARRIERS);
    let kind = match carrier {
        DM_SDS_ACK => rng.pick(&[REPORT, REPORT, ACK, SHORT_REPORT]),
        _ => rng.pick(&[
            TRANSFER,
            TRANSFER,
            TRANSFER,
            REPORT,
            REPORT,
            ACK,
            SHORT_REPORT,
        ]),
    };
    (carrier, message_of(rng, carrier, kind))
}

/// A message of this kind for this carrier, the rest drawn.
pub fn message_of(rng: &mut Rng, carrier: u64, kind: u64) -> Message {
    let stored = rng.chance(50).then(|| rng.pick(&FORWARD_TYPES));
    let addressed = carrier != DM_SDS_ACK && rng.chance(35);
    message_with(rng, kind, addressed, stored)
}

/// A message of this kind, with or without a calling party, and with a forward address type if it
/// can be stored and one is given; the rest drawn.
pub fn message_with(rng: &mut Rng, kind: u64, addressed: bool, stored: Option<u64>) -> Message {
    let mut message = Message {
        kind,
        ..Message::default()
    };
    if addressed {
        message.addressed = 1;
        message.mni = draw_number(rng, 24);
        message.ssi = draw_number(rng, 24);
    }
    if let Some(forward_type) = stored.filter(|_| message.has_user_data()) {
        message.set(Name::Storage, 1);
        message.set(Name::ForwardType, forward_type);
    }
    for part in message.parts().expect("the forward address type is one") {
        if let Part::Element(name, width) = part {
            match name {
                Name::Storage | Name::ForwardType => (),
                Name::Protocol => message.set(name, FIRST_PROTOCOL + draw_number(rng, 7)),
                _ => message.set(name, draw_number(rng, width as u64)),
            }
        }
    }
    message
}

/// The bits of a message's parts, all of them ahead of its user data.
pub fn fixed(message: &Message) -> u64 {
    let parts = message.parts().unwrap_or_default();
    parts.iter().map(|part| part.width() as u64).sum()
}

/// A number of user data bits: mostly few, now and then as many as there may be, or one less.
pub fn draw_length(rng: &mut Rng, carrier: u64, with_fcs: bool, message: &Message) -> u64 {
    let most = longest(carrier, with_fcs) - fixed(message);
    match rng.below(16) {
        _ if !message.has_user_data() => 0,
        0 => 0,
        1 => most,
        2 => most - 1,
        3 => rng.below(most + 1),
        4..=6 => 8 * rng.below(6),
        _ => rng.below(50),
    }
}

/// A DM-SDU as it is sent.
pub fn draw_sdu(rng: &mut Rng) -> Sdu {
    let (carrier, message) = draw_message(rng);
    sdu_of(rng, carrier, &message)
}

/// A DM-SDU with this message, with or without FCS, and some user data.
pub fn sdu_of(rng: &mut Rng, carrier: u64, message: &Message) -> Sdu {
    let with_fcs = rng.chance(50);
    let length = draw_length(rng, carrier, with_fcs, message) as usize;
    let user_data = rng.bits(length);
    Sdu::of(carrier, with_fcs, message, &user_data)
}

/// So many bits lent in more bytes than they need; the bits beyond them are drawn.
pub fn lend(rng: &mut Rng, bits: &[bool], spare: usize) -> Vec<u8> {
    let mut bytes = rng.bytes(bits.len().div_ceil(8) + spare);
    let mut lent = unpack(&bytes);
    lent[..bits.len()].copy_from_slice(bits);
    bytes.copy_from_slice(&pack(&lent));
    bytes
}

#[cfg(test)]
mod tests {
    use super::*;
    use crate::transport::Lent;

    #[test]
    fn what_is_made_is_what_is_built() {
        let mut rng = Rng::new(0, 12);
        for _ in 0..500 {
            let (carrier, message) = draw_message(&mut rng);
            let with_fcs = rng.chance(50);
            let n = draw_length(&mut rng, carrier, with_fcs, &message);
            let bytes = rng.bytes(n.div_ceil(8) as usize);
            let user_data = unpack(&bytes)[..n as usize].to_vec();
            let made = Sdu::of(carrier, with_fcs, &message, &user_data).bits();
            let wanted = Wanted {
                carrier,
                fcs: with_fcs.into(),
                message: message.clone(),
                n,
                bytes: &bytes,
            };
            assert_eq!(wanted.build(1_024).as_ref(), Ok(&made));
            let lent = Lent {
                carrier,
                fcs: with_fcs,
                n: made.len() as u64,
                bytes: &pack(&made),
            };
            let read = lent.read().unwrap();
            assert_eq!(read.message, message);
            assert_eq!(made[read.first..read.first + read.bits], user_data);
        }
    }
}
