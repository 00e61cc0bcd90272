//! The blocks: SCH/S and SCH/H (9.1.1), DMAC-FRAG and DMAC-END (9.2.2, 9.2.3), and fill (8.5.5).

use crate::bits::{fits, pack, spell, unpack, value, Taker};
use crate::faults::{refuse, Fault};
use crate::layout::{self, Cut, BLOCK_ROOM, HEADER_ROOM};
use crate::messages;

/// Bits of SCH/S, SCH/H and SCH/F, and the bytes that hold them.
pub const SCH_S_BITS: usize = 60;
pub const SCH_H_BITS: usize = HEADER_ROOM;
pub const SCH_F_BITS: usize = 268;
pub const SCH_S_BYTES: usize = 8;
pub const SCH_H_BYTES: usize = 16;
pub const SCH_F_BYTES: usize = 34;
/// SCH/S with its SCH/H.
pub const HEADER_BYTES: usize = SCH_S_BYTES + SCH_H_BYTES;

/// The width of an address and of the MNI.
pub const ADDRESS: usize = 24;
/// Address types (9.3.5, 9.3.27).
pub const TRUE_ADDRESS: u64 = 0b00;
pub const NO_ADDRESS: u64 = 0b10;
pub const RESERVED_ADDRESS: u64 = 0b11;

/// The fields that a build takes and a read answers.
#[derive(Clone, Debug, Default, PartialEq, Eq)]
pub struct Fields {
    pub system: u64,
    pub ab: u64,
    /// As coded in 9.3.25.
    pub slot: u64,
    pub frame: u64,
    pub countdown: u64,
    pub dest_type: u64,
    pub dest: u64,
    pub source_type: u64,
    pub source: u64,
    pub mni: u64,
    pub message_type: u64,
    pub width: u64,
    pub elements: u64,
}

/// Table 21, every element of it.
#[derive(Clone, Debug, Default)]
pub struct SchS {
    pub system: u64,
    pub sync_type: u64,
    pub communication: u64,
    pub link: u64,
    pub ab: u64,
    pub slot: u64,
    pub frame: u64,
    pub encryption: u64,
    pub reserved: u64,
}

impl SchS {
    fn read(bits: &[bool]) -> SchS {
        let mut taker = Taker::new(bits);
        SchS {
            system: taker.number(4),
            sync_type: taker.number(2),
            communication: taker.number(2),
            link: taker.number(2),
            ab: taker.number(2),
            slot: taker.number(2),
            frame: taker.number(5),
            encryption: taker.number(2),
            reserved: taker.number(39),
        }
    }

    pub fn block(&self) -> Vec<u8> {
        let elements = [
            spell(self.system, 4),
            spell(self.sync_type, 2),
            spell(self.communication, 2),
            spell(self.link, 2),
            spell(self.ab, 2),
            spell(self.slot, 2),
            spell(self.frame, 5),
            spell(self.encryption, 2),
            spell(self.reserved, 39),
        ];
        pack(&elements.concat())
    }
}

/// Table 22, every element of it. `room` is all that comes after the message dependent elements.
#[derive(Clone, Debug, Default)]
pub struct SchH {
    pub reserved: u64,
    pub fill: bool,
    pub fragmented: bool,
    pub count: u64,
    pub countdown: u64,
    pub dest_type: u64,
    pub dest: u64,
    pub source_type: u64,
    pub source: u64,
    pub mni: u64,
    pub message_type: u64,
    pub elements: Vec<bool>,
    pub room: Vec<bool>,
}

impl SchH {
    pub fn block(&self) -> Vec<u8> {
        let count_width = if self.fragmented {
            layout::COUNT_WIDTH
        } else {
            0
        };
        let elements = [
            spell(self.reserved, 10),
            vec![self.fill, self.fragmented],
            spell(self.count, count_width),
            spell(self.countdown, 2),
            spell(self.dest_type, 2),
            spell(self.dest, address_width(self.dest_type)),
            spell(self.source_type, 2),
            spell(self.source, address_width(self.source_type)),
            spell(self.mni, ADDRESS),
            spell(self.message_type, 5),
            self.elements.clone(),
            self.room.clone(),
        ];
        let mut bits = elements.concat();
        bits.resize(SCH_H_BITS, false);
        pack(&bits)
    }
}

/// An address is included if its type is not 10.
fn address_width(address_type: u64) -> usize {
    if address_type == NO_ADDRESS {
        0
    } else {
        ADDRESS
    }
}

/// h: the header's bits without the slot count.
pub fn header_bits(fields: &Fields) -> usize {
    let fixed = 10 + 1 + 1 + 2 + 2 + 2 + ADDRESS + 5;
    let addresses = address_width(fields.dest_type) + address_width(fields.source_type);
    fixed + addresses + fields.width as usize
}

/// An SCH/S with its SCH/H, as read.
#[derive(Clone, Debug)]
pub struct Header {
    pub fields: Fields,
    pub fragmented: bool,
    pub count: u64,
    /// The DM-SDU's first bit, and its number of message bits.
    pub first: usize,
    pub length: usize,
    sch_h: Vec<bool>,
}

impl Header {
    pub fn message(&self) -> &[bool] {
        &self.sch_h[self.first..self.first + self.length]
    }

    /// The SCH/H bits but for the countdown.
    pub fn but_for_countdown(&self) -> Vec<bool> {
        let at = 12
            + if self.fragmented {
                layout::COUNT_WIDTH
            } else {
                0
            };
        [&self.sch_h[..at], &self.sch_h[at + 2..]].concat()
    }
}

/// A DMAC-FRAG or DMAC-END, as read.
#[derive(Clone, Debug)]
pub struct Continuation {
    /// DMAC-END.
    pub last: bool,
    pub first: usize,
    pub length: usize,
    sch_f: Vec<bool>,
}

impl Continuation {
    pub fn message(&self) -> &[bool] {
        &self.sch_f[self.first..self.first + self.length]
    }
}

/// Where a report says that a block was heard: frame, and slot counted from 1.
#[derive(Clone, Copy)]
pub struct Place {
    pub frame: u8,
    pub slot: u8,
}

/// Reads an SCH/S with its SCH/H; in a report also against the report's own frame and slot.
pub fn read_header(sch_s: &[u8], sch_h: &[u8], place: Option<Place>) -> Result<Header, Fault> {
    refuse(1, sch_s.len() != SCH_S_BYTES || sch_h.len() != SCH_H_BYTES)?;
    let (sch_s, sch_h) = (unpack(sch_s), unpack(sch_h));
    refuse(2, padded(&sch_s, SCH_S_BITS) || padded(&sch_h, SCH_H_BITS))?;
    let sync = SchS::read(&sch_s);
    check_sch_s(&sync)?;
    refuse(18, place.is_some_and(|place| !sent_at(&sync, place)))?;
    read_sch_h(&sync, &sch_h[..SCH_H_BITS])
}

/// True if a bit after the block's own bits is set.
fn padded(bits: &[bool], length: usize) -> bool {
    bits[length..].contains(&true)
}

/// Faults 3 to 7.
fn check_sch_s(sync: &SchS) -> Result<(), Fault> {
    refuse(3, !is_direct_mode(sync.system))?;
    refuse(4, sync.sync_type != 0b00)?;
    refuse(5, sync.communication != 0b00)?;
    refuse(6, sync.encryption != 0b00)?;
    refuse(7, !is_frame(sync.frame))
}

/// 9.3.29: 1010 to 1111, the reserved ones among them.
fn is_direct_mode(system: u64) -> bool {
    (0b1010..=0b1111).contains(&system)
}

/// 9.3.11.
fn is_frame(frame: u64) -> bool {
    (1..=18).contains(&frame)
}

fn sent_at(sync: &SchS, place: Place) -> bool {
    sync.frame == place.frame.into() && sync.slot + 1 == place.slot.into()
}

/// Reads the SCH/H element by element. Faults 10, 8, 9, 11.
fn read_sch_h(sync: &SchS, bits: &[bool]) -> Result<Header, Fault> {
    let mut taker = Taker::new(bits);
    let mut fields = Fields {
        system: sync.system,
        ab: sync.ab,
        slot: sync.slot,
        frame: sync.frame,
        ..Fields::default()
    };
    taker.run(10);
    let fill = taker.number(1) == 1;
    let fragmented = taker.number(1) == 1;
    let count = if fragmented {
        taker.number(layout::COUNT_WIDTH)
    } else {
        0
    };
    refuse(10, fragmented && count == 0)?;
    fields.countdown = taker.number(2);
    (fields.dest_type, fields.dest) = take_address(&mut taker)?;
    (fields.source_type, fields.source) = take_address(&mut taker)?;
    fields.mni = taker.number(ADDRESS);
    fields.message_type = taker.number(5);
    let elements = take_elements(&mut taker, fields.message_type)?;
    fields.width = elements.len() as u64;
    fields.elements = value(elements);
    Ok(Header {
        fields,
        fragmented,
        count,
        first: taker.at,
        length: message_length(fill, taker.rest())?,
        sch_h: bits.to_vec(),
    })
}

/// An address type and the address, 0 if it is absent.
fn take_address(taker: &mut Taker) -> Result<(u64, u64), Fault> {
    let address_type = taker.number(2);
    refuse(8, address_type == RESERVED_ADDRESS)?;
    Ok((address_type, taker.number(address_width(address_type))))
}

/// The run of message dependent elements.
fn take_elements<'a>(taker: &mut Taker<'a>, message_type: u64) -> Result<&'a [bool], Fault> {
    let rest = taker.rest();
    let width = messages::width(message_type, rest).ok_or(9)?;
    refuse(9, width > rest.len())?;
    Ok(taker.run(width))
}

/// Fill deletion (8.5.5.2): the number of message bits in the DM-SDU's room.
fn message_length(fill: bool, room: &[bool]) -> Result<usize, Fault> {
    match fill {
        true => room.iter().rposition(|&bit| bit).ok_or(11),
        false => Ok(room.len()),
    }
}

/// Reads an SCH/F. Faults 1, 2, 12, 11.
pub fn read_continuation(sch_f: &[u8]) -> Result<Continuation, Fault> {
    refuse(1, sch_f.len() != SCH_F_BYTES)?;
    let mut bits = unpack(sch_f);
    refuse(2, padded(&bits, SCH_F_BITS))?;
    bits.truncate(SCH_F_BITS);
    let mut taker = Taker::new(&bits);
    refuse(12, taker.number(2) != 0b01)?;
    let last = taker.number(1) == 1;
    let fill = taker.number(1) == 1;
    let length = message_length(fill, taker.rest())?;
    Ok(Continuation {
        last,
        first: taker.at,
        length,
        sch_f: bits,
    })
}

/// Writes a DMAC-FRAG or DMAC-END.
pub fn continuation(last: bool, fill: bool, room: &[bool]) -> Vec<u8> {
    let mut bits = [&[false, true, last, fill], room].concat();
    bits.resize(SCH_F_BITS, false);
    pack(&bits)
}

/// Fill addition (8.5.5.1): the fill indication and the whole room.
fn add_fill(message: &[bool], room: usize) -> (bool, Vec<bool>) {
    let mut bits = message.to_vec();
    let fill = bits.len() < room;
    if fill {
        bits.push(true);
        bits.resize(room, false);
    }
    (fill, bits)
}

/// What a build writes: k, and SCH/S, SCH/H and the k blocks one after another.
#[derive(Debug, PartialEq, Eq)]
pub struct Built {
    pub k: usize,
    pub bytes: Vec<u8>,
}

/// Builds a message of n bits. Faults 3, 7, 13, 8, 9, 14, 1.
pub fn build(fields: &Fields, n: u64, message: &[u8], output: usize) -> Result<Built, Fault> {
    refuse(3, !is_direct_mode(fields.system))?;
    refuse(7, !is_frame(fields.frame))?;
    refuse(13, !in_range(fields) || n > 8 * message.len() as u64)?;
    let types = [fields.dest_type, fields.source_type];
    refuse(8, types.contains(&RESERVED_ADDRESS))?;
    refuse(9, messages::elements(fields.message_type).is_none())?;
    let cut = layout::cut(header_bits(fields), n as usize)?;
    let k = cut.blocks.len();
    refuse(1, output < HEADER_BYTES + SCH_F_BYTES * k)?;
    let bytes = write_blocks(fields, &unpack(message), &cut).concat();
    Ok(Built { k, bytes })
}

/// Fault 13, but for n.
fn in_range(fields: &Fields) -> bool {
    let widths = [
        (fields.ab, 2),
        (fields.slot, 2),
        (fields.countdown, 2),
        (fields.dest_type, 2),
        (fields.dest, ADDRESS),
        (fields.source_type, 2),
        (fields.source, ADDRESS),
        (fields.mni, ADDRESS),
        (fields.message_type, 5),
    ];
    widths.iter().all(|&(number, width)| fits(number, width))
        && absent_is_zero(fields.dest_type, fields.dest)
        && absent_is_zero(fields.source_type, fields.source)
        && elements_in_range(fields)
}

fn absent_is_zero(address_type: u64, address: u64) -> bool {
    address_type != NO_ADDRESS || address == 0
}

/// The stated width is the table's for the run's own case, and the number fits it.
fn elements_in_range(fields: &Fields) -> bool {
    if messages::elements(fields.message_type).is_none() {
        return true;
    }
    let width = fields.width as usize;
    let run = spell(fields.elements, width);
    messages::width(fields.message_type, &run) == Some(width) && fits(fields.elements, width)
}

/// Writes a message that is cut so: the SCH/S with its SCH/H, then each block.
pub fn write_blocks(fields: &Fields, message: &[bool], cut: &Cut) -> Vec<Vec<u8>> {
    let (mut taker, k) = (Taker::new(message), cut.blocks.len());
    let sch_h = sch_h(fields, taker.run(cut.head), k);
    let mut written = vec![[sch_s(fields).block(), sch_h.block()].concat()];
    for (i, &length) in cut.blocks.iter().enumerate() {
        let (fill, room) = add_fill(taker.run(length), BLOCK_ROOM);
        written.push(continuation(i + 1 == k, fill, &room));
    }
    written
}

/// The SCH/S of these fields; fixed and reserved elements are 0.
pub fn sch_s(fields: &Fields) -> SchS {
    SchS {
        system: fields.system,
        ab: fields.ab,
        slot: fields.slot,
        frame: fields.frame,
        ..SchS::default()
    }
}

/// The SCH/H of these fields, with its part of the message and the number of blocks to come.
pub fn sch_h(fields: &Fields, head: &[bool], blocks: usize) -> SchH {
    let fragmented = blocks > 0;
    let count_width = if fragmented { layout::COUNT_WIDTH } else { 0 };
    let (fill, room) = add_fill(head, SCH_H_BITS - header_bits(fields) - count_width);
    SchH {
        reserved: 0,
        fill,
        fragmented,
        count: blocks as u64,
        countdown: fields.countdown,
        dest_type: fields.dest_type,
        dest: fields.dest,
        source_type: fields.source_type,
        source: fields.source,
        mni: fields.mni,
        message_type: fields.message_type,
        elements: spell(fields.elements, fields.width as usize),
        room,
    }
}

#[cfg(test)]
mod tests {
    use super::*;

    /// DM-PREEMPT with timing adjustment and no source address: h = 93.
    fn h_93() -> Fields {
        Fields {
            system: 0b1101,
            ab: 2,
            slot: 2,
            frame: 17,
            countdown: 1,
            dest_type: 0,
            dest: 0xABCDEF,
            source_type: 2,
            source: 0,
            mni: 0x123456,
            message_type: 18,
            width: 22,
            elements: 0b10_1_000000000001_1_0110_01,
        }
    }

    fn built(n: u64) -> Result<Built, Fault> {
        build(&h_93(), n, &[0xFF; 512], 1024)
    }

    fn read(built: &Built) -> Header {
        read_header(&built.bytes[..8], &built.bytes[8..24], None).unwrap()
    }

    #[test]
    fn the_examples_have_h_93() {
        assert_eq!(header_bits(&h_93()), 93);
    }

    #[test]
    fn one_header_without_fill() {
        let built = built(31).unwrap();
        let header = read(&built);
        assert_eq!((built.k, built.bytes.len()), (0, 24));
        assert_eq!((header.first, header.length), (93, 31));
        assert_eq!(built.bytes[9] & 0x20, 0, "fill indication");
    }

    #[test]
    fn one_fill_bit() {
        let built = built(30).unwrap();
        assert_eq!((built.k, read(&built).length), (0, 30));
        assert_eq!(built.bytes[9] & 0x20, 0x20, "fill indication");
        assert_eq!(built.bytes[23], 0xF0, "the fill bit is the block's last");
    }

    #[test]
    fn cut_27_and_5() {
        let built = built(32).unwrap();
        let end = read_continuation(&built.bytes[24..]).unwrap();
        assert_eq!((read(&built).length, built.k), (27, 1));
        assert_eq!((end.last, end.length), (true, 5));
    }

    #[test]
    fn full_blocks_and_too_many() {
        assert_eq!(built(291).unwrap().bytes[24] >> 4, 0b0110);
        assert_eq!(built(292).unwrap().k, 2);
        assert_eq!(built(292).unwrap().bytes[24] >> 4, 0b0100);
        assert_eq!(built(292).unwrap().bytes[58..60], [0b0111_1100, 0]);
        assert_eq!(built(3_987).unwrap().bytes.len(), 24 + 15 * 34);
        assert_eq!(built(3_988), Err(14));
    }

    #[test]
    fn end_carrying_10110() {
        let (fill, room) = add_fill(&[true, false, true, true, false], BLOCK_ROOM);
        let mut expected = vec![0x7B, 0x40];
        expected.resize(34, 0);
        assert_eq!(continuation(true, fill, &room), expected);
        let end = read_continuation(&expected).unwrap();
        assert_eq!(end.message(), [true, false, true, true, false]);
    }

    #[test]
    fn fill_deletion() {
        let room = [true, false, true, true, false, false, false];
        assert_eq!(message_length(true, &room), Ok(3));
        assert_eq!(message_length(false, &room), Ok(7));
        assert_eq!(message_length(true, &[false; 4]), Err(11));
        assert_eq!(message_length(true, &[]), Err(11));
    }

    #[test]
    fn header_bytes_by_hand() {
        // SCH/S: 1101 00 00 00 10 10 10001 00, then 39 zeros and 4 pad bits.
        let built = built(31).unwrap();
        assert_eq!(built.bytes[..8], [0xD0, 0x2A, 0x20, 0, 0, 0, 0, 0]);
        // SCH/H: ten reserved, fill 0, flag 0, 01, 00, ABCDEF, 10, 123456, 10010, elements.
        assert_eq!(built.bytes[8..11], [0x00, 0x04, 0xAB]);
        assert_eq!(built.bytes[11..14], [0xCD, 0xEF, 0x84]);
        assert_eq!(read(&built).fields, h_93());
    }

    #[test]
    fn reserved_bits_are_not_looked_at() {
        let mut bytes = built(20).unwrap().bytes;
        bytes[1] |= 0xC0;
        bytes[7] |= 0x10;
        bytes[8] = 0xFF;
        bytes[9] |= 0xC0;
        let header = read_header(&bytes[..8], &bytes[8..24], None).unwrap();
        assert_eq!(header.fields, h_93());
    }

    fn fault_with(byte: usize, value: u8) -> Option<Fault> {
        let mut bytes = built(32).unwrap().bytes;
        bytes[byte] = value;
        let place = Some(Place { frame: 17, slot: 3 });
        read_header(&bytes[..8], &bytes[8..24], place).err()
    }

    #[test]
    fn header_faults() {
        assert_eq!(fault_with(0, 0xD0), None);
        assert_eq!(fault_with(7, 0x01), Some(2));
        assert_eq!(fault_with(23, 0x08), Some(2));
        assert_eq!(fault_with(0, 0x90), Some(3));
        assert_eq!(fault_with(0, 0xA0), None);
        assert_eq!(fault_with(0, 0xD4), Some(4));
        assert_eq!(fault_with(0, 0xD1), Some(5));
        assert_eq!(fault_with(2, 0x28), Some(6));
        assert_eq!(fault_with(2, 0x60), Some(7));
        assert_eq!(fault_with(2, 0x00), Some(18));
        assert_eq!(fault_with(1, 0x22), Some(18));
        assert_eq!(fault_with(9, 0x10), Some(10));
        assert_eq!(fault_with(10, 0x70), Some(8));
    }

    #[test]
    fn headers_that_are_too_long() {
        let mut fields = Fields {
            message_type: 15,
            width: 33,
            elements: 1 << 25 | 1 << 14,
            ..h_93()
        };
        assert_eq!(build(&fields, 0, &[], 1024).map(|built| built.k), Ok(0));
        fields.source_type = 0;
        assert_eq!(build(&fields, 0, &[], 1024), Err(9));
    }

    #[test]
    fn build_faults_in_their_order() {
        let mut fields = Fields {
            system: 9,
            frame: 0,
            source: 1,
            dest_type: 3,
            message_type: 31,
            ..h_93()
        };
        let mut next = |change: fn(&mut Fields), n, output| {
            change(&mut fields);
            build(&fields, n, &[0; 600], output).err()
        };
        assert_eq!(next(|_| (), 4_800, 0), Some(3));
        assert_eq!(next(|fields| fields.system = 16, 4_800, 0), Some(3));
        assert_eq!(next(|fields| fields.system = 10, 4_800, 0), Some(7));
        assert_eq!(next(|fields| fields.frame = 18, 4_800, 0), Some(13));
        assert_eq!(next(|fields| fields.source = 0, 4_801, 0), Some(13));
        assert_eq!(next(|_| (), 4_800, 0), Some(8));
        assert_eq!(next(|fields| fields.dest_type = 1, 4_800, 0), Some(9));
        assert_eq!(next(|fields| fields.message_type = 18, 4_800, 0), Some(14));
        assert_eq!(next(|_| (), 31, 23), Some(1));
        assert_eq!(next(|_| (), 31, 24), None);
        assert_eq!(next(|_| (), 32, 57), Some(1));
        assert_eq!(next(|_| (), 32, 58), None);
    }

    #[test]
    fn element_widths_of_a_build() {
        let with = |width, elements| {
            let fields = Fields {
                width,
                elements,
                ..h_93()
            };
            build(&fields, 0, &[], 1024).err()
        };
        assert_eq!(with(10, 0), None);
        assert_eq!(with(22, 1 << 19), None);
        assert_eq!(with(22, 0), Some(13));
        assert_eq!(with(10, 1 << 7), Some(13));
        assert_eq!(with(10, 1 << 10), Some(13));
        assert_eq!(with(0, 0), Some(13));
        assert_eq!(with(255, u64::MAX), Some(13));
    }

    #[test]
    fn continuation_faults() {
        let fault = |first, last| {
            let mut block = [0; 34];
            (block[0], block[33]) = (first, last);
            read_continuation(&block).err()
        };
        assert_eq!(read_continuation(&[0x60; 33]).err(), Some(1));
        assert_eq!(fault(0x00, 0x01), Some(2));
        assert_eq!(fault(0x00, 0x00), Some(12));
        assert_eq!(fault(0xC0, 0x00), Some(12));
        assert_eq!(fault(0x70, 0x00), Some(11));
        assert_eq!(fault(0x70, 0x10), None);
        assert_eq!(fault(0x40, 0x00), None);
    }
}
