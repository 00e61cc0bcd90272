//! What the made inputs are put together from: records, units, fields, headers and damage.

use super::rng::Rng;
use crate::bits::value;
use crate::blocks::{header_bits, read_header, sch_h, sch_s, write_blocks, Fields, SchH, SchS};
use crate::blocks::{HEADER_BYTES, NO_ADDRESS, RESERVED_ADDRESS, SCH_F_BYTES, SCH_S_BYTES};
use crate::layout::{self, Cut, BLOCK_ROOM, HEADER_ROOM};
use crate::messages;
use crate::transport::{DM_SDS_ACK, DM_SDS_DATA};

/// The header's checks, in their order, but for fault 1.
pub const HEADER_FAULTS: [u8; 11] = [2, 3, 4, 5, 6, 7, 18, 10, 8, 9, 11];
/// The message types with an entry, and those without.
pub const LISTED: [u64; 21] = [
    0, 1, 2, 3, 8, 9, 10, 11, 12, 13, 14, 15, 16, 17, 18, 19, 20, 21, 22, 23, 24,
];
pub const UNLISTED: [u64; 11] = [4, 5, 6, 7, 25, 26, 27, 28, 29, 30, 31];
/// DM-RESERVED and DM-TX CEASED have headers that can be too long.
pub const DM_RESERVED: u64 = 0;
pub const DM_TX_CEASED: u64 = 15;

/// A record: length of what follows, kind, body.
pub fn record(kind: u16, body: &[u8]) -> Vec<u8> {
    let length = body.len() as u16 + 2;
    [&length.to_le_bytes()[..], &kind.to_le_bytes(), body].concat()
}

/// The receiver's settings.
#[derive(Clone)]
pub struct Unit {
    pub individual: u64,
    pub group: u64,
    pub mni: u64,
}

impl Unit {
    pub fn draw(rng: &mut Rng) -> Unit {
        let individual = draw_address(rng);
        let other = draw_address(rng);
        Unit {
            individual,
            group: if rng.chance(15) { individual } else { other },
            mni: draw_address(rng),
        }
    }

    pub fn record(&self) -> Vec<u8> {
        let numbers = [self.individual, self.group, self.mni];
        let body: Vec<u8> = numbers
            .iter()
            .flat_map(|&number| (number as u32).to_le_bytes())
            .collect();
        record(0, &body)
    }
}

/// An address or an MNI, now and then at the end of its range.
fn draw_address(rng: &mut Rng) -> u64 {
    match rng.below(12) {
        0 => 0,
        1 => (1 << 24) - 1,
        _ => rng.number(24),
    }
}

/// Which flags of a message are set: one bit of `case` for each flag, in their order.
pub fn elements(rng: &mut Rng, message_type: u64, case: u64) -> Vec<bool> {
    let elements = messages::elements(message_type).unwrap_or(&[]);
    let mut set: Vec<&str> = Vec::new();
    let mut run = Vec::new();
    let mut flags = 0;
    for element in elements {
        if element.only_if.is_some_and(|flag| !set.contains(&flag)) {
            continue;
        }
        if messages::is_flag(elements, element) {
            run.push(case >> flags & 1 == 1);
            set.extend(run.last().filter(|&&bit| bit).map(|_| element.name));
            flags += 1;
        } else {
            run.extend(rng.bits(element.width));
        }
    }
    run
}

/// How many cases of a message's flags there are.
pub fn cases(message_type: u64) -> u64 {
    let elements = messages::elements(message_type).unwrap_or(&[]);
    let flags = elements
        .iter()
        .filter(|element| messages::is_flag(elements, element));
    1 << flags.count()
}

/// Fields of one message type and case, the rest drawn.
pub fn fields_of(rng: &mut Rng, message_type: u64, case: u64) -> Fields {
    let run = elements(rng, message_type, case);
    let source_type = rng.pick(&[0, 0, 0, 1, 2]);
    Fields {
        system: rng.between(10, 15),
        ab: rng.below(4),
        slot: rng.pick(&[0, 2]),
        frame: rng.between(1, 18),
        countdown: rng.below(4),
        dest_type: 0,
        dest: rng.number(24),
        source_type,
        source: if source_type == NO_ADDRESS {
            0
        } else {
            rng.number(24)
        },
        mni: rng.number(24),
        message_type,
        width: run.len() as u64,
        elements: value(&run),
    }
}

/// Fields of any message.
pub fn draw_fields(rng: &mut Rng) -> Fields {
    let message_type = rng.pick(&LISTED);
    let case = rng.below(cases(message_type));
    fields_of(rng, message_type, case)
}

/// Gives the fields other address types; an absent address is 0.
pub fn set_types(rng: &mut Rng, fields: &mut Fields, dest_type: u64, source_type: u64) {
    fields.dest_type = dest_type;
    fields.source_type = source_type;
    fields.dest = if dest_type == NO_ADDRESS {
        0
    } else {
        rng.number(24)
    };
    fields.source = if source_type == NO_ADDRESS {
        0
    } else {
        rng.number(24)
    };
}

/// Numbers of bits around every cut of a header of h bits.
pub fn lengths(h: usize) -> Vec<usize> {
    let (room, head) = (
        HEADER_ROOM as i64 - h as i64,
        HEADER_ROOM as i64 - 4 - h as i64,
    );
    let mut lengths: Vec<i64> = vec![0, 1];
    lengths.extend(room - 5..=room + 6);
    for k in [1, 2, 3, 7, 14, 15] {
        let edge = head + k * BLOCK_ROOM as i64;
        lengths.extend(edge - 1..=edge + 1);
    }
    lengths
        .into_iter()
        .filter_map(|n| usize::try_from(n).ok())
        .collect()
}

/// A message to be sent: its fields, but for frame, slot and countdown, its bits, and where they
/// are cut.
#[derive(Clone)]
pub struct Message {
    pub fields: Fields,
    pub bits: Vec<bool>,
    pub cut: Cut,
}

impl Message {
    /// A message of one header or of several blocks.
    pub fn draw(rng: &mut Rng, fragmented: bool) -> Message {
        loop {
            let fields = match fragmented {
                true => draw_long_fields(rng),
                false => draw_fields(rng),
            };
            if head_room(&fields).is_some() {
                let count = if fragmented { draw_count(rng) } else { 0 };
                return Message::of(rng, fields, count);
            }
        }
    }

    /// A message of so many blocks, or of one header where that is 0. The header has to have room
    /// for a slot count.
    pub fn of(rng: &mut Rng, fields: Fields, count: usize) -> Message {
        let room = head_room(&fields).expect("there is room for a slot count");
        let cut = match count {
            0 => Cut {
                head: rng.index(room + layout::COUNT_WIDTH + 1),
                blocks: Vec::new(),
            },
            _ => draw_cut(rng, room, count),
        };
        let bits = rng.bits(cut.bits());
        Message { fields, bits, cut }
    }

    /// The blocks for one frame, slot and countdown: the header, then the others.
    pub fn blocks(&self, frame: u8, slot: u8, countdown: u8) -> Vec<Vec<u8>> {
        let fields = Fields {
            frame: frame.into(),
            slot: u64::from(slot) - 1,
            countdown: countdown.into(),
            ..self.fields.clone()
        };
        write_blocks(&fields, &self.bits, &self.cut)
    }
}

/// The message bits that a fragmented header has room for, if it is not too long.
fn head_room(fields: &Fields) -> Option<usize> {
    HEADER_ROOM.checked_sub(header_bits(fields) + layout::COUNT_WIDTH)
}

/// Fields of a message of several blocks: half of them are a DM-SDS DATA or a DM-SDS ACK, which are
/// told of when they are lost. Now and then the source is at an end of its range.
fn draw_long_fields(rng: &mut Rng) -> Fields {
    let mut fields = match rng.below(4) {
        0 => fields_of(rng, DM_SDS_DATA, 0),
        1 => fields_of(rng, DM_SDS_ACK, 0),
        _ => draw_fields(rng),
    };
    if fields.source_type != NO_ADDRESS {
        fields.source = draw_address(rng);
    }
    fields
}

/// A number of blocks, mostly few of them.
fn draw_count(rng: &mut Rng) -> usize {
    match rng.below(10) {
        0..=3 => 1,
        4..=6 => 2,
        7 => 3,
        8 => rng.index(5) + 4,
        _ => rng.index(7) + 9,
    }
}

/// Where a message of so many blocks is cut: mostly as it is laid out, its end now and then at a
/// block's edge; otherwise anywhere.
fn draw_cut(rng: &mut Rng, room: usize, count: usize) -> Cut {
    if rng.chance(25) {
        return Cut {
            head: draw_part(rng, room),
            blocks: (0..count).map(|_| draw_part(rng, BLOCK_ROOM)).collect(),
        };
    }
    let last = match rng.below(4) {
        0 => BLOCK_ROOM,
        1 => BLOCK_ROOM - 1,
        _ => rng.index(BLOCK_ROOM) + 1,
    };
    // With four bits beyond the room a message needs no block.
    let last = last.max(layout::COUNT_WIDTH + 1);
    Cut {
        head: room,
        blocks: [vec![BLOCK_ROOM; count - 1], vec![last]].concat(),
    }
}

/// So much of a room, often none of it, all, or a bit from there.
fn draw_part(rng: &mut Rng, room: usize) -> usize {
    let any = rng.index(room + 1);
    let part = rng.pick(&[0, 0, 1, room.saturating_sub(1), room, any, any, any]);
    part.min(room)
}

/// A header taken apart, to be damaged.
#[derive(Clone)]
pub struct Raw {
    pub sch_s: SchS,
    pub sch_h: SchH,
    pub pads: [u8; 2],
}

impl Raw {
    /// Takes a header apart. Its reserved bits and SCH/S oddities are lost.
    pub fn of(bytes: &[u8]) -> Option<Raw> {
        let (sync, rest) = bytes.split_at_checked(SCH_S_BYTES)?;
        let header = read_header(sync, rest, None).ok()?;
        Some(Raw {
            sch_s: sch_s(&header.fields),
            sch_h: sch_h(&header.fields, header.message(), header.count as usize),
            pads: [0, 0],
        })
    }

    pub fn bytes(&self) -> Vec<u8> {
        let mut bytes = [self.sch_s.block(), self.sch_h.block()].concat();
        bytes[SCH_S_BYTES - 1] |= self.pads[0];
        bytes[HEADER_BYTES - 1] |= self.pads[1];
        bytes
    }

    /// Makes the header one that is refused with this fault, if nothing else is wrong with it.
    pub fn damage(&mut self, rng: &mut Rng, fault: u8) {
        let (sync, header) = (&mut self.sch_s, &mut self.sch_h);
        match fault {
            2 => self.pads[rng.index(2)] = 1 << rng.below(4),
            3 => sync.system = rng.below(10),
            4 => sync.sync_type = rng.between(1, 3),
            5 => sync.communication = rng.between(1, 3),
            6 => sync.encryption = rng.between(1, 3),
            7 => sync.frame = rng.pick(&[0, 19, 20, 31]),
            18 => misplace(rng, sync),
            10 => (header.fragmented, header.count) = (true, 0),
            8 if rng.chance(50) => header.dest_type = RESERVED_ADDRESS,
            8 => header.source_type = RESERVED_ADDRESS,
            9 => no_entry_or_too_long(rng, header),
            _ => {
                header.fill = true;
                header.room.fill(false);
            }
        }
    }

    /// Changes that are no faults: reserved bits, the A/B usage, the system code.
    pub fn touch(&mut self, rng: &mut Rng) {
        match rng.below(5) {
            0 => self.sch_s.link = rng.between(1, 3),
            1 => self.sch_s.reserved = 1 << rng.below(39),
            2 => self.sch_s.ab = rng.below(4),
            3 => self.sch_s.system = rng.between(10, 15),
            _ => self.sch_h.reserved = 1 << rng.below(10),
        }
    }
}

/// Another frame or another slot, but one that there is.
fn misplace(rng: &mut Rng, sync: &mut SchS) {
    if rng.chance(50) {
        sync.slot = (sync.slot + rng.between(1, 3)) % 4;
    } else {
        sync.frame = (sync.frame + rng.between(0, 16)) % 18 + 1;
    }
}

/// Fault 9: a message type without entry, or elements that need more than 124 bits.
fn no_entry_or_too_long(rng: &mut Rng, header: &mut SchH) {
    if rng.chance(50) {
        header.message_type = rng.pick(&UNLISTED);
        return;
    }
    for address_type in [&mut header.dest_type, &mut header.source_type] {
        if *address_type == NO_ADDRESS {
            *address_type = 1;
        }
    }
    let reserved = header.fragmented && rng.chance(50);
    header.message_type = if reserved { DM_RESERVED } else { DM_TX_CEASED };
    header.elements = elements(rng, header.message_type, 0b11);
}

/// A continuation block by hand: any kind, with or without fill, any number of message bits.
pub fn draw_continuation(rng: &mut Rng, last: bool) -> Vec<u8> {
    let mut room = rng.bits(BLOCK_ROOM);
    let fill = rng.chance(60);
    if fill {
        let n = match rng.below(4) {
            0 => 0,
            1 => BLOCK_ROOM - 1,
            _ => rng.index(BLOCK_ROOM),
        };
        room[n] = true;
        room[n + 1..].fill(false);
    }
    crate::blocks::continuation(last, fill, &room)
}

/// Makes a continuation block one that is refused with 2, 12 or 11.
pub fn damage_continuation(rng: &mut Rng, block: &mut [u8], fault: u8) {
    match fault {
        2 => block[SCH_F_BYTES - 1] |= 1 << rng.below(4),
        12 => block[0] = block[0] & 0x3F | rng.pick(&[0x00, 0x80, 0xC0]),
        _ => {
            block[0] = block[0] & 0xE0 | 0x10;
            block[1..].fill(0);
        }
    }
}

#[cfg(test)]
mod tests {
    use super::*;

    /// Each part within its room; most messages as they are laid out, the others in every sort.
    #[test]
    fn every_sort_of_cut_comes() {
        let mut rng = Rng::new(0, 15);
        let mut counts = [0; 8];
        for _ in 0..1_000 {
            let Message { fields, cut, .. } = Message::draw(&mut rng, true);
            let (room, count) = (head_room(&fields).unwrap(), cut.blocks.len());
            assert!(cut.head <= room && cut.blocks.iter().all(|&part| part <= BLOCK_ROOM));
            assert!((1..=15).contains(&count));
            let laid_out = layout::cut(header_bits(&fields), cut.bits()).unwrap();
            let sorts = [
                cut == laid_out,
                cut.head == 0 && room > 0,
                0 < cut.head && cut.head < room,
                cut.blocks[0] == 0,
                count > 2 && cut.blocks[1..count - 1].contains(&0),
                cut.blocks[count - 1] == 0,
                cut.head == room && cut.blocks.iter().all(|&part| part == BLOCK_ROOM),
                count == 15 && laid_out.blocks.len() < 15,
            ];
            let numbers = sorts.map(usize::from);
            counts
                .iter_mut()
                .zip(numbers)
                .for_each(|(sum, one)| *sum += one);
        }
        assert!((700..850).contains(&counts[0]), "{counts:?}");
        assert!(counts.iter().all(|&count| count > 2), "{counts:?}");
    }
}
