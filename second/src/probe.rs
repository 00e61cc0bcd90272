//! probe: every call, tried from a file of call records.

use crate::bits::pack;
use crate::blocks::{build, read_continuation, read_header, Fields, HEADER_BYTES, SCH_F_BYTES};
use crate::bookings::Bookings;
use crate::layout::due_frame;
use crate::log::{little, settings, Record, Records, SETTINGS_BYTES};
use crate::receiver::{Receiver, Report};
use crate::transport::{Lent, Message, Name, Wanted, NAMES};

/// The largest body, and the largest lent buffer.
const LARGEST_BODY: usize = 4_096;
const LARGEST_BUFFER: usize = 1_024;
/// What every lent output buffer is filled with.
const BEFORE: u8 = 0x5A;

/// What one call leaves to the next.
#[derive(Default)]
struct Kept {
    receiver: Receiver,
    bookings: Bookings,
}

/// Makes the calls and prints their answers.
pub fn probe(input: &[u8]) -> String {
    let mut kept = Kept::default();
    let mut lines = String::new();
    for record in Records::new(input) {
        let line = match record {
            Record::Whole(kind, body) => call(&mut kept, kind, body),
            Record::Cut => None,
        };
        lines += line.as_deref().unwrap_or("cut");
        lines.push('\n');
        if line.is_none() {
            break;
        }
    }
    lines
}

/// One call's line; `None` for a record that counts as cut.
fn call(kept: &mut Kept, kind: u16, body: &[u8]) -> Option<String> {
    if body.len() > LARGEST_BODY {
        return None;
    }
    let mut body = Body { rest: body };
    match kind {
        0 => set(&mut kept.receiver, body.take(SETTINGS_BYTES)?),
        4 => report(&mut kept.receiver, &mut body),
        5 => build_call(&mut body),
        6 => header(&mut body),
        7 => Some(block(body.rest)),
        8 => frame(&mut body),
        9 => transport(&mut body),
        10 => sdu(&mut body),
        11 => Some(fresh_bookings(&mut kept.bookings)),
        12 => book(&mut kept.bookings, &mut body),
        _ => Some("kind".to_string()),
    }
}

/// Takes a body's parts; `None` if it is too short for them.
struct Body<'a> {
    rest: &'a [u8],
}

impl<'a> Body<'a> {
    fn take(&mut self, length: usize) -> Option<&'a [u8]> {
        let (part, rest) = self.rest.split_at_checked(length)?;
        self.rest = rest;
        Some(part)
    }

    fn number(&mut self, length: usize) -> Option<u64> {
        self.take(length).map(little)
    }

    fn byte(&mut self) -> Option<u8> {
        self.take(1).map(|part| part[0])
    }
}

fn set(receiver: &mut Receiver, body: &[u8]) -> Option<String> {
    let (fresh, fault) = match settings(body) {
        Ok(fresh) => (fresh, 0),
        Err(fault) => (Receiver::default(), fault),
    };
    *receiver = fresh;
    Some(format!("unit {fault}"))
}

fn report(receiver: &mut Receiver, body: &mut Body) -> Option<String> {
    let (frame, slot, kind) = (body.byte()?, body.byte()?, body.byte()?);
    let length = body.number(2)? as usize;
    if length > LARGEST_BUFFER {
        return Some("kind".to_string());
    }
    let mut buffer = vec![BEFORE; length];
    let report = Report {
        frame,
        slot,
        kind,
        blocks: body.rest,
    };
    let answer = receiver.report(&report, &mut buffer);
    let numbers = [
        answer.outcome.into(),
        answer.dropped.into(),
        answer.fault.into(),
        answer.bits as u64,
    ];
    let numbers = [&numbers[..], &message_fields(&answer.header)].concat();
    let output = written(&buffer, answer.bits.div_ceil(8));
    let lost = &answer.lost;
    let lost = decimals(&[lost.source, lost.message_type, lost.bits as u64]);
    Some(format!("report {} {output} {lost}", decimals(&numbers)))
}

fn build_call(body: &mut Body) -> Option<String> {
    let fields = take_fields(body)?;
    let (n, length) = (body.number(4)?, body.number(2)? as usize);
    if length > LARGEST_BUFFER {
        return Some("kind".to_string());
    }
    let mut output = vec![BEFORE; length];
    Some(match build(&fields, n, body.rest, length) {
        Ok(built) => {
            output[..built.bytes.len()].copy_from_slice(&built.bytes);
            let written = written(&output, HEADER_BYTES + SCH_F_BYTES * built.k);
            format!("build 0 {} {written}", built.k)
        }
        Err(fault) => format!("build {fault} 0 {}", written(&output, 0)),
    })
}

fn take_fields(body: &mut Body) -> Option<Fields> {
    Some(Fields {
        system: body.number(1)?,
        ab: body.number(1)?,
        slot: body.number(1)?,
        frame: body.number(1)?,
        countdown: body.number(1)?,
        dest_type: body.number(1)?,
        dest: body.number(4)?,
        source_type: body.number(1)?,
        source: body.number(4)?,
        mni: body.number(4)?,
        message_type: body.number(1)?,
        width: body.number(1)?,
        elements: body.number(8)?,
    })
}

fn header(body: &mut Body) -> Option<String> {
    let (sch_s, sch_h) = (body.byte()?, body.byte()?);
    let sch_s = body.take(sch_s.into())?;
    let sch_h = body.take(sch_h.into())?;
    let numbers = match read_header(sch_s, sch_h, None) {
        Ok(header) => {
            let fields = &header.fields;
            let start = [0, fields.system, fields.ab, fields.slot, fields.frame];
            let cut = [header.fragmented.into(), header.count, fields.countdown];
            let end = [header.first as u64, header.length as u64];
            [&start[..], &cut, &message_fields(fields), &end].concat()
        }
        Err(fault) => refusal(fault, 18),
    };
    Some(format!("header {}", decimals(&numbers)))
}

fn block(body: &[u8]) -> String {
    let numbers = match read_continuation(body) {
        Ok(block) => vec![
            0,
            block.last.into(),
            block.first as u64,
            block.length as u64,
        ],
        Err(fault) => refusal(fault, 4),
    };
    format!("block {}", decimals(&numbers))
}

fn frame(body: &mut Body) -> Option<String> {
    let due = due_frame(body.byte()?, body.byte()?, body.byte()?);
    Some(match due {
        Ok(frame) => format!("frame 0 {frame}"),
        Err(fault) => format!("frame {fault} 0"),
    })
}

/// Message type, elements and n, then the message. Of the elements only the last bit counts.
fn take_lent<'a>(body: &mut Body<'a>) -> Option<Lent<'a>> {
    Some(Lent {
        carrier: body.number(1)?,
        fcs: body.number(8)? & 1 == 1,
        n: body.number(4)?,
        bytes: body.rest,
    })
}

fn transport(body: &mut Body) -> Option<String> {
    let numbers = match take_lent(body)?.read() {
        Ok(read) => {
            let message = &read.message;
            let start = [0, message.kind, message.addressed, message.mni, message.ssi];
            let end = [read.first as u64, read.bits as u64];
            [&start[..], &message.elements, &end].concat()
        }
        Err(fault) => refusal(fault, 17),
    };
    Some(format!("transport {}", decimals(&numbers)))
}

fn sdu(body: &mut Body) -> Option<String> {
    let (carrier, fcs) = (body.number(1)?, body.number(1)?);
    let message = take_message(body)?;
    let (n, length) = (body.number(4)?, body.number(2)? as usize);
    if length > LARGEST_BUFFER {
        return Some("kind".to_string());
    }
    let mut output = vec![BEFORE; length];
    let wanted = Wanted {
        carrier,
        fcs,
        message,
        n,
        bytes: body.rest,
    };
    Some(match wanted.build(length) {
        Ok(bits) => {
            let bytes = pack(&bits);
            output[..bytes.len()].copy_from_slice(&bytes);
            let written = written(&output, bits.len().div_ceil(8));
            format!("sdu 0 {} {written}", bits.len())
        }
        Err(fault) => format!("sdu {fault} 0 {}", written(&output, 0)),
    })
}

fn take_message(body: &mut Body) -> Option<Message> {
    let mut message = Message {
        addressed: body.number(1)?,
        mni: body.number(4)?,
        ssi: body.number(4)?,
        kind: body.number(1)?,
        ..Message::default()
    };
    for (name, length) in NAMES.into_iter().zip([1, 1, 1, 1, 1, 1, 1, 1, 1, 8]) {
        message.set(name, body.number(length)?);
    }
    Some(message)
}

/// What a body has is left alone.
fn fresh_bookings(bookings: &mut Bookings) -> String {
    *bookings = Bookings::default();
    "bookings".to_string()
}

fn book(bookings: &mut Bookings, body: &mut Body) -> Option<String> {
    let source = body.number(4)?;
    let numbers = match bookings.book(source, &take_lent(body)?) {
        Ok((mark, message)) => {
            let reference = message.get(Name::Reference);
            vec![0, mark.into(), message.kind, reference]
        }
        Err(fault) => refusal(fault, 4),
    };
    Some(format!("book {}", decimals(&numbers)))
}

/// Addresses and their types, MNI, message type, width and elements.
fn message_fields(fields: &Fields) -> [u64; 8] {
    [
        fields.dest_type,
        fields.dest,
        fields.source_type,
        fields.source,
        fields.mni,
        fields.message_type,
        fields.width,
        fields.elements,
    ]
}

/// The fault, and 0 for everything else.
fn refusal(fault: u8, numbers: usize) -> Vec<u64> {
    let mut refusal = vec![0; numbers];
    refusal[0] = fault.into();
    refusal
}

fn decimals(numbers: &[u64]) -> String {
    let words: Vec<String> = numbers.iter().map(u64::to_string).collect();
    words.join(" ")
}

/// HEX and REST of a lent buffer whose first bytes were written.
fn written(buffer: &[u8], length: usize) -> String {
    let (start, rest) = buffer.split_at(length);
    let untouched = rest.iter().all(|&byte| byte == BEFORE);
    format!("{} {}", hex(start), u8::from(untouched))
}

fn hex(bytes: &[u8]) -> String {
    match bytes {
        [] => "-".to_string(),
        _ => bytes.iter().map(|byte| format!("{byte:02x}")).collect(),
    }
}

#[cfg(test)]
mod tests {
    use super::*;

    fn record(kind: u8, body: &[u8]) -> Vec<u8> {
        let length = (body.len() as u16 + 2).to_le_bytes();
        [&length[..], &[kind, 0], body].concat()
    }

    fn probed(records: &[Vec<u8>]) -> String {
        probe(&records.concat())
    }

    /// A build of n ones: DM-DISCONNECT to 2 from 1, MNI 3, in frame 5, slot 1 (h = 95).
    fn build_record(n: u32, output: u16) -> Vec<u8> {
        let mut body = vec![
            13, 0, 0, 5, 0, 0, 2, 0, 0, 0, 0, 1, 0, 0, 0, 3, 0, 0, 0, 11, 0,
        ];
        body.extend([0; 8]);
        body.extend(n.to_le_bytes());
        body.extend(output.to_le_bytes());
        body.extend([0xFF; 4]);
        record(5, &body)
    }

    /// What it writes for n = 5, put together by hand.
    const HEADER: [u8; 24] = [
        0xD0, 0x00, 0xA0, 0, 0, 0, 0, 0, 0, 0x20, 0, 0, 2, 0, 0, 0, 0x40, 0, 0, 0xD7, 0xF8, 0, 0, 0,
    ];

    #[test]
    fn builds() {
        let line = format!("build 0 0 {} 1\n", hex(&HEADER));
        assert_eq!(probed(&[build_record(5, 24)]), line);
        assert_eq!(probed(&[build_record(5, 30)]), line);
        assert_eq!(probed(&[build_record(5, 23)]), "build 1 0 - 1\n");
        assert_eq!(probed(&[build_record(33, 0)]), "build 13 0 - 1\n");
        assert_eq!(probed(&[build_record(5, 1_025)]), "kind\n");
        let two = probed(&[build_record(30, 1_024)]);
        let end = format!("7fc0{} 1\n", "00".repeat(32));
        assert!(
            two.starts_with("build 0 1 d000a0000000000000110000002"),
            "{two}"
        );
        assert!(two.ends_with(&end), "{two}");
    }

    #[test]
    fn reads() {
        let header = [&[8, 16], &HEADER[..]].concat();
        let line = "header 0 13 0 0 5 0 0 0 0 2 0 1 3 11 0 0 95 5\n";
        assert_eq!(probed(&[record(6, &header)]), line);
        let refused = format!("header 1{}\n", " 0".repeat(17));
        assert_eq!(probed(&[record(6, &[0, 0])]), refused);
        assert_eq!(probed(&[record(7, &[0x60; 34])]), "block 0 1 4 264\n");
        assert_eq!(probed(&[record(7, &[])]), "block 1 0 0 0\n");
        assert_eq!(probed(&[record(8, &[17, 0, 0])]), "frame 0 1\n");
        assert_eq!(probed(&[record(8, &[0, 9, 99])]), "frame 7 0\n");
    }

    #[test]
    fn reports() {
        let settings = |mni| record(0, &[2, 0, 0, 0, 0, 0, 0, 0, 3, 0, 0, mni]);
        let report = |buffer: u8| record(4, &[&[5, 1, 2, 0, buffer], &HEADER[..]].concat());
        let nothing = format!("report 0 0 0{} - 1 0 0 0\n", " 0".repeat(9));
        assert_eq!(probed(&[report(2)]), nothing, "all settings are 0");
        assert_eq!(
            probed(&[settings(1), report(2)]),
            format!("unit 13\n{nothing}")
        );
        let handed = "report 1 0 0 5 0 2 0 1 3 11 0 0 f8 1 0 0 0\n";
        assert_eq!(
            probed(&[settings(0), report(2)]),
            format!("unit 0\n{handed}")
        );
        let short = format!("report 0 0 17{} - 1 0 0 0\n", " 0".repeat(9));
        assert_eq!(
            probed(&[settings(0), report(1)]),
            format!("unit 0\n{short}")
        );
    }

    /// The header of a DM-SDS DATA to 2, MNI 3, in frame 5, slot 1, with one block to come and a
    /// message that begins with seventeen ones, put together by hand. Its source address is all
    /// ones; or it is absent, and 24 zeros more of the message are there.
    const TO_BE_LOST: [[u8; 24]; 2] = [
        [
            0xD0, 0x00, 0xA0, 0, 0, 0, 0, 0, 0x00, 0x11, 0, 0, 0, 0x23, 0xFF, 0xFF, 0xFC, 0, 0,
            0x0E, 0xE0, 0x1F, 0xFF, 0xF0,
        ],
        [
            0xD0, 0x00, 0xA0, 0, 0, 0, 0, 0, 0x00, 0x11, 0, 0, 0, 0x28, 0x00, 0x00, 0x0E, 0xE0,
            0x1F, 0xFF, 0xF0, 0, 0, 0,
        ],
    ];

    #[test]
    fn lost_ones() {
        let settings = record(0, &[2, 0, 0, 0, 0, 0, 0, 0, 3, 0, 0, 0]);
        let nothing = |frame, slot| record(4, &[frame, slot, 1, 0, 2]);
        let zeros = " 0".repeat(9);
        for (header, told) in TO_BE_LOST.iter().zip(["16777215 23 17", "0 23 41"]) {
            let report = record(4, &[&[5, 1, 2, 0, 2], &header[..]].concat());
            let given = [
                settings.clone(),
                report,
                nothing(5, 3),
                nothing(19, 1),
                nothing(6, 1),
                nothing(6, 3),
            ];
            let lines = format!(
                "unit 0\nreport 3 0 0{zeros} - 1 0 0 0\nreport 0 0 0{zeros} - 1 0 0 0\n\
                 report 0 0 15{zeros} - 1 0 0 0\nreport 0 1 0{zeros} - 1 {told}\n\
                 report 0 0 0{zeros} - 1 0 0 0\n"
            );
            assert_eq!(probed(&given), lines);
        }
    }

    /// A message in a DM-SDS DATA, its elements all ones but for the FCS flag, n bits of it.
    fn lent(n: u32, message: &[u8]) -> Vec<u8> {
        let elements = [0xFE, 0xFF, 0xFF, 0xFF, 0xFF, 0xFF, 0xFF, 0xFF];
        [&[23], &elements[..], &n.to_le_bytes(), message].concat()
    }

    /// 0, 0011, L 34; 10000011, 0000, 10, 1, 1, 11000000; 00011, 111; 10, and six bits more.
    const TRANSFER: [u8; 7] = [0x18, 0x22, 0x83, 0x0B, 0xC0, 0x1F, 0xBF];

    #[test]
    fn transports() {
        let reads = |n| probed(&[record(9, &lent(n, &TRANSFER))]);
        let line = "transport 0 1 0 0 0 131 2 1 0 1 0 192 3 7 0 48 2\n";
        assert_eq!(reads(50), line);
        assert_eq!(reads(56), line);
        for (n, fault) in [(57, 13), (27, 21), (28, 22), (49, 22)] {
            assert_eq!(reads(n), format!("transport {fault}{}\n", " 0".repeat(16)));
        }
        let mut with_fcs = lent(50, &TRANSFER);
        with_fcs[1] = 1;
        let refused = format!("transport 22{}\n", " 0".repeat(16));
        assert_eq!(probed(&[record(9, &with_fcs)]), refused);
    }

    /// A build of that transfer: n bits of user data 10111111 01000000.
    fn sdu_record(n: u8, output: u16) -> Vec<u8> {
        let mut body = vec![23, 0, 0, 0, 0, 0, 0, 0, 0, 0, 0, 1];
        body.extend([131, 2, 1, 0, 1, 0, 192, 3, 7]);
        body.extend([0; 8]);
        body.extend([n, 0, 0, 0]);
        body.extend(output.to_le_bytes());
        body.extend([0xBF, 0x40]);
        record(10, &body)
    }

    #[test]
    fn sdus() {
        assert_eq!(probed(&[sdu_record(2, 7)]), "sdu 0 50 1822830bc01f80 1\n");
        assert_eq!(
            probed(&[sdu_record(16, 1_024)]),
            "sdu 0 64 1830830bc01fbf40 1\n"
        );
        assert_eq!(probed(&[sdu_record(2, 6)]), "sdu 1 0 - 1\n");
        assert_eq!(probed(&[sdu_record(17, 0)]), "sdu 13 0 - 1\n");
        assert_eq!(probed(&[sdu_record(2, 1_025)]), "kind\n");
        let mut other = sdu_record(2, 7);
        other[4] = 25;
        assert_eq!(probed(&[other]), "sdu 21 0 - 1\n");
    }

    #[test]
    fn books() {
        let book = |source: u32, n| {
            let source = source.to_le_bytes();
            record(12, &[&source[..], &lent(n, &TRANSFER)].concat())
        };
        let given = [
            book(7, 50),
            book(7, 50),
            book(8, 50),
            book(7, 49),
            book(1 << 24, 0),
            record(0, &[0; 12]),
            book(7, 50),
            record(11, &[1, 2, 3]),
            book(7, 50),
        ];
        let lines =
            "book 0 1 1 192\nbook 0 2 1 192\nbook 0 1 1 192\nbook 22 0 0 0\nbook 13 0 0 0\n\
                     unit 0\nbook 0 2 1 192\nbookings\nbook 0 1 1 192\n";
        assert_eq!(probed(&given), lines);
    }

    #[test]
    fn words() {
        let frame = record(8, &[17, 0, 0]);
        let with = |record: Vec<u8>| probed(&[record, frame.clone()]);
        assert_eq!(with(record(13, &[])), "kind\nframe 0 1\n");
        assert_eq!(with(record(1, &[5, 1])), "kind\nframe 0 1\n");
        assert_eq!(with(record(4, &[1, 1, 1, 1, 4])), "kind\nframe 0 1\n");
        assert_eq!(with(record(7, &[0; 4_096])), "block 1 0 0 0\nframe 0 1\n");
        assert_eq!(with(record(7, &[0; 4_097])), "cut\n");
        assert_eq!(with(record(8, &[17, 0])), "cut\n");
        assert_eq!(with(record(6, &[8])), "cut\n");
        assert_eq!(with(record(5, &[0; 34])), "cut\n");
        assert_eq!(with(record(4, &[1, 1, 1, 0])), "cut\n");
        assert_eq!(with(record(0, &[0; 11])), "cut\n");
        assert_eq!(with(record(9, &[0; 12])), "cut\n");
        assert_eq!(with(record(9, &[0; 4_097])), "cut\n");
        assert_eq!(with(record(10, &[0; 34])), "cut\n");
        assert_eq!(with(record(11, &[])), "bookings\nframe 0 1\n");
        assert_eq!(with(record(11, &[0; 4_096])), "bookings\nframe 0 1\n");
        assert_eq!(with(record(11, &[0; 4_097])), "cut\n");
        assert_eq!(with(record(12, &[0; 16])), "cut\n");
        assert_eq!(with(record(12, &[0; 17])), "book 21 0 0 0\nframe 0 1\n");
        assert_eq!(with(vec![1, 0, 0]), "cut\n");
    }
}
