//! Random slot logs: messages in their slots with their repeats, one by one and several in turn, then mutated.

use super::drops::drop_it;
use super::parts::{damage_continuation, draw_continuation, record};
use super::parts::{Message, Raw, Unit, HEADER_FAULTS};
use super::records;
use super::rng::Rng;
use crate::blocks::{ADDRESS, NO_ADDRESS};
use crate::layout::{due_frame, next_frame};

/// A report to be written. `due`: a continuation block was sent here.
#[derive(Clone)]
pub struct Slot {
    pub frame: u8,
    pub slot: u8,
    pub kind: u8,
    pub blocks: Vec<u8>,
    pub due: bool,
}

impl Slot {
    pub fn nothing((frame, slot): (u8, u8)) -> Slot {
        Slot {
            frame,
            slot,
            kind: 1,
            blocks: Vec::new(),
            due: false,
        }
    }

    pub fn put(&mut self, kind: u8, blocks: Vec<u8>) {
        self.kind = kind;
        self.blocks = blocks;
    }

    fn place(&self) -> (u8, u8) {
        (self.frame, self.slot)
    }

    /// True if a report of this slot is not refused for its frame or slot.
    fn is_told(&self) -> bool {
        (1..=18).contains(&self.frame) && (self.slot == 1 || self.slot == 3)
    }

    /// A record's body: frame, slot and the blocks.
    pub fn body(&self) -> Vec<u8> {
        [&[self.frame, self.slot], &self.blocks[..]].concat()
    }

    pub fn record(&self) -> Vec<u8> {
        record(self.kind.into(), &self.body())
    }
}

/// The slot that comes after a slot.
pub fn after((frame, slot): (u8, u8)) -> (u8, u8) {
    match slot {
        1 => (frame, 3),
        _ => (next_frame(frame), 1),
    }
}

/// A whole slot log: some 50 to 400 reports, with records between them that are none.
pub fn log(seed: u64) -> Vec<u8> {
    let mut rng = Rng::new(seed, 1);
    let unit = Unit::draw(&mut rng);
    let target = rng.index(320) + 50;
    let mut slots = episodes(&mut rng, &unit, target);
    slots.truncate(400);
    let odd_ones = rng.index(5);
    let mut records = with_odd_ones(&mut rng, &unit, &slots, odd_ones);
    let near = &slots[rng.index(slots.len())];
    if rng.chance(20) {
        let at = records.len() - rng.index(records.len() / 10 + 1);
        records.insert(at, records::cut(&mut rng, near));
    }
    let first = if rng.chance(8) {
        records::no_unit(&mut rng, &unit, near)
    } else {
        unit.record()
    };
    let mut log = [first, records.concat()].concat();
    match rng.below(40) {
        0 => log.clear(),
        1 => log.push(rng.below(256) as u8),
        2..=5 => log.truncate(rng.index(log.len())),
        _ => (),
    }
    log
}

/// A long slot log: some 20,000 reports, and no record that stops the printer.
pub fn long_log(seed: u64) -> Vec<u8> {
    let mut rng = Rng::new(seed, 8);
    let unit = Unit::draw(&mut rng);
    let slots = episodes(&mut rng, &unit, 20_000);
    let records = with_odd_ones(&mut rng, &unit, &slots, 200);
    [unit.record(), records.concat()].concat()
}

/// The slots' records, and so many between them that print `kind`.
fn with_odd_ones(rng: &mut Rng, unit: &Unit, slots: &[Slot], count: usize) -> Vec<Vec<u8>> {
    let mut records: Vec<Vec<u8>> = slots.iter().map(Slot::record).collect();
    for _ in 0..count {
        let at = rng.index(slots.len());
        records.insert(at, records::odd(rng, unit, &slots[at]));
    }
    records
}

/// Reports of so many slots, and on to the end of the last run.
pub fn episodes(rng: &mut Rng, unit: &Unit, target: usize) -> Vec<Slot> {
    let mut slots: Vec<Slot> = Vec::new();
    let mut place = draw_place(rng);
    while slots.len() < target {
        if rng.chance(15) {
            place = draw_place(rng);
        }
        place = idle(rng, &mut slots, place);
        let mut run = draw_run(rng, unit, place.0);
        for _ in 0..rng.pick(&[0, 0, 1, 1, 2, 2, 3, 4]) {
            mutate(rng, unit, &mut run);
        }
        slots.extend(run);
        place = after(last_place(&slots).unwrap_or(place));
    }
    slots
}

/// The last slot told of; a refused report has not happened.
fn last_place(slots: &[Slot]) -> Option<(u8, u8)> {
    slots
        .iter()
        .rev()
        .find(|slot| slot.is_told())
        .map(Slot::place)
}

/// A slot to begin with, often near frame 18.
fn draw_place(rng: &mut Rng) -> (u8, u8) {
    let frame = match rng.below(2) {
        0 => rng.between(14, 18),
        _ => rng.between(1, 18),
    };
    (frame as u8, rng.pick(&[1, 3]))
}

/// Some slots of nothing, up to a slot 1.
fn idle(rng: &mut Rng, slots: &mut Vec<Slot>, mut place: (u8, u8)) -> (u8, u8) {
    let mut count = if rng.chance(5) {
        rng.below(40)
    } else {
        rng.below(4)
    };
    while count > 0 || place.1 == 3 {
        slots.push(Slot::nothing(place));
        place = after(place);
        count = count.saturating_sub(1);
    }
    place
}

/// One message in its slots, or several in turn.
fn draw_run(rng: &mut Rng, unit: &Unit, x: u8) -> Vec<Slot> {
    let f = rng.below(4) as u8;
    match rng.below(32) {
        0 => longest(rng, unit, x),
        1..=9 => send(&for_this_unit(rng, unit, true), x, f),
        10..=14 => send(&for_this_unit(rng, unit, false), x, f),
        15 => send(&for_another(rng, unit, true), x, f),
        16 => send(&for_another(rng, unit, false), x, f),
        17 => send_twice(&for_this_unit(rng, unit, true), x, f),
        18..=22 => in_turn(rng, unit, x),
        23 | 24 => crowd(rng, unit, x),
        _ => dropped(rng, unit, x, f),
    }
}

/// A message of several blocks whose assembly is dropped.
fn dropped(rng: &mut Rng, unit: &Unit, x: u8, f: u8) -> Vec<Slot> {
    let mut run = send(&for_this_unit(rng, unit, true), x, f);
    drop_it(rng, unit, &mut run);
    run
}

/// Two or three senders, slot by slot, each with a countdown of its own. Where more than one is
/// on the air one is heard: each in its turn, or any.
fn in_turn(rng: &mut Rng, unit: &Unit, x: u8) -> Vec<Slot> {
    let mut messages: Vec<Message> = Vec::new();
    let mut runs = Vec::new();
    for _ in 0..rng.pick(&[2, 3]) {
        let message = draw_sender(rng, unit, &messages);
        runs.push(send_in_some_slots(rng, &message, x));
        messages.push(message);
    }
    let (each_in_turn, mut last) = (rng.chance(50), 0);
    merge(&runs, |on_air| {
        let next = on_air.iter().find(|&&run| run > last);
        let next = *next.unwrap_or(&on_air[0]);
        last = if each_in_turn { next } else { rng.pick(on_air) };
        last
    })
}

/// What a further sender sends: mostly a message of its own, now and then that of one before it,
/// the same begun anew or with another source, destination or message bit.
fn draw_sender(rng: &mut Rng, unit: &Unit, before: &[Message]) -> Message {
    if before.is_empty() || rng.chance(70) {
        let (ours, fragmented) = (rng.chance(85), rng.chance(25));
        return draw_message(rng, unit, ours, fragmented);
    }
    let mut message = before[rng.index(before.len())].clone();
    let fields = &mut message.fields;
    match rng.below(4) {
        0 if fields.source_type != NO_ADDRESS => fields.source ^= 1,
        1 if fields.dest_type != NO_ADDRESS => fields.dest ^= unit.individual ^ unit.group,
        2 if !message.bits.is_empty() => {
            let at = rng.index(message.bits.len());
            message.bits[at] ^= true;
        }
        _ => (),
    }
    message
}

/// A message from up to two frames after X on, its headers in slot 1, in slot 3 or in both.
fn send_in_some_slots(rng: &mut Rng, message: &Message, x: u8) -> Vec<Slot> {
    let mut slots = Vec::new();
    let mut place = (x, 1);
    for _ in 0..2 * rng.pick(&[0, 0, 0, 1, 2]) {
        place = push(&mut slots, place, 1, Vec::new());
    }
    slots.extend(send(message, place.0, rng.pick(&[1, 2, 3, 3, 3])));
    let heard = rng.pick(&[&[1][..], &[3], &[1, 3], &[1, 3], &[1, 3]]);
    headers_in(&mut slots, heard);
    slots
}

/// Leaves a run's headers in these slots alone.
pub fn headers_in(run: &mut [Slot], slots: &[u8]) {
    let missed = |slot: &&mut Slot| slot.kind == 2 && !slots.contains(&slot.slot);
    run.iter_mut()
        .filter(missed)
        .for_each(|slot| slot.put(1, Vec::new()));
}

/// Runs that begin in the same slot, as they are heard: of those that bring something in a slot
/// the one that `pick` names.
pub fn merge(runs: &[Vec<Slot>], mut pick: impl FnMut(&[usize]) -> usize) -> Vec<Slot> {
    let longest = runs.iter().max_by_key(|run| run.len());
    let mut merged = longest.cloned().unwrap_or_default();
    for (at, slot) in merged.iter_mut().enumerate() {
        let brings = |&run: &usize| runs[run].get(at).is_some_and(|slot| slot.kind != 1);
        let on_air: Vec<usize> = (0..runs.len()).filter(brings).collect();
        if !on_air.is_empty() {
            *slot = runs[pick(&on_air)][at].clone();
        }
    }
    merged
}

/// Five to eight different headers, one in each slot, and then those again that still can come,
/// mostly the one that was heard first.
fn crowd(rng: &mut Rng, unit: &Unit, x: u8) -> Vec<Slot> {
    let count = rng.pick(&[5, 6, 7, 7, 7, 8]);
    let messages: Vec<Message> = (0..count)
        .map(|_| for_this_unit(rng, unit, false))
        .collect();
    let mut slots = Vec::new();
    let mut place = (x, 1);
    for at in 0..count + 7 {
        let first = if at < count { at } else { earliest(at) };
        if first < count {
            let other = at >= count && rng.chance(30);
            let from = first + rng.index(if other { count - first } else { 1 });
            let countdown = 3 - (at / 2 - from / 2) as u8;
            let header = messages[from].blocks(place.0, place.1, countdown);
            place = push(&mut slots, place, 2, header[0].clone());
        }
    }
    slots
}

/// The first slot whose header can come again in this one, both counted from a slot 1: it is
/// three frames back.
fn earliest(at: usize) -> usize {
    2 * (at / 2).saturating_sub(3)
}

/// Fourteen or fifteen blocks after four frames of headers, of which one is heard.
fn longest(rng: &mut Rng, unit: &Unit, x: u8) -> Vec<Slot> {
    let fields = for_this_unit(rng, unit, true).fields;
    let count = rng.pick(&[14, 15, 15, 15]);
    let mut run = send(&Message::of(rng, fields, count), x, 3);
    let heard = if rng.chance(70) { 0 } else { rng.index(8) };
    for at in (0..8).filter(|&at| at != heard) {
        run[at].put(1, Vec::new());
    }
    run
}

/// A fragmented message and straight after it the whole of it again (8.5.4.1).
fn send_twice(message: &Message, x: u8, f: u8) -> Vec<Slot> {
    let mut run = send(message, x, f);
    let (frame, _) = last_place(&run).unwrap_or((x, 3));
    run.push(Slot::nothing((frame, 3)));
    run.extend(send(message, next_frame(frame), f));
    run
}

pub fn draw_message(rng: &mut Rng, unit: &Unit, ours: bool, fragmented: bool) -> Message {
    match ours {
        true => for_this_unit(rng, unit, fragmented),
        false => for_another(rng, unit, fragmented),
    }
}

pub fn for_this_unit(rng: &mut Rng, unit: &Unit, fragmented: bool) -> Message {
    let mut message = Message::draw(rng, fragmented);
    message.fields.dest = rng.pick(&[unit.individual, unit.group]);
    message.fields.mni = unit.mni;
    message
}

/// Another address, another MNI, a pseudo address, or none.
pub fn for_another(rng: &mut Rng, unit: &Unit, fragmented: bool) -> Message {
    let mut message = for_this_unit(rng, unit, fragmented);
    let fields = &mut message.fields;
    match rng.below(4) {
        0 => fields.dest ^= 1 << rng.below(24),
        1 => fields.mni ^= 1 << rng.below(24),
        2 => fields.dest_type = 1,
        _ => {
            (fields.dest_type, fields.dest) = (NO_ADDRESS, 0);
            // The header has room for so many bits more.
            let more = if fragmented { ADDRESS } else { 0 };
            message.bits.extend(rng.bits(more));
            message.cut.head += more;
        }
    }
    message
}

/// A message in its slots: the header with its repeats, then the blocks, nothing between.
pub fn send(message: &Message, x: u8, f: u8) -> Vec<Slot> {
    let mut slots = Vec::new();
    let mut place = (x, 1);
    for _ in 0..2 * (f + 1) {
        let countdown = f - slots.len() as u8 / 2;
        let header = message.blocks(place.0, place.1, countdown).remove(0);
        place = push(&mut slots, place, 2, header);
    }
    for (i, block) in message.blocks(x, 1, f).into_iter().skip(1).enumerate() {
        while Ok(place.0) != due_frame(x, f, i as u8) || place.1 != 1 {
            place = push(&mut slots, place, 1, Vec::new());
        }
        place = push(&mut slots, place, 3, block);
    }
    slots
}

pub fn push(slots: &mut Vec<Slot>, place: (u8, u8), kind: u8, blocks: Vec<u8>) -> (u8, u8) {
    let mut slot = Slot::nothing(place);
    slot.put(kind, blocks);
    slot.due = kind == 3;
    slots.push(slot);
    after(place)
}

/// Puts what another run brings into some slots of this one.
fn interleave(rng: &mut Rng, run: &mut [Slot], other: &[Slot]) {
    let always = rng.chance(30);
    for (slot, other) in run.iter_mut().zip(other) {
        let empty = slot.kind == 1 && other.kind != 1;
        if empty || (other.kind != 1 && (always || rng.chance(50))) {
            slot.put(other.kind, other.blocks.clone());
        }
    }
}

/// One change to a run of slots.
fn mutate(rng: &mut Rng, unit: &Unit, run: &mut Vec<Slot>) {
    match rng.below(25) {
        0 => miss(rng, run),
        1 => other_kind_of_block(rng, run),
        2 | 3 => stray_header(rng, unit, run, false),
        4 => stray_header(rng, unit, run, true),
        5 => stray_block(rng, run),
        6 | 23 => damaged_block(rng, run),
        7..=11 => damaged_header(rng, run),
        12 => other_fill(rng, run),
        13 => touched_header(rng, run),
        14 => other_countdown(rng, run),
        15 => own_header_again(rng, run),
        16 | 17 => break_in(rng, run),
        18 => refused_report(rng, run),
        19 | 20 => second_sender(rng, unit, run),
        21 => few_headers_left(rng, run),
        24 => flipped_bit(rng, run),
        _ => eighteen_frames_later(rng, run),
    }
}

/// The index of a slot of this kind.
fn any_of(rng: &mut Rng, run: &[Slot], kind: u8) -> Option<usize> {
    any(rng, run, |slot| slot.kind == kind)
}

fn any(rng: &mut Rng, run: &[Slot], wanted: impl Fn(&Slot) -> bool) -> Option<usize> {
    let found: Vec<usize> = (0..run.len()).filter(|&at| wanted(&run[at])).collect();
    (!found.is_empty()).then(|| rng.pick(&found))
}

/// A slot where something is to go wrong: one with a due block, or any.
fn target(rng: &mut Rng, run: &[Slot]) -> usize {
    match any(rng, run, |slot| slot.due) {
        Some(due) if rng.chance(40) => due,
        _ => rng.index(run.len()),
    }
}

fn miss(rng: &mut Rng, run: &mut [Slot]) {
    if let Some(at) = any(rng, run, |slot| slot.kind != 1) {
        run[at].put(1, Vec::new());
    }
}

/// DMAC-FRAG for DMAC-END, or the other way round.
fn other_kind_of_block(rng: &mut Rng, run: &mut [Slot]) {
    if let Some(at) = any_of(rng, run, 3) {
        run[at].blocks[0] ^= 0x20;
    }
}

/// A header of another message, for this unit or another one, now and then with repeats.
fn stray_header(rng: &mut Rng, unit: &Unit, run: &mut [Slot], fragmented: bool) {
    let ours = rng.chance(50);
    let message = draw_message(rng, unit, ours, fragmented);
    let (first, f) = (target(rng, run), rng.below(4) as u8);
    let repeats = rng.pick(&[1, 1, 2, 3]);
    let mut told: Vec<&mut Slot> = run[first..]
        .iter_mut()
        .filter(|slot| slot.is_told())
        .collect();
    let x = told.first().map_or(1, |slot| slot.frame);
    for slot in told.iter_mut().take(repeats) {
        let gone = (slot.frame + 18 - x) % 18;
        if gone <= f {
            let header = message.blocks(slot.frame, slot.slot, f - gone).remove(0);
            slot.put(2, header);
        }
    }
}

/// A continuation block where none may be due.
fn stray_block(rng: &mut Rng, run: &mut [Slot]) {
    let at = rng.index(run.len());
    let last = rng.chance(50);
    run[at].put(3, draw_continuation(rng, last));
}

/// Some blocks with a fault.
fn damaged_block(rng: &mut Rng, run: &mut [Slot]) {
    for _ in 0..rng.between(1, 3) {
        if let Some(at) = any_of(rng, run, 3) {
            let fault = rng.pick(&[2, 12, 11]);
            damage_continuation(rng, &mut run[at].blocks, fault);
        }
    }
}

/// Some headers with one fault, or with two.
fn damaged_header(rng: &mut Rng, run: &mut [Slot]) {
    for _ in 0..rng.between(1, 3) {
        change_header(rng, run, |rng, raw| {
            for _ in 0..rng.pick(&[1, 1, 1, 2]) {
                let fault = if rng.chance(10) {
                    18
                } else {
                    rng.pick(&HEADER_FAULTS)
                };
                raw.damage(rng, fault);
            }
        });
    }
}

/// One bit of a header or a block is another, any one of them.
fn flipped_bit(rng: &mut Rng, run: &mut [Slot]) {
    if let Some(at) = any(rng, run, |slot| !slot.blocks.is_empty()) {
        let blocks = &mut run[at].blocks;
        let bit = rng.index(8 * blocks.len());
        blocks[bit / 8] ^= 0x80 >> (bit % 8);
    }
}

/// Changes one well-formed header.
fn change_header(rng: &mut Rng, run: &mut [Slot], change: impl Fn(&mut Rng, &mut Raw)) {
    let Some(at) = any_of(rng, run, 2) else {
        return;
    };
    if let Some(mut raw) = Raw::of(&run[at].blocks) {
        change(rng, &mut raw);
        run[at].blocks = raw.bytes();
    }
}

/// A block of the same kind with other message bits: fill in a DMAC-FRAG, no bits at all.
fn other_fill(rng: &mut Rng, run: &mut [Slot]) {
    if let Some(at) = any_of(rng, run, 3) {
        let last = run[at].blocks[0] & 0x20 != 0;
        run[at].blocks = draw_continuation(rng, last);
    } else {
        change_header(rng, run, |rng, raw| raw.touch(rng));
    }
}

fn touched_header(rng: &mut Rng, run: &mut [Slot]) {
    change_header(rng, run, |rng, raw| raw.touch(rng));
}

fn other_countdown(rng: &mut Rng, run: &mut [Slot]) {
    change_header(rng, run, |rng, raw| raw.sch_h.countdown = rng.below(4));
}

/// One of the run's headers once more, with a countdown that may or may not fit.
fn own_header_again(rng: &mut Rng, run: &mut [Slot]) {
    let Some(from) = any_of(rng, run, 2) else {
        return;
    };
    if let Some(mut raw) = Raw::of(&run[from].blocks) {
        let at = target(rng, run);
        let slot = &mut run[at];
        raw.sch_s.frame = slot.frame.into();
        raw.sch_s.slot = u64::from(slot.slot) / 2 * 2;
        raw.sch_h.countdown = rng.below(4);
        slot.put(2, raw.bytes());
    }
}

/// Skips slots, tells of one twice, goes back, or leaves the message for good.
fn break_in(rng: &mut Rng, run: &mut Vec<Slot>) {
    let at = rng.index(run.len());
    let back = rng.index(at + 1);
    match rng.below(4) {
        0 => {
            let end = run.len().min(at + rng.index(3) + 1);
            run.drain(at..end);
        }
        1 => run.insert(at, run[at].clone()),
        2 => {
            let again: Vec<Slot> = run[back..=at].iter().take(4).cloned().collect();
            run.splice(at + 1..at + 1, again);
        }
        _ => run.truncate(at + 1),
    }
    if run.is_empty() {
        run.push(Slot::nothing((1, 1)));
    }
}

/// A report that is refused, with whatever a neighbour brings.
fn refused_report(rng: &mut Rng, run: &mut Vec<Slot>) {
    let at = rng.index(run.len());
    let mut slot = run[at].clone();
    slot.due = false;
    if rng.chance(50) {
        slot.frame = rng.pick(&[0, 19, 20, 31, 50, 255]);
    }
    if slot.frame == run[at].frame || rng.chance(20) {
        slot.slot = rng.pick(&[0, 2, 4, 5, 255]);
    }
    run.insert(at, slot);
}

/// A whole other message begins within this one.
fn second_sender(rng: &mut Rng, unit: &Unit, run: &mut [Slot]) {
    let Some(at) = any(rng, run, |slot| slot.is_told() && slot.slot == 1) else {
        return;
    };
    let (ours, fragmented) = (rng.chance(50), rng.chance(40));
    let message = draw_message(rng, unit, ours, fragmented);
    let other = send(&message, run[at].frame, rng.below(4) as u8);
    interleave(rng, &mut run[at..], &other);
}

/// Most headers were missed: one is left, or the first and the last, or a few.
fn few_headers_left(rng: &mut Rng, run: &mut [Slot]) {
    let headers: Vec<usize> = (0..run.len()).filter(|&at| run[at].kind == 2).collect();
    let left = match (rng.below(3), &headers[..]) {
        (_, []) => return,
        (0, headers) => vec![rng.pick(headers)],
        (1, headers) => vec![headers[0], headers[headers.len() - 1]],
        (_, headers) => (0..3).map(|_| rng.pick(headers)).collect(),
    };
    for at in headers.into_iter().filter(|at| !left.contains(at)) {
        run[at].put(1, Vec::new());
    }
}

/// The same slot of the next multiframe brings a header again.
fn eighteen_frames_later(rng: &mut Rng, run: &mut Vec<Slot>) {
    let Some(from) = any(rng, run, |slot| slot.is_told() && slot.kind == 2) else {
        return;
    };
    let (header, place) = (run[from].blocks.clone(), run[from].place());
    let mut next = last_place(run).map_or(place, after);
    while run.len() < from + 36 || next != place {
        run.push(Slot::nothing(next));
        next = after(next);
    }
    push(run, place, 2, header);
}

#[cfg(test)]
mod tests {
    use super::*;
    use crate::bits::unpack;
    use crate::blocks::header_bits;
    use crate::layout;
    use crate::receiver::{Receiver, Report};

    /// The messages that a fresh receiver joins: so many reports after the first, and their bits.
    fn joined(unit: &Unit, run: &[Slot]) -> Vec<(usize, Vec<bool>)> {
        let mut receiver = Receiver::fresh(unit.individual, unit.group, unit.mni).unwrap();
        let mut joined = Vec::new();
        for (reports, slot) in run.iter().enumerate() {
            let report = Report {
                frame: slot.frame,
                slot: slot.slot,
                kind: slot.kind,
                blocks: &slot.blocks,
            };
            let mut buffer = [0x5A; 512];
            let answer = receiver.report(&report, &mut buffer);
            if answer.outcome == 2 {
                joined.push((reports, unpack(&buffer)[..answer.bits].to_vec()));
            }
        }
        joined
    }

    /// Once, with the last block, and to the bits that it has as it is laid out.
    #[test]
    fn a_message_is_joined_wherever_it_is_cut() {
        let (mut rng, mut otherwise) = (Rng::new(0, 13), 0);
        for _ in 0..1_000 {
            let unit = Unit::draw(&mut rng);
            let message = for_this_unit(&mut rng, &unit, true);
            let (x, f) = (rng.between(1, 18) as u8, rng.below(4) as u8);
            let run = send(&message, x, f);
            let whole = [(run.len() - 1, message.bits.clone())];
            assert_eq!(joined(&unit, &run), whole, "{:?}", message.cut);
            let cut = layout::cut(header_bits(&message.fields), message.bits.len()).unwrap();
            if cut != message.cut && !cut.blocks.is_empty() {
                otherwise += 1;
                let laid_out = Message { cut, ..message };
                let joined = joined(&unit, &send(&laid_out, x, f));
                assert_eq!(joined.len(), 1);
                assert_eq!(joined[0].1, laid_out.bits);
            }
        }
        assert!(otherwise > 150, "{otherwise}");
    }

    /// F + 15 frames after the first header, and one more where frame 18 comes before the last
    /// block: at most nineteen frames, 38 reports.
    #[test]
    fn the_last_of_fifteen_blocks() {
        let mut rng = Rng::new(0, 14);
        let unit = Unit::draw(&mut rng);
        for (x, f) in (1..=18).flat_map(|x| (0..=3).map(move |f| (x, f))) {
            let fields = for_this_unit(&mut rng, &unit, true).fields;
            let run = send(&Message::of(&mut rng, fields, 15), x, f);
            let passes_18 = !(1..=3).contains(&((x + f) % 18 + 1));
            let frames = usize::from(f) + 15 + usize::from(passes_18);
            assert_eq!(joined(&unit, &run)[0].0, 2 * frames, "X {x}, F {f}");
        }
    }
}
