//! The ways in which an assembly is dropped, as changes to a run of slots.

use super::logs::{after, draw_message, Slot};
use super::parts::{damage_continuation, draw_continuation, Raw, Unit};
use super::rng::Rng;
use crate::blocks::HEADER_BYTES;

/// A change at one report of a run: what is put there, or before it, or after it.
pub type Change = fn(&mut Rng, &Unit, &mut Vec<Slot>, usize);

/// A way of being dropped, and the changes at a due slot that bring it about.
pub struct Way {
    pub name: &'static str,
    pub changes: &'static [Change],
}

pub const NOTHING: &str = "nothing";
pub const FAULT: &str = "fault";
pub const END_EARLY: &str = "END early";
pub const FRAG_LAST: &str = "FRAG last";
pub const OTHERS: &str = "other's header";
pub const OWN: &str = "own header";
pub const UNFRAGMENTED: &str = "unfragmented";
pub const BREAK: &str = "break";

/// Every way. A fragmented header drops in the slot before the due one as well.
pub const WAYS: [Way; 8] = [
    Way {
        name: NOTHING,
        changes: &[|_, _, run, at| run[at].put(1, Vec::new())],
    },
    Way {
        name: FAULT,
        changes: &[
            |rng, _, run, at| put_fault(rng, &mut run[at], 2),
            |rng, _, run, at| put_fault(rng, &mut run[at], 12),
            |rng, _, run, at| put_fault(rng, &mut run[at], 11),
            |rng, unit, run, at| {
                put_header(rng, unit, &mut run[at], true, true);
                run[at].blocks[HEADER_BYTES - 1] |= 1;
            },
        ],
    },
    Way {
        name: END_EARLY,
        changes: &[|rng, _, run, at| run[at].put(3, draw_continuation(rng, true))],
    },
    Way {
        name: FRAG_LAST,
        changes: &[|rng, _, run, at| run[at].put(3, draw_continuation(rng, false))],
    },
    Way {
        name: OTHERS,
        changes: &[
            |rng, unit, run, at| put_header(rng, unit, &mut run[at], false, true),
            |rng, unit, run, at| put_header(rng, unit, &mut run[at - 1], false, true),
        ],
    },
    Way {
        name: OWN,
        changes: &[
            |rng, unit, run, at| put_header(rng, unit, &mut run[at], true, true),
            |rng, unit, run, at| put_header(rng, unit, &mut run[at - 1], true, true),
            |_, _, run, at| put_first_header(run, at),
        ],
    },
    Way {
        name: UNFRAGMENTED,
        changes: &[
            |rng, unit, run, at| put_header(rng, unit, &mut run[at], true, false),
            |rng, unit, run, at| put_header(rng, unit, &mut run[at], false, false),
        ],
    },
    Way {
        name: BREAK,
        changes: &[
            // Left out, told twice, gone back, gone on; and with a header for this unit.
            |_, _, run, at| drop(run.remove(at - 1)),
            |_, _, run, at| run.insert(at, run[at - 1].clone()),
            |_, _, run, at| run.insert(at, run[at - 2].clone()),
            |_, _, run, at| {
                run.truncate(at);
                let place = (run[at - 1].frame, run[at - 1].slot);
                run.push(Slot::nothing(after(after(place))));
            },
            |rng, unit, run, at| {
                put_header(rng, unit, &mut run[at], true, true);
                run.remove(at - 1);
            },
        ],
    },
];

impl Way {
    /// The due slots of a run at which it can be: DMAC-END is early before the last one.
    pub fn due_slots(&self, run: &[Slot]) -> Vec<usize> {
        let mut due: Vec<usize> = (0..run.len()).filter(|&at| run[at].due).collect();
        match self.name {
            END_EARLY => drop(due.pop()),
            FRAG_LAST => due = due.pop().into_iter().collect(),
            _ => (),
        }
        due
    }
}

/// Drops a run's assembly, in any way that there is for it.
pub fn drop_it(rng: &mut Rng, unit: &Unit, run: &mut Vec<Slot>) {
    let way = &WAYS[rng.index(WAYS.len())];
    let due = way.due_slots(run);
    if !due.is_empty() {
        let (change, at) = (rng.pick(way.changes), rng.pick(&due));
        change(rng, unit, run, at);
    }
}

/// Puts a header of another message into a slot.
pub fn put_header(rng: &mut Rng, unit: &Unit, slot: &mut Slot, ours: bool, fragmented: bool) {
    let message = draw_message(rng, unit, ours, fragmented);
    let countdown = rng.below(4) as u8;
    let header = message.blocks(slot.frame, slot.slot, countdown).remove(0);
    slot.put(2, header);
}

/// Puts the run's own header into a slot once more, as it was.
pub fn put_first_header(run: &mut [Slot], at: usize) {
    if let Some(mut raw) = Raw::of(&run[0].blocks) {
        raw.sch_s.frame = run[at].frame.into();
        raw.sch_s.slot = u64::from(run[at].slot) - 1;
        run[at].put(2, raw.bytes());
    }
}

/// A block where there is none, or the one that is there, with this fault.
pub fn put_fault(rng: &mut Rng, slot: &mut Slot, fault: u8) {
    if slot.kind != 3 {
        slot.put(3, draw_continuation(rng, true));
    }
    damage_continuation(rng, &mut slot.blocks, fault);
}

#[cfg(test)]
mod tests {
    use super::super::answers::{answered, ended};
    use super::super::logs::{for_this_unit, send};
    use super::*;
    use crate::log::print;

    /// Each change drops the assembly in its own way, with the blocks kept that came before.
    #[test]
    fn every_change_drops() {
        let mut rng = Rng::new(0, 10);
        for way in WAYS {
            for change in way.changes {
                for x in 1..=18 {
                    let unit = Unit::draw(&mut rng);
                    let run = send(&for_this_unit(&mut rng, &unit, true), x, x % 4);
                    let all: Vec<usize> = (0..run.len()).filter(|&at| run[at].due).collect();
                    for at in way.due_slots(&run) {
                        let mut run = run.clone();
                        change(&mut rng, &unit, &mut run, at);
                        let mut log = unit.record();
                        run.iter().for_each(|slot| log.extend(slot.record()));
                        let lines = print(&log);
                        let ended = ended(&answered(&log, &lines, true));
                        let first = &ended[0];
                        let kept = all.iter().filter(|&&due| due < at).count();
                        assert_eq!(first.dropped, Some(way.name));
                        assert_eq!(first.cut.blocks.len(), kept);
                    }
                }
            }
        }
    }
}
