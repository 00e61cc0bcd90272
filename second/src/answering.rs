//! The calendar of a response (8.5.6.2 e, f and g). The slots are walked one by one from slot 1 of
//! frame X on: first those in which the answered message goes out, then those of the response.

use crate::faults::{refuse, Fault};
use crate::layout::next_frame;

/// What is answered: a plain message, a joined one, a DM-SDS DATA that was lost, or a plain
/// DM-CONNECT with a DM-CONNECT ACK.
pub const PLAIN: u8 = 0;
pub const JOINED: u8 = 1;
pub const LOST: u8 = 2;
pub const CONNECT: u8 = 3;

/// What goes out in a slot of the response.
pub const HEADER: u8 = 1;
pub const END: u8 = 2;

/// The values that DN210 may have (A.4), and the most frames of a DM-CONNECT ACK (A.5).
const DN210: std::ops::RangeInclusive<u8> = 1..=4;
const CONNECT_ACK_FRAMES: u8 = 4;

/// The answered message, and what is wanted of the response.
#[derive(Clone, Debug)]
pub struct Asked {
    /// The answered header's frame and countdown.
    pub x: u8,
    pub f: u8,
    /// One of the four above.
    pub case: u8,
    /// The answered header's number of SCH/F slots.
    pub count: u8,
    /// The frames in which the response's header goes out, and the unit's DN210.
    pub frames: u8,
    pub dn210: u8,
    /// Whether a DM-CONNECT ACK starts in the later of its two frames.
    pub later: bool,
    /// Whether slot 1 of the first response frame is used.
    pub slot_1: bool,
    /// Whether the response is fragmented; one to a lost message never is.
    pub fragmented: bool,
}

/// A slot 1 or 3, its frame counted from X and by its number.
#[derive(Clone, Copy, Debug, PartialEq, Eq)]
pub struct Slot {
    pub from_x: u8,
    pub frame: u8,
    pub slot: u8,
}

impl Slot {
    /// After slot 1 comes slot 3 of the same frame, then slot 1 of the next.
    fn next(&self) -> Slot {
        match self.slot {
            1 => Slot { slot: 3, ..*self },
            _ => Slot {
                from_x: self.from_x + 1,
                frame: next_frame(self.frame),
                slot: 1,
            },
        }
    }

    /// DMAC-FRAG and DMAC-END go out in slot 1 of frames 1 to 17 alone (8.5.6.1).
    fn takes_block(&self) -> bool {
        self.slot == 1 && self.frame <= 17
    }
}

/// The slots from slot 1 of frame x on.
fn walk(x: u8) -> impl Iterator<Item = Slot> {
    let first = Slot {
        from_x: 0,
        frame: x,
        slot: 1,
    };
    std::iter::successors(Some(first), |slot| Some(slot.next()))
}

/// A slot of the response: what goes out in it, and a header's countdown; an END has none, 0.
#[derive(Clone, Copy, Debug, PartialEq, Eq)]
pub struct Sent {
    pub slot: Slot,
    pub what: u8,
    pub countdown: u8,
}

impl Asked {
    /// The slots of the response, in order. Faults 15, 13, 10.
    pub fn calendar(&self) -> Result<Vec<Sent>, Fault> {
        self.check()?;
        let first = self.first_frame();
        let mut slots = walk(self.x).skip_while(|slot| slot.from_x < first);
        let mut calendar = Vec::new();
        for countdown in (0..self.frames).rev() {
            for slot in slots.by_ref().take(2) {
                if slot.slot == 3 || slot.from_x > first || self.slot_1 {
                    calendar.push(Sent {
                        slot,
                        what: HEADER,
                        countdown,
                    });
                }
            }
        }
        if self.fragmented && self.case != LOST {
            let slot = slots.find(Slot::takes_block);
            calendar.extend(slot.map(|slot| Sent {
                slot,
                what: END,
                countdown: 0,
            }));
        }
        Ok(calendar)
    }

    fn check(&self) -> Result<(), Fault> {
        refuse(15, !(1..=18).contains(&self.x))?;
        refuse(13, self.f > 3 || self.count > 15)?;
        let most = self.most_frames()?;
        refuse(13, !(1..=most).contains(&self.frames))?;
        refuse(10, self.was_fragmented() && self.count == 0)
    }

    /// The limit for the number of response frames. Fault 13 for a case or a DN210 that there is
    /// not.
    fn most_frames(&self) -> Result<u8, Fault> {
        match self.case {
            PLAIN | JOINED if DN210.contains(&self.dn210) => Ok(self.dn210),
            LOST => Ok(1),
            CONNECT => Ok(CONNECT_ACK_FRAMES),
            _ => Err(13),
        }
    }

    fn was_fragmented(&self) -> bool {
        [JOINED, LOST].contains(&self.case)
    }

    /// The first response frame, counted from X: the one after the last in which the answered
    /// message goes out, or one later where that may be chosen.
    fn first_frame(&self) -> u8 {
        let used = self.answered();
        let last = used.last().map_or(0, |slot| slot.from_x);
        last + 1 + u8::from(self.case == CONNECT && self.later)
    }

    /// The slots of the answered message: its header's in frame X and the F frames after it, then
    /// those of its blocks.
    fn answered(&self) -> Vec<Slot> {
        let mut slots = walk(self.x);
        let mut used = Vec::new();
        for _ in 0..=self.f {
            used.extend(slots.by_ref().take(2));
        }
        if self.was_fragmented() {
            let blocks = slots.filter(Slot::takes_block);
            used.extend(blocks.take(self.count.into()));
        }
        used
    }
}

#[cfg(test)]
mod tests {
    use super::*;
    use crate::layout::due_frame;

    /// A response in one frame, slot 3, to a plain message in frame x with countdown f.
    fn plain(x: u8, f: u8) -> Asked {
        Asked {
            x,
            f,
            case: PLAIN,
            count: 0,
            frames: 1,
            dn210: 3,
            later: false,
            slot_1: false,
            fragmented: false,
        }
    }

    /// The same to a fragmented message of so many blocks.
    fn fragmented(case: u8, x: u8, f: u8, count: u8) -> Asked {
        Asked {
            case,
            count,
            ..plain(x, f)
        }
    }

    fn connect_ack(x: u8, f: u8, later: bool) -> Asked {
        Asked {
            case: CONNECT,
            later,
            slot_1: true,
            ..plain(x, f)
        }
    }

    /// Frames from X, frame, slot, what and countdown.
    fn numbers(sent: &Sent) -> [u8; 5] {
        let Slot {
            from_x,
            frame,
            slot,
        } = sent.slot;
        [from_x, frame, slot, sent.what, sent.countdown]
    }

    fn told(asked: &Asked) -> Vec<[u8; 5]> {
        asked.calendar().unwrap().iter().map(numbers).collect()
    }

    /// NOTE 6 of 8.5.6.2: slot 3 of frame (X + F) mod 18 + 1 with countdown 1, then slots 1 and 3 of
    /// the following frame with 0.
    #[test]
    fn plain_ones() {
        assert_eq!(told(&plain(5, 0)), [[1, 6, 3, 1, 0]]);
        assert_eq!(told(&plain(5, 3)), [[4, 9, 3, 1, 0]]);
        assert_eq!(told(&plain(17, 0)), [[1, 18, 3, 1, 0]]);
        assert_eq!(told(&plain(18, 0)), [[1, 1, 3, 1, 0]]);
        assert_eq!(told(&plain(18, 3)), [[4, 4, 3, 1, 0]]);
        let mut asked = plain(16, 1);
        asked.frames = 2;
        let lines = [[2, 18, 3, 1, 1], [3, 1, 1, 1, 0], [3, 1, 3, 1, 0]];
        assert_eq!(told(&asked), lines);
        asked.slot_1 = true;
        assert_eq!(told(&asked)[0], [2, 18, 1, 1, 1]);
        assert_eq!(told(&asked)[1..], lines);
    }

    /// The END goes out in slot 1 of the next frame in 1 to 17.
    #[test]
    fn fragmented_responses() {
        let ending = |x, frames| {
            let mut asked = plain(x, 1);
            (asked.frames, asked.fragmented) = (frames, true);
            told(&asked)
        };
        let headers = [[2, 16, 3, 1, 1], [3, 17, 1, 1, 0], [3, 17, 3, 1, 0]];
        assert_eq!(ending(14, 2)[..3], headers);
        assert_eq!(ending(14, 2)[3..], [[5, 1, 1, 2, 0]], "past 18");
        assert_eq!(ending(14, 1), [[2, 16, 3, 1, 0], [3, 17, 1, 2, 0]]);
        assert_eq!(ending(14, 3)[5..], [[5, 1, 1, 2, 0]], "after 18");
        assert_eq!(ending(16, 1), [[2, 18, 3, 1, 0], [3, 1, 1, 2, 0]]);
    }

    /// The frame after the one with the END, 18 too; the blocks pass over 18.
    #[test]
    fn joined_ones() {
        let first = |x, f, count| told(&fragmented(JOINED, x, f, count));
        assert_eq!(first(5, 0, 1), [[2, 7, 3, 1, 0]]);
        assert_eq!(first(5, 3, 2), [[6, 11, 3, 1, 0]]);
        assert_eq!(first(14, 0, 3), [[4, 18, 3, 1, 0]], "END in 17");
        assert_eq!(first(14, 0, 4), [[6, 2, 3, 1, 0]], "END in 1");
        assert_eq!(first(17, 0, 1), [[3, 2, 3, 1, 0]], "Y is 18");
        assert_eq!(first(18, 0, 1), [[2, 2, 3, 1, 0]]);
        let mut in_18 = fragmented(JOINED, 14, 0, 3);
        (in_18.slot_1, in_18.fragmented) = (true, true);
        let lines = [[4, 18, 1, 1, 0], [4, 18, 3, 1, 0], [5, 1, 1, 2, 0]];
        assert_eq!(told(&in_18), lines);
    }

    /// Header in 5 to 8, blocks in 9 to 17 and in 1 to 6, response in 7 to 10 and its END in 11.
    #[test]
    fn nine_slots() {
        let longest = Asked {
            frames: 4,
            dn210: 4,
            slot_1: true,
            fragmented: true,
            ..fragmented(JOINED, 5, 3, 15)
        };
        let lines = [
            [20, 7, 1, 1, 3],
            [20, 7, 3, 1, 3],
            [21, 8, 1, 1, 2],
            [21, 8, 3, 1, 2],
            [22, 9, 1, 1, 1],
            [22, 9, 3, 1, 1],
            [23, 10, 1, 1, 0],
            [23, 10, 3, 1, 0],
            [24, 11, 1, 2, 0],
        ];
        assert_eq!(told(&longest), lines);
    }

    /// Only the frame after the one where the slot count puts the END, and no END after it.
    #[test]
    fn lost_ones() {
        let mut asked = fragmented(LOST, 5, 1, 3);
        assert_eq!(told(&asked), [[5, 10, 3, 1, 0]]);
        (asked.slot_1, asked.fragmented, asked.dn210) = (true, true, 0);
        assert_eq!(told(&asked), [[5, 10, 1, 1, 0], [5, 10, 3, 1, 0]]);
        for (frames, dn210) in [(2, 3), (4, 4), (0, 3)] {
            (asked.frames, asked.dn210) = (frames, dn210);
            assert_eq!(asked.calendar(), Err(13), "{frames} frames");
        }
        assert_eq!(told(&fragmented(LOST, 16, 0, 1)), [[2, 18, 3, 1, 0]]);
        assert_eq!(told(&fragmented(LOST, 16, 0, 2)), [[4, 2, 3, 1, 0]]);
    }

    /// Frame (X + F) mod 18 + 1, or the one after; up to four frames, whatever DN210 is.
    #[test]
    fn connect_acks() {
        let lines = [[1, 4, 1, 1, 0], [1, 4, 3, 1, 0]];
        assert_eq!(told(&connect_ack(3, 0, false)), lines);
        let lines = [[2, 5, 1, 1, 0], [2, 5, 3, 1, 0]];
        assert_eq!(told(&connect_ack(3, 0, true)), lines);
        let lines = [[3, 18, 1, 1, 0], [3, 18, 3, 1, 0]];
        assert_eq!(told(&connect_ack(15, 2, false)), lines);
        let mut asked = connect_ack(15, 2, true);
        (asked.frames, asked.dn210, asked.slot_1) = (4, 0, false);
        let lines = [
            [4, 1, 3, 1, 3],
            [5, 2, 1, 1, 2],
            [5, 2, 3, 1, 2],
            [6, 3, 1, 1, 1],
            [6, 3, 3, 1, 1],
            [7, 4, 1, 1, 0],
            [7, 4, 3, 1, 0],
        ];
        assert_eq!(told(&asked), lines);
        asked.frames = 5;
        assert_eq!(asked.calendar(), Err(13));
    }

    #[test]
    fn later_is_for_connect_acks() {
        for case in [PLAIN, JOINED, LOST] {
            let mut asked = fragmented(case, 9, 2, 4);
            let at_once = told(&asked);
            asked.later = true;
            assert_eq!(told(&asked), at_once);
        }
    }

    type Change = fn(&mut Asked);

    const FIFTEEN: [Change; 3] = [
        |asked| asked.x = 0,
        |asked| asked.x = 19,
        |asked| asked.x = 255,
    ];
    const THIRTEEN: [Change; 11] = [
        |asked| asked.f = 4,
        |asked| asked.f = 255,
        |asked| asked.case = 4,
        |asked| asked.case = 255,
        |asked| asked.count = 16,
        |asked| asked.count = 255,
        |asked| asked.frames = 0,
        |asked| asked.frames = 4,
        |asked| asked.frames = 255,
        |asked| asked.dn210 = 0,
        |asked| asked.dn210 = 5,
    ];

    #[test]
    fn refusals_in_their_order() {
        let right = fragmented(JOINED, 18, 3, 15);
        assert_eq!(right.calendar().unwrap().len(), 1);
        let with = |changes: &[Change]| {
            let mut asked = right.clone();
            changes.iter().for_each(|change| change(&mut asked));
            asked.calendar()
        };
        let none: Change = |asked| asked.count = 0;
        assert_eq!(with(&[none]), Err(10));
        for frame in FIFTEEN {
            assert_eq!(with(&[frame]), Err(15));
            assert_eq!(with(&[none, frame]), Err(15));
            for large in THIRTEEN {
                assert_eq!(with(&[none, large, frame]), Err(15));
            }
        }
        for (i, large) in THIRTEEN.into_iter().enumerate() {
            assert_eq!(with(&[large]), Err(13), "change {i}");
            assert_eq!(with(&[none, large]), Err(13), "change {i}");
        }
    }

    #[test]
    fn what_is_looked_at_in_each_case() {
        let faults = |change: Change| {
            [PLAIN, JOINED, LOST, CONNECT].map(|case| {
                let mut asked = fragmented(case, 1, 0, 1);
                change(&mut asked);
                asked.calendar().err().unwrap_or(0)
            })
        };
        assert_eq!(faults(|_| ()), [0; 4]);
        assert_eq!(faults(|asked| asked.count = 0), [0, 10, 10, 0]);
        assert_eq!(faults(|asked| asked.count = 15), [0; 4]);
        assert_eq!(faults(|asked| asked.count = 16), [13; 4]);
        assert_eq!(faults(|asked| asked.dn210 = 0), [13, 13, 0, 0]);
        assert_eq!(faults(|asked| asked.dn210 = 5), [13, 13, 0, 0]);
        assert_eq!(faults(|asked| asked.dn210 = 4), [0; 4]);
        assert_eq!(faults(|asked| asked.frames = 2), [0, 0, 13, 0]);
        assert_eq!(faults(|asked| asked.frames = 3), [0, 0, 13, 0]);
        assert_eq!(faults(|asked| asked.frames = 4), [13, 13, 13, 0]);
        assert_eq!(faults(|asked| asked.frames = 5), [13; 4]);
        let both: Change = |asked| (asked.frames, asked.dn210) = (5, 5);
        assert_eq!(faults(both), [13; 4]);
    }

    /// Every input in range: X 1 to 18, F and case 0 to 3, slot count 0 to 15, frames and DN210 0
    /// to 4, and the three flags.
    fn every_input() -> impl Iterator<Item = Asked> {
        (0..18 * 4 * 4 * 16 * 5 * 5 * 8).map(|input: u32| {
            let mut rest = input;
            let mut next = |values| {
                let value = rest % values;
                rest /= values;
                value as u8
            };
            Asked {
                x: next(18) + 1,
                f: next(4),
                case: next(4),
                count: next(16),
                frames: next(5),
                dn210: next(5),
                later: next(2) == 1,
                slot_1: next(2) == 1,
                fragmented: next(2) == 1,
            }
        })
    }

    /// Those that are taken, with their calendars.
    fn every_calendar() -> impl Iterator<Item = (Asked, Vec<Sent>)> {
        every_input().filter_map(|asked| asked.calendar().ok().map(|sent| (asked, sent)))
    }

    /// Of 18 times 4 times 8 inputs with the same case, slot count, frames and DN210: 160, 150, 75
    /// and 320 of the four cases are taken, and 10 and 5 are refused with 10.
    #[test]
    fn so_many_are_taken() {
        let mut counts = [0; 16];
        for asked in every_input() {
            let fault = asked.calendar().err().unwrap_or(0);
            let limit = [asked.dn210, asked.dn210, 1, 4][usize::from(asked.case)];
            let was_fragmented = asked.case == 1 || asked.case == 2;
            let expected = match asked.frames {
                0 => 13,
                frames if frames > limit => 13,
                _ if was_fragmented && asked.count == 0 => 10,
                _ => 0,
            };
            assert_eq!(fault, expected, "{asked:?}");
            counts[usize::from(fault)] += 1;
        }
        let each = 18 * 4 * 8;
        assert_eq!(counts[0], each * (160 + 150 + 75 + 320));
        assert_eq!(counts[10], each * (10 + 5));
        assert_eq!(counts[13], 921_600 - counts[0] - counts[10]);
    }

    /// The slots of the answered message, frames from X and slot, by the layout rule.
    fn used(asked: &Asked) -> Vec<(u8, u8)> {
        let repeats = (0..=asked.f).flat_map(|frame| [(frame, 1), (frame, 3)]);
        let mut used: Vec<(u8, u8)> = repeats.collect();
        let mut last = asked.f;
        if asked.case == JOINED || asked.case == LOST {
            for i in 0..asked.count {
                let due = due_frame(asked.x, asked.f, i).unwrap();
                last += (1..=2)
                    .find(|more| (asked.x + last + more - 1) % 18 + 1 == due)
                    .unwrap();
                used.push((last, 1));
            }
        }
        used
    }

    #[test]
    fn no_slot_is_the_answered_messages() {
        for (asked, calendar) in every_calendar() {
            let used = used(&asked);
            for sent in calendar {
                let place = (sent.slot.from_x, sent.slot.slot);
                assert!(!used.contains(&place), "{place:?} of {asked:?}");
            }
        }
    }

    /// Its first frame is the one after the answered message's last, or a frame later.
    #[test]
    fn the_first_frame() {
        for (asked, calendar) in every_calendar() {
            let last = used(&asked).pop().unwrap().0;
            let later = u8::from(asked.later && asked.case == CONNECT);
            let first = &calendar[0].slot;
            assert_eq!(first.from_x, last + 1 + later, "{asked:?}");
            assert_eq!(first.slot, if asked.slot_1 { 1 } else { 3 });
            if asked.case == PLAIN {
                assert_eq!(first.frame, (asked.x + asked.f) % 18 + 1);
            }
        }
    }

    /// In order, without two the same; at most nine; and the frames are those counted from X.
    #[test]
    fn in_order() {
        let mut most = 0;
        for (asked, calendar) in every_calendar() {
            let places = calendar
                .iter()
                .map(|sent| (sent.slot.from_x, sent.slot.slot));
            let places: Vec<(u8, u8)> = places.collect();
            assert!(places.is_sorted_by(|a, b| a < b), "{asked:?}");
            most = most.max(places.len());
            for Sent { slot, .. } in calendar {
                assert!(slot.slot == 1 || slot.slot == 3);
                assert_eq!(slot.frame, (asked.x + slot.from_x - 1) % 18 + 1);
            }
        }
        assert_eq!(most, 9);
    }

    /// As many frames in a row as are asked for, each countdown the number of those still to come;
    /// slots 1 and 3 in all of them but for slot 1 of the first where it is not used.
    #[test]
    fn the_headers() {
        for (asked, calendar) in every_calendar() {
            let headers = calendar.iter().filter(|sent| sent.what == HEADER);
            let headers: Vec<Sent> = headers.copied().collect();
            let first = headers[0].slot.from_x;
            let slots = 2 * usize::from(asked.frames) - usize::from(!asked.slot_1);
            assert_eq!(headers.len(), slots, "{asked:?}");
            assert_eq!(headers[slots - 1].slot.from_x, first + asked.frames - 1);
            for sent in &headers {
                let frame = sent.slot.from_x;
                let mut later: Vec<u8> = headers.iter().map(|sent| sent.slot.from_x).collect();
                later.retain(|&other| other > frame);
                later.dedup();
                assert_eq!(usize::from(sent.countdown), later.len(), "{asked:?}");
            }
        }
    }

    /// A fragmented response's END, and only one: in slot 1 of the first frame of 1 to 17 after the
    /// last header's.
    #[test]
    fn the_end() {
        for (asked, calendar) in every_calendar() {
            let ends = calendar.iter().filter(|sent| sent.what != HEADER);
            let ends: Vec<[u8; 5]> = ends.map(numbers).collect();
            if !asked.fragmented || asked.case == LOST {
                assert_eq!(ends, [[0; 5]; 0], "{asked:?}");
                continue;
            }
            let last = calendar[calendar.len() - 2];
            assert_eq!(last.what, HEADER);
            let (frames, frame) = match last.slot.frame {
                17 => (2, 1),
                18 => (1, 1),
                frame => (1, frame + 1),
            };
            let end = [last.slot.from_x + frames, frame, 1, END, 0];
            assert_eq!(ends, [end], "{asked:?}");
        }
    }
}
