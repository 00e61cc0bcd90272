//! Laying a message out over blocks and slots.

use crate::faults::{refuse, Fault};

/// SCH/H bits.
pub const HEADER_ROOM: usize = 124;
/// DM-SDU bits in a continuation block.
pub const BLOCK_ROOM: usize = 264;
/// Bits of the element 'number of SCH/F slots'.
pub const COUNT_WIDTH: usize = 4;

/// Where a message is cut: its bits in the header, and in each continuation block after it.
#[derive(Clone, Debug, PartialEq, Eq)]
pub struct Cut {
    pub head: usize,
    pub blocks: Vec<usize>,
}

impl Cut {
    /// The message's bits.
    pub fn bits(&self) -> usize {
        self.head + self.blocks.iter().sum::<usize>()
    }
}

/// Cuts n bits for a header of h bits without the slot count. Faults 9 and 14.
pub fn cut(h: usize, n: usize) -> Result<Cut, Fault> {
    if h + n <= HEADER_ROOM {
        let blocks = Vec::new();
        return Ok(Cut { head: n, blocks });
    }
    refuse(9, h + COUNT_WIDTH > HEADER_ROOM)?;
    let head = HEADER_ROOM - COUNT_WIDTH - h;
    let count = (n - head).div_ceil(BLOCK_ROOM);
    refuse(14, count > 15)?;
    let mut blocks = vec![BLOCK_ROOM; count - 1];
    blocks.push(n - head - BLOCK_ROOM * (count - 1));
    Ok(Cut { head, blocks })
}

/// Frame 18 is followed by frame 1.
pub fn next_frame(frame: u8) -> u8 {
    frame % 18 + 1
}

/// The frame of continuation block i after a header in frame x with countdown f. Its slot is 1.
pub fn due_frame(x: u8, f: u8, i: u8) -> Result<u8, Fault> {
    refuse(7, !(1..=18).contains(&x))?;
    refuse(13, f > 3)?;
    refuse(14, i > 14)?;
    Ok((first_due_frame(x, f) - 1 + i) % 17 + 1)
}

/// Y of 8.5.6.2 f).
fn first_due_frame(x: u8, f: u8) -> u8 {
    match (x + f) % 18 + 1 {
        18 => 1,
        y => y,
    }
}

#[cfg(test)]
mod tests {
    use super::*;

    fn parts(head: usize, blocks: &[usize]) -> Result<Cut, Fault> {
        let blocks = blocks.to_vec();
        Ok(Cut { head, blocks })
    }

    #[test]
    fn cuts_with_h_93() {
        assert_eq!(cut(93, 31), parts(31, &[]));
        assert_eq!(cut(93, 30), parts(30, &[]));
        assert_eq!(cut(93, 32), parts(27, &[5]));
        assert_eq!(cut(93, 291), parts(27, &[264]));
        assert_eq!(cut(93, 292), parts(27, &[264, 1]));
        assert_eq!(cut(93, 3_987), parts(27, &[264; 15]));
        assert_eq!(cut(93, 3_988), Err(14));
    }

    #[test]
    fn headers_with_little_room() {
        assert_eq!(cut(120, 4), parts(4, &[]));
        assert_eq!(cut(120, 5), parts(0, &[5]));
        assert_eq!(cut(121, 3), parts(3, &[]));
        assert_eq!(cut(121, 4), Err(9));
        assert_eq!(cut(128, 0), Err(9));
    }

    #[test]
    fn first_due_frames() {
        assert_eq!(due_frame(17, 0, 0), Ok(1));
        assert_eq!(due_frame(18, 3, 0), Ok(4));
        assert_eq!(due_frame(16, 0, 0), Ok(17));
        assert_eq!(due_frame(14, 3, 0), Ok(1));
    }

    #[test]
    fn frame_18_is_never_due() {
        for x in 1..=18 {
            for f in 0..=3 {
                for i in 0..=14 {
                    assert!((1..=17).contains(&due_frame(x, f, i).unwrap()));
                }
            }
        }
        assert_eq!(due_frame(15, 0, 1), Ok(17));
        assert_eq!(due_frame(15, 0, 2), Ok(1));
        assert_eq!(due_frame(5, 3, 14), Ok(6));
    }

    #[test]
    fn refusals_in_their_order() {
        assert_eq!(due_frame(0, 4, 15), Err(7));
        assert_eq!(due_frame(19, 0, 0), Err(7));
        assert_eq!(due_frame(18, 4, 15), Err(13));
        assert_eq!(due_frame(18, 3, 15), Err(14));
        assert_eq!(due_frame(255, 255, 255), Err(7));
    }
}
