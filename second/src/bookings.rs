//! The bookings: every pair of source address and message reference that was ever booked, in
//! order. A transfer is looked for among the last 32 of them.

use crate::faults::{refuse, Fault};
use crate::transport::{Lent, Message, Name, TRANSFER};

/// So many of the last booked pairs are looked back over.
const LOOKED_BACK: usize = 32;
/// The width of an address.
const ADDRESS: u32 = 24;

/// What becomes of a message: nothing to book, booked, or again.
pub const NOTHING: u8 = 0;
pub const BOOKED: u8 = 1;
pub const AGAIN: u8 = 2;

#[derive(Default)]
pub struct Bookings {
    booked: Vec<(u64, u64)>,
}

impl Bookings {
    /// Reads a message from this source, 0 where it is absent, and books it if it is a transfer
    /// that is not among the last 32 booked. Faults 13, 21, 22.
    pub fn book(&mut self, source: u64, lent: &Lent) -> Result<(u8, Message), Fault> {
        refuse(13, source >> ADDRESS != 0)?;
        let message = lent.read()?.message;
        if message.kind != TRANSFER {
            return Ok((NOTHING, message));
        }
        let pair = (source, message.get(Name::Reference));
        if self
            .booked
            .iter()
            .rev()
            .take(LOOKED_BACK)
            .any(|&p| p == pair)
        {
            return Ok((AGAIN, message));
        }
        self.booked.push(pair);
        Ok((BOOKED, message))
    }
}

#[cfg(test)]
mod tests {
    use super::*;
    use crate::transport::DM_SDS_DATA;

    /// A transfer with protocol identifier 130 in a DM-SDS DATA: 40 bits.
    fn transfer(reference: u8) -> [u8; 5] {
        // 0, 0011, 00000011000; 10000010, 0000, 00, 0, 0, reference.
        [0x18, 0x18, 0x82, 0x00, reference]
    }

    fn lent(message: &[u8], n: u64) -> Lent<'_> {
        Lent {
            carrier: DM_SDS_DATA,
            fcs: false,
            n,
            bytes: message,
        }
    }

    fn mark(bookings: &mut Bookings, source: u64, reference: u8) -> u8 {
        let message = transfer(reference);
        bookings.book(source, &lent(&message, 40)).unwrap().0
    }

    #[test]
    fn again_is_not_booked() {
        let mut bookings = Bookings::default();
        assert_eq!(mark(&mut bookings, 7, 1), BOOKED);
        assert_eq!(mark(&mut bookings, 7, 1), AGAIN);
        assert_eq!(mark(&mut bookings, 7, 2), BOOKED);
        assert_eq!(mark(&mut bookings, 0, 1), BOOKED);
        assert_eq!(mark(&mut bookings, 0, 1), AGAIN);
        assert_eq!(bookings.booked, [(7, 1), (7, 2), (0, 1)]);
        assert_eq!(mark(&mut Bookings::default(), 7, 1), BOOKED);
    }

    #[test]
    fn the_33rd_last_is_forgotten() {
        for (between, told) in [(30, AGAIN), (31, AGAIN), (32, BOOKED), (33, BOOKED)] {
            let mut bookings = Bookings::default();
            assert_eq!(mark(&mut bookings, 7, 0), BOOKED);
            for reference in 1..=between {
                assert_eq!(mark(&mut bookings, 7, reference), BOOKED);
            }
            assert_eq!(mark(&mut bookings, 7, 0), told, "{between} between");
        }
    }

    #[test]
    fn again_moves_nothing() {
        let mut bookings = Bookings::default();
        for reference in 0..32 {
            mark(&mut bookings, 7, reference);
        }
        assert_eq!(mark(&mut bookings, 7, 0), AGAIN);
        assert_eq!(mark(&mut bookings, 7, 32), BOOKED);
        assert_eq!(mark(&mut bookings, 7, 0), BOOKED, "the oldest went out");
        assert_eq!(mark(&mut bookings, 7, 2), AGAIN);
        assert_eq!(mark(&mut bookings, 7, 1), BOOKED, "and then the next");
    }

    #[test]
    fn others_and_refusals_are_not_booked() {
        let mut bookings = Bookings::default();
        // 0, 0100, 011111, 10, reference 5, and three bits that nobody looks at.
        let short_report = [0x23, 0xF0, 0x2F];
        let (told, message) = bookings.book(7, &lent(&short_report, 21)).unwrap();
        assert_eq!((told, message.kind), (NOTHING, 4));
        let whole = transfer(5);
        assert_eq!(bookings.book(7, &lent(&whole, 39)), Err(22));
        assert_eq!(bookings.book(7, &lent(&whole, 27)), Err(21));
        assert_eq!(bookings.book(7, &lent(&whole, 41)), Err(13));
        assert_eq!(bookings.book(1 << 24, &lent(&whole, 0)), Err(13));
        assert_eq!(bookings.booked, []);
        assert_eq!(mark(&mut bookings, (1 << 24) - 1, 5), BOOKED);
    }
}
