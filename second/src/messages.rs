//! The message types and their message dependent elements, copied element by element from the
//! tables of 9.4 and 9.5 (codes from 9.3.19). Widths are added up, never written down.

/// One message dependent element. `only_if` names the flag before it that it hangs on.
pub struct Element {
    pub name: &'static str,
    pub width: usize,
    pub only_if: Option<&'static str>,
}

/// A mandatory element.
const fn m(name: &'static str, width: usize) -> Element {
    Element {
        name,
        width,
        only_if: None,
    }
}

/// A conditional element: included if the flag is 1.
const fn c(name: &'static str, width: usize, flag: &'static str) -> Element {
    Element {
        name,
        width,
        only_if: Some(flag),
    }
}

const REQUESTS: &str = "Requests flag";
const ANNOUNCED: &str = "Timing change announced";
const REQUIRED: &str = "Timing change required";

/// 9.4.1, table 27.
const DM_RESERVED: &[Element] = &[
    m("Channel reservation type", 1),
    m("Reservation time remaining", 6),
    m("Timing flag", 1),
    m(REQUESTS, 1),
    m("Changeover requests flag", 1),
    c("Requests bitmap", 8, REQUESTS),
    m("Power class", 3),
    m("Power control flag", 1),
    m("Priority level", 2),
    m("Dual watch synchronization flag", 1),
    m("Two-frequency call flag", 1),
];

/// 9.4.2, table 28.
const DM_SDS_OCCUPIED: &[Element] = &[
    m("SDS time remaining", 4),
    m("SDS transaction type", 1),
    m("Priority level", 2),
];

/// 9.4.3, table 29.
const DM_TIMING_REQUEST: &[Element] = &[m("Timing adjustment", 12)];

/// 9.4.4, table 30.
const DM_TIMING_ACK: &[Element] = &[
    m("Timing acceptance flag", 1),
    m(ANNOUNCED, 1),
    c("Timing adjustment", 12, ANNOUNCED),
];

/// 9.5.1, table 31; 9.5.5, table 35 and 9.5.6, table 36 have the same elements.
const DM_SETUP: &[Element] = &[
    m("Timing flag", 1),
    m("LCH in frame 3 flag", 1),
    m("Pre-emption flag", 1),
    m("Power class", 3),
    m("Power control flag", 1),
    m("Reserved", 2),
    m("Dual watch synchronization flag", 1),
    m("Two-frequency call flag", 1),
    m("Circuit mode type", 4),
    m("Reserved", 4),
    m("Priority level", 2),
];

/// 9.5.2, table 32.
const DM_SETUP_PRES: &[Element] = &[
    m("Reserved", 3),
    m("Power class", 3),
    m("Power control flag", 1),
    m("Reserved", 2),
    m("Dual watch synchronization flag", 1),
    m("Two-frequency call flag", 1),
    m("Circuit mode type", 4),
    m("Reserved", 4),
    m("Priority level", 2),
];

/// 9.5.3, table 33.
const DM_CONNECT: &[Element] = &[m("Circuit mode type", 4), m("Reserved", 4)];

/// 9.5.4, 9.5.7, 9.5.13 and 9.5.14: DM-SDU elements alone.
const NONE: &[Element] = &[];

/// 9.5.8, table 38.
const DM_TX_CEASED: &[Element] = &[
    m("Reservation time remaining", 6),
    m("Timing flag", 1),
    m(REQUESTS, 1),
    m("Changeover requests flag", 1),
    c("Requests bitmap", 8, REQUESTS),
    m("Recent user priority flag", 1),
    m(ANNOUNCED, 1),
    c("Timing adjustment", 12, ANNOUNCED),
    m("Priority level", 2),
];

/// 9.5.9, table 39.
const DM_TX_REQUEST: &[Element] = &[
    m(REQUIRED, 1),
    c("Timing adjustment", 12, REQUIRED),
    m("Priority level", 2),
];

/// 9.5.10, table 40.
const DM_TX_ACCEPT: &[Element] = &[m(ANNOUNCED, 1), c("Timing adjustment", 12, ANNOUNCED)];

/// 9.5.11, table 41.
const DM_PREEMPT: &[Element] = &[
    m("Perceived channel state", 2),
    m(REQUIRED, 1),
    c("Timing adjustment", 12, REQUIRED),
    m("New call pre-emption", 1),
    m("Type of pre-emption", 4),
    m("Priority level", 2),
];

/// 9.5.12, table 42.
const DM_PRE_ACCEPT: &[Element] = &[
    m(ANNOUNCED, 1),
    c("Timing adjustment", 12, ANNOUNCED),
    m("New call pre-emption", 1),
    m("Type of pre-emption", 4),
];

/// 9.5.15, table 45; 9.5.16, table 46 has the same elements.
const DM_SDS_DATA: &[Element] = &[
    m("SDS time remaining", 4),
    m("SDS transaction type", 1),
    m("Priority level", 2),
    m("FCS flag", 1),
];

/// 9.5.17, table 47.
const DM_SDS_ACK: &[Element] = &[m("FCS flag", 1)];

/// The elements of a message type; `None` for a code without an entry (9.3.19).
pub fn elements(message_type: u64) -> Option<&'static [Element]> {
    Some(match message_type {
        0b00000 => DM_RESERVED,
        0b00001 => DM_SDS_OCCUPIED,
        0b00010 => DM_TIMING_REQUEST,
        0b00011 => DM_TIMING_ACK,
        0b01000 => DM_SETUP,
        0b01001 => DM_SETUP_PRES,
        0b01010 => DM_CONNECT,
        0b01011 => NONE,
        0b01100 => DM_SETUP,
        0b01101 => DM_SETUP,
        0b01110 => NONE,
        0b01111 => DM_TX_CEASED,
        0b10000 => DM_TX_REQUEST,
        0b10001 => DM_TX_ACCEPT,
        0b10010 => DM_PREEMPT,
        0b10011 => DM_PRE_ACCEPT,
        0b10100 => NONE,
        0b10101 => NONE,
        0b10110 => DM_SDS_DATA,
        0b10111 => DM_SDS_DATA,
        0b11000 => DM_SDS_ACK,
        _ => return None,
    })
}

/// The width of the elements at the start of `run`, for the case that the run's own flags name.
/// `None` if the message type has no entry or the run ends before a flag that is asked for.
pub fn width(message_type: u64, run: &[bool]) -> Option<usize> {
    let mut set: Vec<&str> = Vec::new();
    let mut at = 0;
    let elements = elements(message_type)?;
    for element in elements {
        if element.only_if.is_some_and(|flag| !set.contains(&flag)) {
            continue;
        }
        if is_flag(elements, element) && *run.get(at)? {
            set.push(element.name);
        }
        at += element.width;
    }
    Some(at)
}

/// True if another element hangs on this one.
pub fn is_flag(elements: &[Element], element: &Element) -> bool {
    elements
        .iter()
        .any(|other| other.only_if == Some(element.name))
}

#[cfg(test)]
mod tests {
    use super::*;

    /// Width of a run of 40 zeros with ones at these places.
    fn with(message_type: u64, ones: &[usize]) -> Option<usize> {
        let run: Vec<bool> = (0..40).map(|i| ones.contains(&i)).collect();
        width(message_type, &run)
    }

    #[test]
    fn plain_widths() {
        let plain = [
            (0, 18),
            (1, 7),
            (2, 12),
            (3, 2),
            (8, 21),
            (9, 21),
            (10, 8),
            (11, 0),
            (12, 21),
            (13, 21),
            (14, 0),
            (15, 13),
            (16, 3),
            (17, 1),
            (18, 10),
            (19, 6),
            (20, 0),
            (21, 0),
            (22, 8),
            (23, 8),
            (24, 1),
        ];
        for code in 0..40 {
            let expected = plain.iter().find(|entry| entry.0 == code);
            assert_eq!(
                with(code, &[]),
                expected.map(|entry| entry.1),
                "code {code}"
            );
        }
    }

    #[test]
    fn flagged_widths() {
        assert_eq!(with(0, &[8]), Some(26));
        assert_eq!(with(3, &[1]), Some(14));
        assert_eq!(with(15, &[7]), Some(21));
        assert_eq!(with(15, &[10]), Some(25));
        assert_eq!(with(15, &[7, 10]), Some(21));
        assert_eq!(with(15, &[7, 18]), Some(33));
        assert_eq!(with(16, &[0]), Some(15));
        assert_eq!(with(17, &[0]), Some(13));
        assert_eq!(with(18, &[2]), Some(22));
        assert_eq!(with(19, &[0]), Some(18));
    }

    #[test]
    fn a_run_too_short_for_its_flag() {
        assert_eq!(width(16, &[]), None);
        assert_eq!(width(18, &[true, true]), None);
        assert_eq!(width(11, &[]), Some(0));
    }
}
