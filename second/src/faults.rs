//! Fault numbers, as the scope's table has them; 0 is none.

pub type Fault = u8;

/// Gives the fault if the case is there.
pub fn refuse(fault: Fault, case: bool) -> Result<(), Fault> {
    match case {
        true => Err(fault),
        false => Ok(()),
    }
}
