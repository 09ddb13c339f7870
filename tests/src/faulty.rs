//! The model in the library's place, with a fault or without one. It reads what it is handed from the lent memory and
//! writes its outcome there, so that it is compared as the library is.

use crate::calls::{Call, call_model};
use crate::case::Case;
use crate::faults::{Fault, Found};

/// Who is put in the library's place.
#[derive(Clone, Copy)]
pub enum Faulty {
    Right,
    With(&'static Fault),
    /// The right model, but that a reset looks at the byte behind its buffer: a trap stops the program there.
    ReadsPast,
}

const PAGE: usize = 4096;

impl Faulty {
    /// `at` has where each lent buffer lies.
    pub fn call(self, case: &Case, at: &[*mut u8]) -> u8 {
        let lent = at.iter().zip(&case.lent).map(|(&at, lent)| read(at, lent.len())).collect();
        let handed = Case { call: case.call, numbers: case.numbers.clone(), lent, claim: case.claim };
        let (answer, left) = self.outcome(&handed, at);
        for ((&at, handed), left) in at.iter().zip(&handed.lent).zip(&left) {
            write(at, handed.len(), left);
        }
        answer
    }

    fn outcome(self, handed: &Case, at: &[*mut u8]) -> (u8, Vec<Vec<u8>>) {
        match self {
            Faulty::With(fault) if fault.calls.contains(&handed.call) => {
                let mut found = Found::new(handed);
                (fault.wrong)(&mut found);
                return (found.answer, found.lent);
            }
            Faulty::ReadsPast if handed.call == Call::LogReset => read_past(at[1], handed.lent[1].len()),
            _ => {}
        }
        let outcome = call_model(handed);
        (outcome.answer, outcome.lent)
    }
}

fn read(at: *const u8, len: usize) -> Vec<u8> {
    // SAFETY: so many bytes were lent there.
    unsafe { std::slice::from_raw_parts(at, len) }.to_vec()
}

/// Writes what is left in lent memory of this length. What is longer goes behind its end, short of a page's end: the
/// guard bytes must show it, and no trap does.
fn write(at: *mut u8, len: usize, left: &[u8]) {
    let len = if (at as usize + len).is_multiple_of(PAGE) { left.len().min(len) } else { left.len() };
    // SAFETY: so many bytes were lent there, or else they are guard bytes of the same memory.
    unsafe { std::ptr::copy_nonoverlapping(left.as_ptr(), at, len) };
}

fn read_past(at: *const u8, len: usize) {
    // SAFETY: the byte is a guard byte, or the trap that is to be shown stops the program.
    unsafe { at.add(len).read_volatile() };
}
