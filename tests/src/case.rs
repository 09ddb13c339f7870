//! A case: one call with all that it is handed; and its outcome.

use crate::calls::Call;

#[derive(Clone, Debug)]
pub struct Case {
    pub call: Call,
    pub numbers: Vec<u64>,
    pub lent: Vec<Vec<u8>>,
    pub claim: Option<Claim>,
}

/// A length that is passed for a buffer though no memory is that long. The rules decide these
/// cases by the length alone: `answer` is given and nothing changes, but that `HashMatches` says no.
#[derive(Clone, Copy, Debug)]
pub struct Claim {
    pub lent: usize,
    pub len: usize,
    pub answer: u8,
}

impl Case {
    pub fn new(call: Call, numbers: &[u64], lent: Vec<Vec<u8>>) -> Case {
        Case { call, numbers: numbers.to_vec(), lent, claim: None }
    }

    pub fn claiming(mut self, lent: usize, len: usize, answer: u8) -> Case {
        self.claim = Some(Claim { lent, len, answer });
        self
    }

    /// The length that the library is told for a lent buffer.
    pub fn passed_len(&self, lent: usize) -> usize {
        match self.claim {
            Some(claim) if claim.lent == lent => claim.len,
            _ => self.lent[lent].len(),
        }
    }
}

/// Who carries a case out: the library, or what is put in its place. Where each lent memory lies goes with the case.
pub type Library = dyn Fn(&Case, &[*mut u8]) -> u8 + Sync;

/// What a call answers, and its lent memory afterwards.
#[derive(Clone, Debug, PartialEq, Eq)]
pub struct Outcome {
    pub answer: u8,
    pub lent: Vec<Vec<u8>>,
}

impl Outcome {
    /// What the library makes of a case in memory of any length, which is not guarded.
    pub fn unguarded(library: &Library, case: &Case) -> Outcome {
        let mut lent = case.lent.clone();
        let at: Vec<*mut u8> = lent.iter_mut().map(|memory| memory.as_mut_ptr()).collect();
        Outcome { answer: library(case, &at), lent }
    }

    /// The bytes of this name that an accepted call left.
    pub fn accepted(mut self, name: &str, case: &Case) -> Option<Vec<u8>> {
        (self.answer == 0).then(|| self.lent.swap_remove(case.call.place(name)))
    }
}
