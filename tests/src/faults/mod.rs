//! The faults that the self-test puts into the model's answers, one at a time. Each is a wrapper around the model: it
//! differs under the condition that its words say and nowhere else. What it needs of a computation's inside is written
//! again beside it, and held to the model by its right rules.

mod certificate_slots;
mod comparison;
mod element;
mod hash;
mod hmac;
mod log;
mod log_entry;
mod log_state;
mod meaning;
mod message;
mod pairing;
mod sha512;
mod shared;
mod slot;

use crate::calls::{Call, call_model};
use crate::case::Case;
use crate::ffi::Pointee;
use crate::model::log::State;
use crate::model::slot::Numbers;

pub struct Fault {
    pub name: &'static str,
    /// What is wrong.
    pub what: &'static str,
    /// The calls whose cases must show it.
    pub calls: &'static [Call],
    /// Makes a wrong outcome of the model's.
    pub wrong: fn(&mut Found),
}

const fn fault(name: &'static str, what: &'static str, calls: &'static [Call], wrong: fn(&mut Found)) -> Fault {
    Fault { name, what, calls, wrong }
}

/// All faults, subject by subject.
pub fn faults() -> impl Iterator<Item = &'static Fault> {
    let of_logs = [log_entry::FAULTS, log::FAULTS, log_state::FAULTS, comparison::FAULTS];
    let of_hashes = [hash::FAULTS, sha512::FAULTS, hmac::FAULTS, pairing::FAULTS, certificate_slots::FAULTS];
    let of_manifests = [slot::FAULTS, message::FAULTS, element::FAULTS];
    let others = [shared::FAULTS, meaning::FAULTS];
    of_logs.into_iter().chain(of_hashes).chain(of_manifests).chain(others).flatten()
}

/// The right rules, by the code that the faults vary: nothing of these may be found.
pub fn rights() -> impl Iterator<Item = &'static Fault> {
    let of_hashes = [&hash::RIGHT, &hash::RIGHT_SHA256, &sha512::RIGHT, &hmac::RIGHT];
    [&log_entry::RIGHT, &comparison::RIGHT].into_iter().chain(of_hashes)
}

/// What a library with a fault leaves. It begins as the model's outcome.
pub struct Found<'a> {
    /// What was handed in.
    pub case: &'a Case,
    pub answer: u8,
    /// Memory that has become longer is written behind its end.
    pub lent: Vec<Vec<u8>>,
}

impl<'a> Found<'a> {
    pub fn new(case: &'a Case) -> Found<'a> {
        let outcome = call_model(case);
        Found { case, answer: outcome.answer, lent: outcome.lent }
    }

    fn is_accepted(&self) -> bool {
        self.answer == 0
    }

    /// Whether the answer is one of these.
    fn is(&self, answers: &[u8]) -> bool {
        answers.contains(&self.answer)
    }

    fn bytes(&mut self, name: &str) -> &mut Vec<u8> {
        &mut self.lent[self.case.call.place(name)]
    }

    fn value<T: Pointee>(&self, name: &str) -> T {
        T::load(&self.lent[self.case.call.place(name)])
    }

    fn set<T: Pointee>(&mut self, name: &str, value: &T) {
        value.store(self.bytes(name));
    }

    /// This memory stays as it was handed in.
    fn keep(&mut self, name: &str) {
        *self.bytes(name) = self.case.bytes(name).to_vec();
    }

    /// Refuses with this number and changes nothing.
    fn refuse(&mut self, answer: u8) {
        self.answer = answer;
        self.lent.clone_from(&self.case.lent);
    }

    /// The model's outcome of other inputs. What it leaves as they were stays as it was handed in.
    fn redo(&mut self, change: impl FnOnce(&mut Case)) {
        let mut changed = self.case.clone();
        change(&mut changed);
        let outcome = call_model(&changed);
        self.answer = outcome.answer;
        for (place, bytes) in outcome.lent.into_iter().enumerate() {
            let unchanged = bytes == changed.lent[place];
            self.lent[place] = if unchanged { self.case.lent[place].clone() } else { bytes };
        }
    }
}

/// What a case is handed, by the parameters' names.
impl Case {
    fn bytes(&self, name: &str) -> &[u8] {
        &self.lent[self.call.place(name)]
    }

    fn bytes_mut(&mut self, name: &str) -> &mut Vec<u8> {
        let place = self.call.place(name);
        &mut self.lent[place]
    }

    /// The length that is passed.
    fn len(&self, name: &str) -> usize {
        self.passed_len(self.call.place(name))
    }

    fn number(&self, name: &str) -> u64 {
        self.numbers[self.call.number_place(name)]
    }

    fn set_number(&mut self, name: &str, number: u64) {
        let place = self.call.number_place(name);
        self.numbers[place] = number;
    }

    fn value<T: Pointee>(&self, name: &str) -> T {
        T::load(self.bytes(name))
    }

    fn set<T: Pointee>(&mut self, name: &str, value: &T) {
        value.store(self.bytes_mut(name));
    }

    fn state(&self) -> State {
        self.value("log")
    }

    fn slot(&self) -> Numbers {
        self.value("slot")
    }
}
