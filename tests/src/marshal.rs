//! A case's numbers and lent memory as the parameters of a call, taken one after the other.

#[cfg(not(feature = "self-test"))]
use crate::case::Case;
use crate::ffi::Pointee;
use std::ops::{Deref, DerefMut};
use std::slice::{Iter, IterMut};

/// What the library is passed.
#[cfg(not(feature = "self-test"))]
pub struct Passed<'a> {
    case: &'a Case,
    at: &'a [*mut u8],
    numbers: usize,
    lent: usize,
}

#[cfg(not(feature = "self-test"))]
impl<'a> Passed<'a> {
    /// `at` has where each lent buffer lies.
    pub fn new(case: &'a Case, at: &'a [*mut u8]) -> Passed<'a> {
        Passed { case, at, numbers: 0, lent: 0 }
    }

    pub fn number(&mut self) -> u64 {
        self.numbers += 1;
        self.case.numbers[self.numbers - 1]
    }

    pub fn pointer(&mut self) -> *mut u8 {
        self.lent += 1;
        self.at[self.lent - 1]
    }

    /// The length of the memory whose pointer was the last.
    pub fn len(&self) -> usize {
        self.case.passed_len(self.lent - 1)
    }
}

/// What the model is handed.
pub struct Handed<'a> {
    numbers: Iter<'a, u64>,
    lent: IterMut<'a, Vec<u8>>,
}

impl<'a> Handed<'a> {
    pub fn new(numbers: &'a [u64], lent: &'a mut [Vec<u8>]) -> Handed<'a> {
        Handed { numbers: numbers.iter(), lent: lent.iter_mut() }
    }

    pub fn number(&mut self) -> u64 {
        *self.numbers.next().expect("a case has the numbers that its call's signature lists")
    }

    pub fn bytes(&mut self) -> &'a mut [u8] {
        self.lent.next().expect("a case is lent what its call's signature lists")
    }

    /// A value that the call may change.
    pub fn value<T: Pointee>(&mut self) -> Value<'a, T> {
        let memory = self.bytes();
        Value { value: T::load(memory), memory }
    }

    pub fn constant<T: Pointee>(&mut self) -> T {
        T::load(self.bytes())
    }
}

/// A value in lent memory, to which it goes back at the end.
pub struct Value<'a, T: Pointee> {
    value: T,
    memory: &'a mut [u8],
}

impl<T: Pointee> Deref for Value<'_, T> {
    type Target = T;
    fn deref(&self) -> &T {
        &self.value
    }
}

impl<T: Pointee> DerefMut for Value<'_, T> {
    fn deref_mut(&mut self) -> &mut T {
        &mut self.value
    }
}

impl<T: Pointee> Drop for Value<'_, T> {
    fn drop(&mut self) {
        self.value.store(self.memory);
    }
}
