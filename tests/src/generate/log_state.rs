//! States that aren't a log's own: by one number, by several that still add up or seem to, by registers, or in all.

use super::damage;
use super::log::Pool;
use crate::ffi::{LOG_LEN, log_bytes, log_state};
use crate::model::log::{BUFFER_LEN, Book, CAPACITY, ENTRY_LEN, PMRS, State};
use crate::rng::Rng;

/// The numbers of a state: the count and each PMR's.
pub const NUMBERS: usize = 1 + PMRS;

/// Number 0 is the count.
pub fn number(state: &mut State, place: usize) -> &mut u64 {
    if place == 0 { &mut state.count } else { &mut state.pmrs[place - 1].entries }
}

/// Two different PMRs.
fn two_pmrs(rng: &mut Rng) -> (usize, usize) {
    let one = rng.below(PMRS);
    (one, (one + 1 + rng.below(PMRS - 1)) % PMRS)
}

/// Memory for a state that a call doesn't read.
pub fn unread(rng: &mut Rng) -> Vec<u8> {
    if rng.chance(30) { log_bytes(&made_up(rng)) } else { rng.filling(LOG_LEN) }
}

/// A state that isn't this log's, as a rule.
pub fn other_state(book: &Book, pool: &Pool, rng: &mut Rng) -> State {
    let mut state = book.state();
    match rng.below(18) {
        0..3 => one_off(&mut state, rng),
        3..5 => move_entries(&mut state, rng),
        5..7 => wrap_sum(&mut state, rng),
        7..10 => other_total(&mut state, rng),
        10 => *number(&mut state, rng.below(NUMBERS)) = any_number(rng),
        11..15 => other_registers(&mut state, rng),
        15 => state = made_up(rng),
        16 => state = pool.pick(rng).state(),
        _ => state = log_state(&rng.filling(LOG_LEN)),
    }
    state
}

/// Numbers that add up and exceed 64.
pub fn exceed(state: &mut State, rng: &mut Rng) {
    let count = rng.pick(&[65, 66, 255, 256, (1 << 32) + state.count, u64::MAX - 63]);
    set_total(state, count, rng.below(PMRS));
}

/// Numbers that don't add up, if they did before.
pub fn break_sum(state: &mut State, rng: &mut Rng) {
    match rng.below(3) {
        0 => one_off(state, rng),
        1 => *number(state, rng.below(NUMBERS)) ^= 1 << rng.below(64),
        _ => {
            let entries = &mut state.pmrs[rng.below(PMRS)].entries;
            *entries = entries.wrapping_add(1 << rng.pick(&[6, 8, 16, 32, 62]));
        }
    }
}

fn one_off(state: &mut State, rng: &mut Rng) {
    let number = number(state, rng.below(NUMBERS));
    *number = if rng.chance(50) { number.wrapping_add(1) } else { number.wrapping_sub(1) };
}

/// Two PMRs' numbers exchanged, or one entry more in one and one less, below 0 too, in the other.
fn move_entries(state: &mut State, rng: &mut Rng) {
    let (one, other) = two_pmrs(rng);
    if rng.chance(50) {
        let entries = state.pmrs[one].entries;
        state.pmrs[one].entries = state.pmrs[other].entries;
        state.pmrs[other].entries = entries;
    } else {
        move_between(state, one, other, 1);
    }
}

/// The sum is the same again modulo 2^64.
pub fn move_between(state: &mut State, from: usize, to: usize, entries: u64) {
    state.pmrs[from].entries = state.pmrs[from].entries.wrapping_sub(entries);
    state.pmrs[to].entries = state.pmrs[to].entries.wrapping_add(entries);
}

/// Numbers whose sum is the count in so many bits alone: any five, or the log's own with parts of 2^bits more.
fn wrap_sum(state: &mut State, rng: &mut Rng) {
    let bits = rng.pick(&[8, 16, 32, 64, 64]);
    let first = rng.below(PMRS);
    if rng.chance(50) {
        let mask = u64::MAX >> (64 - bits);
        state.pmrs.iter_mut().for_each(|pmr| pmr.entries = rng.next() & mask);
        let sum = state.pmrs.iter().fold(0, |sum: u64, pmr| sum.wrapping_add(pmr.entries));
        let last = &mut state.pmrs[first].entries;
        *last = last.wrapping_add(state.count).wrapping_sub(sum) & mask;
        return;
    }
    // 2^64 itself is no part.
    let halvings = if bits == 64 { 1 + rng.below(2) } else { rng.below(3) };
    for pmr in first..first + (1 << halvings) {
        let entries = &mut state.pmrs[pmr % PMRS].entries;
        *entries = entries.wrapping_add(1 << (bits - halvings as u32));
    }
}

/// Another count, to which the numbers add up more often than not.
fn other_total(state: &mut State, rng: &mut Rng) {
    let count = other_count(state.count, rng);
    if rng.chance(70) { set_total(state, count, rng.below(PMRS)) } else { state.count = count }
}

/// Another count; what is more than before, or less, is one PMR's.
pub fn set_total(state: &mut State, count: u64, pmr: usize) {
    let entries = &mut state.pmrs[pmr].entries;
    *entries = entries.wrapping_add(count.wrapping_sub(state.count));
    state.count = count;
}

fn any_number(rng: &mut Rng) -> u64 {
    let edge: u64 = rng.pick(&[0, 1 << 6, 1 << 7, 1 << 8, 1 << 16, 1 << 31, 1 << 32, 1 << 63]);
    let any = rng.next();
    rng.pick(&[edge, edge.wrapping_sub(1), edge + 1, any])
}

/// One bit of a register, two PMRs' registers exchanged, or those and their numbers too.
fn other_registers(state: &mut State, rng: &mut Rng) {
    let (one, other) = two_pmrs(rng);
    match rng.below(4) {
        0..2 => damage(&mut state.pmrs[one].register, rng.below(32), rng),
        2 => exchange_registers(state, one, other),
        _ => state.pmrs.swap(one, other),
    }
}

pub fn exchange_registers(state: &mut State, one: usize, other: usize) {
    let register = state.pmrs[one].register;
    state.pmrs[one].register = state.pmrs[other].register;
    state.pmrs[other].register = register;
}

/// A state of any registers whose numbers add up, all of them one PMR's now and then.
fn made_up(rng: &mut Rng) -> State {
    let mut state = State::fresh();
    state.pmrs.iter_mut().for_each(|pmr| pmr.register = rng.filling(32).try_into().unwrap());
    let any = rng.below(CAPACITY + 1);
    let only = rng.chance(20).then(|| rng.below(PMRS));
    for _ in 0..rng.pick(&[0, 1, 62, 63, 64, 65, any, any]) {
        state.pmrs[only.unwrap_or(rng.below(PMRS))].entries += 1;
        state.count += 1;
    }
    state
}

/// The inverse of an entry's length modulo 2^64: the length times a multiple of it wraps to a small number.
const INVERSE: u64 = {
    let mut inverse: u64 = 1;
    let mut step = 0;
    while step < 6 {
        inverse = inverse.wrapping_mul(2u64.wrapping_sub((ENTRY_LEN as u64).wrapping_mul(inverse)));
        step += 1;
    }
    inverse
};

/// A count that is not the log's own: one off, at the limit, or where an entry's length times it overflows.
pub fn other_count(count: u64, rng: &mut Rng) -> u64 {
    let wrapping = INVERSE.wrapping_mul(rng.below(BUFFER_LEN + 1) as u64);
    let near = [count.wrapping_sub(1), count + 1, 63, 64, 65, 66];
    let far = [
        255,
        1 << 8,
        (1 << 8) + count,
        (1 << 16) + count,
        (1 << 32) + count,
        (1 << 63) + count,
        u64::MAX,
        u64::MAX - 63,
        u64::MAX / ENTRY_LEN as u64,
        u64::MAX / ENTRY_LEN as u64 + 1,
        wrapping,
    ];
    if rng.chance(60) { rng.pick(&near) } else { rng.pick(&far) }
}
