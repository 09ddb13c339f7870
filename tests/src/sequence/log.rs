//! Demand 3 as document 02, Item 2, has it: lists of log calls, refused ones among them, between which somebody else
//! writes the buffer in some, held to the record book. The book sees of each call only what document 01 lets it see,
//! never the state or the buffer's bytes.

use crate::calls::{Call, call_model};
use crate::case::{Case, Outcome};
use crate::ffi::log_bytes;
use crate::generate::comparison::{alike, other_digests};
use crate::generate::log::{Pool, book, other_buffer, pmr, record};
use crate::generate::log_state::unread;
use crate::generate::{damage, size, wrong_len};
use crate::harness::Harness;
use crate::model::Answer;
use crate::model::log::{BUFFER_LEN, Book, CAPACITY, ENTRY_LEN, PMRS, Record};
use crate::rng::Rng;

enum Step {
    Reset,
    Record(Record),
    Register(u8),
    ReadOut,
    Verdict,
    Check,
    Replay(Vec<u8>),
}

/// A log as the library and others left it, and its record book.
struct Run {
    book: Book,
    state: Vec<u8>,
    buffer: Vec<u8>,
    /// What the buffer held at some time before.
    earlier: Vec<u8>,
    /// Whether somebody else wrote the buffer since the last accepted reset or replay.
    written_by_others: bool,
    percent_by_others: usize,
    /// Whether the log is to become full.
    to_the_limit: bool,
}

pub fn run(harness: &mut Harness, pool: &Pool, rng: &mut Rng) {
    let held = rng.filling(BUFFER_LEN);
    let mut run = Run {
        book: Book::empty(),
        state: unread(rng),
        buffer: held.clone(),
        earlier: held,
        written_by_others: false,
        percent_by_others: rng.pick(&[0, 0, 4, 20]),
        to_the_limit: rng.chance(15),
    };
    run.list(harness, pool, rng);
}

fn step(run: &Run, rng: &mut Rng) -> Step {
    let choice = if run.to_the_limit && rng.chance(80) { 0 } else { rng.below(22) };
    match choice {
        0..9 => Step::Record(Record { pmr: pmr(rng), ..record(rng) }),
        9..12 => Step::Register(pmr(rng)),
        12..14 => Step::ReadOut,
        14..16 => Step::Verdict,
        16..18 => Step::Check,
        18 if !run.to_the_limit => Step::Reset,
        19 if !run.to_the_limit => Step::Replay(sound_text(rng)),
        _ => Step::Replay(doubtful_text(run, rng)),
    }
}

fn sound_text(rng: &mut Rng) -> Vec<u8> {
    let entries = rng.pick(&[0, 1, 2, 3, 5, 8, 13]);
    book(entries, rng).text().to_vec()
}

/// A text that most likely no book has, and that looks like the log's own.
fn doubtful_text(run: &Run, rng: &mut Rng) -> Vec<u8> {
    let mut text = run.book.text().to_vec();
    match rng.below(4) {
        0 => text.push(0),
        1 => text.resize(ENTRY_LEN * (CAPACITY + 1), 0),
        2 => text.extend([0; ENTRY_LEN]),
        _ if text.is_empty() => text = vec![0; ENTRY_LEN],
        _ => {
            let at = rng.below(text.len());
            damage(&mut text, at, rng);
        }
    }
    text
}

impl Run {
    /// None where the library differs from what it is held to, as all that follows would.
    fn list(&mut self, harness: &mut Harness, pool: &Pool, rng: &mut Rng) -> Option<()> {
        let first = if rng.chance(50) { Step::Reset } else { Step::Replay(sound_text(rng)) };
        self.take(harness, &first, rng)?;
        let elements = if self.to_the_limit { 120 } else { 5 + rng.below(30) };
        for _ in 0..elements {
            self.element(harness, pool, rng)?;
            self.read_registers(harness, rng)?;
        }
        if self.written_by_others { Some(()) } else { self.replay_elsewhere(harness, rng) }
    }

    /// A call, on a buffer of another length now and then, or what somebody else writes, which is then judged.
    fn element(&mut self, harness: &mut Harness, pool: &Pool, rng: &mut Rng) -> Option<()> {
        if rng.chance(self.percent_by_others) {
            self.write_by_others(pool, rng);
            return self.judge(harness, rng);
        }
        let step = step(self, rng);
        if rng.chance(8) { self.take_wrong_buffer(harness, &step, rng) } else { self.take(harness, &step, rng) }
    }

    /// Somebody else writes the buffer: the same bytes again, the log's own, older ones, nearly the log's, or any.
    fn write_by_others(&mut self, pool: &Pool, rng: &mut Rng) {
        match rng.below(14) {
            0 => {}
            1 => self.buffer = self.book.buffer(),
            2 => self.buffer.clone_from(&self.earlier),
            3 => self.buffer.fill(0),
            4 => self.buffer = rng.filling(BUFFER_LEN),
            5 => self.buffer = pool.pick(rng).buffer(),
            6 => self.buffer = self.with_a_record(record(rng)),
            7 => self.buffer = alike(&self.book, rng).buffer(),
            8..10 => self.buffer = other_digests(&self.book, rng).buffer(),
            10..12 => self.buffer = other_buffer(&self.book, pool, rng),
            _ => {
                let places = rng.pick(&[BUFFER_LEN, self.book.text().len().max(1)]);
                damage(&mut self.buffer, rng.below(places), rng);
            }
        }
        self.written_by_others = true;
    }

    /// The log's buffer with one entry more, if one fits, that no call recorded.
    fn with_a_record(&self, record: Record) -> Vec<u8> {
        let mut book = self.book.clone();
        book.add(record).ok();
        book.buffer()
    }

    fn case(&self, step: &Step, buffer: Vec<u8>, rng: &mut Rng) -> Case {
        let state = self.state.clone();
        match step {
            Step::Reset => Case::new(Call::LogReset, &[], vec![state, buffer]),
            Step::Record(record) => {
                let numbers = [u64::from(record.pmr), u64::from(record.event_type)];
                Case::new(Call::LogRecord, &numbers, vec![state, record.digest.to_vec(), buffer])
            }
            Step::Register(pmr) => Case::new(Call::LogRegister, &[u64::from(*pmr)], vec![state, buffer, rng.bytes(32)]),
            Step::ReadOut => Case::new(Call::LogReadOut, &[], vec![state, buffer, size(rng)]),
            Step::Verdict => Case::new(Call::LogReadOutVerdict, &[], vec![state, buffer]),
            Step::Check => Case::new(Call::LogCheck, &[], vec![state, buffer]),
            Step::Replay(text) => Case::new(Call::LogReplay, &[], vec![state, text.clone(), buffer]),
        }
    }

    /// Takes a step on the log's one buffer.
    fn take(&mut self, harness: &mut Harness, step: &Step, rng: &mut Rng) -> Option<()> {
        if rng.chance(10) {
            self.earlier.clone_from(&self.buffer);
        }
        let case = self.case(step, self.buffer.clone(), rng);
        let place = case.call.place("buffer");
        let expected = self.expected(step, &case);
        let mut found = harness.expect_outcome(case, expected)?;
        self.buffer = found.lent.swap_remove(place);
        self.state = found.lent.swap_remove(0);
        Some(())
    }

    /// Takes a step on a buffer of another length: 3, which changes nothing.
    fn take_wrong_buffer(&mut self, harness: &mut Harness, step: &Step, rng: &mut Rng) -> Option<()> {
        let len = wrong_len(BUFFER_LEN, rng);
        if len == BUFFER_LEN {
            return Some(());
        }
        let mut buffer = self.buffer.clone();
        buffer.resize(len, 0);
        let case = self.case(step, buffer, rng);
        let expected = Outcome { answer: 3, lent: case.lent.clone() };
        harness.expect_outcome(case, expected).map(drop)
    }

    /// The state and the answers are the book's, whoever wrote the buffer. The buffer's bytes, and the answers of the
    /// calls that judge it, are the book's too, or else what the model says of this state and this buffer.
    fn expected(&mut self, step: &Step, case: &Case) -> Outcome {
        let unchanged = Outcome { answer: 0, lent: case.lent.clone() };
        let mut expected = if self.written_by_others { call_model(case) } else { unchanged };
        let judging = matches!(step, Step::ReadOut | Step::Verdict | Step::Check);
        if !(self.written_by_others && judging) {
            match self.ask_book(step) {
                Ok(answered) => self.accept(step, &answered, &mut expected),
                Err(refusal) => expected.answer = refusal as u8,
            }
        }
        expected.lent[0] = log_bytes(&self.book.state());
        if !self.written_by_others {
            expected.lent[case.call.place("buffer")] = self.book.buffer();
        }
        expected
    }

    /// What the book answers, changed as it says.
    fn ask_book(&mut self, step: &Step) -> Answer<Vec<u8>> {
        match step {
            Step::Reset => self.book = Book::empty(),
            Step::Record(record) => self.book.add(*record)?,
            Step::Register(pmr) => return Ok(self.book.register(*pmr)?.to_vec()),
            Step::ReadOut => return Ok((self.book.text().len() as u64).to_ne_bytes().to_vec()),
            Step::Verdict | Step::Check => {}
            Step::Replay(text) => self.book = Book::of_text(text)?,
        }
        Ok(Vec::new())
    }

    /// Puts what an accepted call answers where it belongs. Reset and replay write the whole buffer.
    fn accept(&mut self, step: &Step, answered: &[u8], expected: &mut Outcome) {
        expected.answer = 0;
        match step {
            Step::Register(_) | Step::ReadOut => expected.lent[2] = answered.to_vec(),
            Step::Reset | Step::Replay(_) => self.written_by_others = false,
            Step::Record(_) | Step::Verdict | Step::Check => {}
        }
    }

    /// The calls that hold the buffer to the state, one after the other.
    fn judge(&mut self, harness: &mut Harness, rng: &mut Rng) -> Option<()> {
        [Step::ReadOut, Step::Verdict, Step::Check].iter().try_for_each(|step| self.take(harness, step, rng))
    }

    /// Each of the five registers is the book's fold after every call, and after what others wrote.
    fn read_registers(&mut self, harness: &mut Harness, rng: &mut Rng) -> Option<()> {
        (0..PMRS as u8).try_for_each(|pmr| self.take(harness, &Step::Register(pmr), rng))
    }

    /// The log read out and replayed into another buffer gives the same state and the same bytes.
    fn replay_elsewhere(&mut self, harness: &mut Harness, rng: &mut Rng) -> Option<()> {
        let text = self.book.text().to_vec();
        self.take(harness, &Step::ReadOut, rng)?;
        let case = Case::new(Call::LogReplay, &[], vec![unread(rng), text.clone(), rng.filling(BUFFER_LEN)]);
        let expected = Outcome { answer: 0, lent: vec![self.state.clone(), text, self.buffer.clone()] };
        harness.expect_outcome(case, expected).map(drop)
    }
}
