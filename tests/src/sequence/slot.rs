//! Lists of slot calls and commands: transfers in pieces of all sizes, with refused calls among them.

use crate::calls::Call;
use crate::case::Case;
use crate::ffi::{SLOT_LEN, slot_bytes, slot_numbers};
use crate::generate::message::{ACTIVATE, GET, PREPARE, UPDATE, of};
use crate::generate::slot::{Header, manifest_len, signature, total};
use crate::generate::{size, wrong_len};
use crate::harness::Harness;
use crate::model::slot::{BUFFER_LEN, Numbers};
use crate::rng::Rng;

/// Whether the slot is driven by its calls, by messages, or by both in turn.
#[derive(Clone, Copy, PartialEq, Eq)]
pub enum Way {
    Calls,
    Messages,
    Both,
}

enum Step {
    Open(u64),
    Prepare(u32),
    Update(Vec<u8>),
    Activate(u64),
    Manifest(u64),
    GetId(Vec<u8>),
    Stray(Vec<u8>),
}

/// A slot as the library left it, and the manifest that is being sent.
struct Run {
    slot: Vec<u8>,
    pending: Vec<u8>,
    active: Vec<u8>,
    response: Vec<u8>,
    manifest: Vec<u8>,
}

pub fn run(harness: &mut Harness, way: Way, rng: &mut Rng) {
    let mut run = Run {
        slot: rng.bytes(SLOT_LEN),
        pending: rng.filling(BUFFER_LEN),
        active: rng.filling(BUFFER_LEN),
        response: rng.bytes(16),
        manifest: Vec::new(),
    };
    let any = rng.next() & 0xffff;
    let magic = rng.pick(&[0x1029, 0x706d, any]);
    let small = rng.chance(60);
    let mut alike = run.take(harness, Step::Open(magic), way, rng);
    for _ in 0..20 + rng.below(60) {
        if alike.is_none() {
            return;
        }
        let step = run.step(small, rng);
        alike = run.take(harness, step, way, rng);
    }
}

impl Run {
    fn state(&self) -> Numbers {
        slot_numbers(&self.slot)
    }

    /// Mostly the step that brings a transfer on, else any.
    fn step(&mut self, small: bool, rng: &mut Rng) -> Step {
        let slot = self.state();
        if rng.chance(30) {
            return self.any_step(rng);
        }
        if slot.receiving == 0 {
            let len = if small { 13 + rng.below(50) } else { manifest_len(rng) };
            self.manifest = manifest(&slot, len, rng);
            return Step::Prepare(len as u32);
        }
        if slot.received < slot.total {
            return Step::Update(self.piece(&slot, rng));
        }
        Step::Activate(signature(rng))
    }

    /// The next bytes of the manifest: one, a few, or all that are left.
    fn piece(&self, slot: &Numbers, rng: &mut Rng) -> Vec<u8> {
        let (from, left) = (slot.received as usize, (slot.total - slot.received) as usize);
        let random = 1 + rng.below(left);
        let len = rng.pick(&[1, 7, 59, random, random, left, left]).min(left);
        let mut manifest = self.manifest.clone();
        manifest.resize(from + left, 0x33);
        manifest[from..from + len].to_vec()
    }

    fn any_step(&mut self, rng: &mut Rng) -> Step {
        let slot = self.state();
        let left = slot.total.wrapping_sub(slot.received).min(4096) as usize;
        match rng.below(16) {
            0 => Step::Open(rng.next() & 0xffff),
            1 | 2 => Step::Prepare(total(rng)),
            3 => Step::Update(Vec::new()),
            4 => Step::Update(rng.bytes(left + 1)),
            5 => Step::Update(rng.bytes(5000)),
            6 | 7 => Step::Activate(signature(rng)),
            8..11 => Step::Manifest(rng.pick(&[0, 1, 0, 1, 2])),
            11..14 => Step::GetId(rng.pick(&[&[] as &[u8], &[0], &[0], &[1], &[9], &[0, 0]]).to_vec()),
            _ => Step::Stray(stray(rng)),
        }
    }

    /// Takes a step by a call or by a message. None where the library differs from the model.
    fn take(&mut self, harness: &mut Harness, step: Step, way: Way, rng: &mut Rng) -> Option<()> {
        let by_message = match way {
            Way::Calls => false,
            Way::Messages => true,
            Way::Both => rng.chance(50),
        };
        let case = if by_message { self.by_message(step, rng) } else { self.by_call(step, rng) };
        let wrong = case.call != Call::SlotOpen && rng.chance(4);
        if wrong {
            return self.refused_first(harness, case, rng);
        }
        let call = case.call;
        let found = harness.run(case)?;
        self.keep(call, found.lent);
        Some(())
    }

    fn by_call(&self, step: Step, rng: &mut Rng) -> Case {
        let (slot, pending, active) = (self.slot.clone(), self.pending.clone(), self.active.clone());
        match step {
            Step::Open(magic) => Case::new(Call::SlotOpen, &[magic], vec![slot, pending, active]),
            Step::Prepare(total) => Case::new(Call::SlotPrepare, &[u64::from(total)], vec![slot, pending, active]),
            Step::Update(payload) => Case::new(Call::SlotUpdate, &[], vec![slot, payload, pending, active]),
            Step::Activate(signature) => Case::new(Call::SlotActivate, &[signature], vec![slot, pending, active]),
            Step::Manifest(role) => Case::new(Call::SlotManifest, &[role], vec![slot, pending, active, size(rng)]),
            Step::GetId(_) | Step::Stray(_) => self.by_message(step, rng),
        }
    }

    /// Opening and asking for a manifest have no message: these are calls in any case.
    fn by_message(&self, step: Step, rng: &mut Rng) -> Case {
        let verdict = signature(rng);
        match step {
            Step::Open(_) | Step::Manifest(_) => self.by_call(step, rng),
            Step::Prepare(total) => self.message(of(PREPARE, &total.to_le_bytes()), verdict, rng),
            Step::Update(payload) => self.message(of(UPDATE, &payload), verdict, rng),
            Step::Activate(signature) => self.message(of(ACTIVATE, &[]), signature, rng),
            Step::GetId(body) => self.message(of(GET, &body), verdict, rng),
            Step::Stray(message) => self.message(message, verdict, rng),
        }
    }

    fn message(&self, message: Vec<u8>, signature: u64, rng: &mut Rng) -> Case {
        let (pending, active) = (self.pending.clone(), self.active.clone());
        let lent = vec![self.slot.clone(), message, pending, active, self.response.clone(), size(rng)];
        Case::new(Call::Command, &[signature], lent)
    }

    /// The same step refused for a wrong buffer or an unsound state; the run goes on as it was.
    fn refused_first(&self, harness: &mut Harness, mut case: Case, rng: &mut Rng) -> Option<()> {
        if rng.chance(50) {
            case.lent[0] = slot_bytes(&Numbers { received: 5000, ..self.state() });
        } else {
            let buffers: &[&str] =
                if case.call == Call::Command { &["pending", "active", "response"] } else { &["pending", "active"] };
            let place = case.call.place(rng.pick(buffers));
            let right = case.lent[place].len();
            case.lent[place].resize(wrong_len(right, rng), 0);
        }
        harness.run(case).map(drop)
    }

    /// What the library left is what the next call is given.
    fn keep(&mut self, call: Call, mut lent: Vec<Vec<u8>>) {
        self.slot = std::mem::take(&mut lent[0]);
        self.pending = std::mem::take(&mut lent[call.place("pending")]);
        self.active = std::mem::take(&mut lent[call.place("active")]);
        if call == Call::Command {
            self.response = std::mem::take(&mut lent[call.place("response")]);
        }
    }
}

/// A manifest that this slot would take, or that breaks rules of its header.
fn manifest(slot: &Numbers, len: usize, rng: &mut Rng) -> Vec<u8> {
    let mut manifest = rng.bytes(len);
    let mut header = Header::sound(slot, len, rng);
    let percent = rng.pick(&[0, 0, 0, 20]);
    header.corrupt(slot, len, percent, rng);
    header.write(&mut manifest);
    manifest
}

/// A message that is no command of ours, or has a body of another length.
fn stray(rng: &mut Rng) -> Vec<u8> {
    let few = rng.below(9);
    let mut message = of(rng.pick(&[GET, PREPARE, UPDATE, ACTIVATE, 0x61, 0x66]), &rng.bytes(few));
    match rng.below(5) {
        0 => message[0] = 0xfe,
        1 => message[3] = 1 << rng.below(8),
        2 => message.truncate(rng.below(5)),
        _ => {}
    }
    message
}
