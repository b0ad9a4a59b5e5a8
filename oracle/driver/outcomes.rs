//! The first reading of 02's L11: runs as 01 says, over all outcomes, by search.
//!
//! So many outcomes and steps suffice. Of S starts, B wait for an outcome. A run's first S + 1 states hold the end of the run, a place that is no start, or a
//! start twice. Between two states that are equal nothing is gained: without the steps between them the run comes to the same. Equal places at two heights are a
//! fault, met within S steps. So what any run meets is met within S steps by one that has been nowhere twice before, which uses an outcome at most once at each
//! of the B: all lists of B outcomes, each for S steps. A shorter list waits where a longer one goes on.

use ironplc_container::opcode as role;
use oracle::sheet::Sheet;

use crate::images::{Verdict, ASTRAY, BAD_HEIGHT, PASSES};

/// The most steps of all lists together: what is more is left to the other reading.
const MOST: usize = 1 << 16;

/// 01's sheet: bytes, values popped (or needed), change of height.
fn size(role: u8) -> usize {
    match role {
        2 | 3 | 4 | 23 | 24 => 3,
        25 => 8,
        _ => 1,
    }
}

fn change(role: u8) -> i64 {
    match role {
        0 | 2 | 4 | 5 | 6 => 1,
        1 | 3 | 7..=11 | 13..=15 | 17..=22 | 24 => -1,
        _ => 0,
    }
}

fn pops(role: u8) -> i64 {
    match role {
        7..=22 if change(role) == -1 => 2,
        1 | 3 | 12 | 16 | 24 => 1,
        0 => 1,
        _ => 0,
    }
}

/// A run's state but for its outcomes. Its place can lie before the code, or behind it.
#[derive(Clone, Copy)]
pub struct State {
    pub place: i64,
    height: i64,
}

pub enum Step {
    To(State),
    Finishes,
    Waits,
    /// It breaks off.
    EmptyStack,
    NoPlace,
}

/// The roles of the code's starts, by place.
pub struct Code<'c> {
    bytes: &'c [u8],
    roles: Vec<Option<u8>>,
}

/// The role of the instruction that stands whole and listed at a place.
fn role_at(sheet: &Sheet, code: &[u8], at: usize) -> Option<u8> {
    let opcode = code.get(at)?;
    let role = (0..).zip(&sheet.opcodes).find(|(_, listed)| *listed == opcode)?.0;
    let bytes = code.get(at..at + size(role))?;
    (role != role::CMP_BR_I32 || sheet.comparisons.contains(&bytes[1])).then_some(role)
}

impl<'c> Code<'c> {
    pub fn of(sheet: &Sheet, bytes: &'c [u8]) -> Self {
        let (mut roles, mut at) = (vec![None; bytes.len()], 0);
        while let Some(role) = role_at(sheet, bytes, at) {
            roles[at] = Some(role);
            at += size(role);
        }
        Code { bytes, roles }
    }

    pub fn role(&self, place: i64) -> Option<u8> {
        usize::try_from(place).ok().and_then(|place| self.roles.get(place).copied().flatten())
    }

    /// The starts, and their roles.
    pub fn starts(&self) -> impl Iterator<Item = (i64, u8)> + '_ {
        (0..).zip(&self.roles).filter_map(|(place, role)| role.map(|role| (place, role)))
    }

    /// The byte after a branch, and a signed number from its last two bytes.
    pub fn target(&self, place: i64, role: u8) -> i64 {
        let next = place as usize + size(role);
        next as i64 + i64::from(i16::from_le_bytes([self.bytes[next - 2], self.bytes[next - 1]]))
    }

    fn step(&self, State { place, height }: State, outcomes: &mut impl Iterator<Item = bool>) -> Step {
        let Some(role) = self.role(place) else {
            return if place == self.bytes.len() as i64 { Step::Finishes } else { Step::NoPlace };
        };
        let taken = match role {
            role::RET => return Step::Finishes,
            role::JMP => true,
            role::JMP_IF_NOT | role::CMP_BR_I32 => match outcomes.next() {
                Some(taken) => taken,
                None => return Step::Waits,
            },
            _ => false,
        };
        if pops(role) > height {
            return Step::EmptyStack;
        }
        let next = if taken { self.target(place, role) } else { place + size(role) as i64 };
        Step::To(State { place: next, height: height + change(role) })
    }

    /// The states of a run from this height on, up to so many steps, and how it ends.
    pub fn run(&self, height: i64, steps: usize, mut outcomes: impl Iterator<Item = bool>) -> (Vec<State>, Step) {
        let mut states = vec![State { place: 0, height }];
        for at in 0..=steps {
            match self.step(states[at], &mut outcomes) {
                Step::To(state) => states.push(state),
                end => return (states, end),
            }
        }
        (states, Step::Waits)
    }

    /// All lists of an outcome for each start that waits for one, unless they are too many.
    pub fn lists(&self) -> Option<impl Iterator<Item = impl Iterator<Item = bool>> + Clone> {
        let branches = self.starts().filter(|(_, role)| matches!(*role, role::JMP_IF_NOT | role::CMP_BR_I32)).count();
        let few = branches < 16 && (self.starts().count() + 1) << branches <= MOST;
        few.then(|| (0..1 << branches).map(move |bits| list(bits, branches)))
    }
}

/// One list: its bits, the lowest first.
fn list(bits: usize, count: usize) -> impl Iterator<Item = bool> {
    (0..count).map(move |at| bits >> at & 1 == 1)
}

/// Whether a run has a fault of height, alone or with those before it, whose heights are `reached`.
fn is_faulty(code: &Code, (states, end): (Vec<State>, Step), depth: u64, reached: &mut [Option<i64>]) -> bool {
    let over = states.iter().any(|state| state.height as u64 > depth);
    let twice = states.iter().filter(|state| code.role(state.place).is_some()).any(|state| {
        let known = reached[state.place as usize].replace(state.height);
        known.is_some_and(|height| height != state.height)
    });
    let unempty = matches!(end, Step::Finishes) && states.last().is_some_and(|state| state.height != 0);
    over || twice || unempty || matches!(end, Step::EmptyStack)
}

/// The verdict, unless the lists are too many.
pub fn check(sheet: &Sheet, bytes: &[u8], depth: u64) -> Option<Verdict> {
    let code = Code::of(sheet, bytes);
    let (mut lists, starts) = (code.lists()?, code.starts().count());
    // Heights ignored: from so high that no step can pop too much.
    let plenty = 2 * starts as i64 + 2;
    if lists.clone().any(|list| matches!(code.run(plenty, starts, list).1, Step::NoPlace)) {
        return Some(ASTRAY);
    }
    let mut reached = vec![None; bytes.len()];
    let faulty = lists.any(|list| is_faulty(&code, code.run(0, starts, list), depth, &mut reached));
    Some(if faulty { BAD_HEIGHT } else { PASSES })
}
