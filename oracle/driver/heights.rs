//! The second reading of 02's L11: which places are reached, and then a height for each of them, over the instructions that can follow one another.

use std::collections::{BTreeMap, BTreeSet};

use ironplc_container::opcode as role;
use oracle::sheet::Sheet;

use crate::images::{Verdict, ASTRAY, BAD_HEIGHT, PASSES};

/// Signed: a target can lie before the code.
pub type Place = i64;

pub struct Instruction {
    /// Values that must be there, and those that stand there instead of them.
    needed: u64,
    left: u64,
    /// Where a run can go on: behind it first, then its target.
    pub followers: Vec<Place>,
    /// Whether a run finishes here.
    returns: bool,
}

/// The code's instructions by their starts, and its length.
pub struct Decoded {
    pub starts: BTreeMap<Place, Instruction>,
    pub end: Place,
}

fn effect(role: u8) -> (u64, u64) {
    match role {
        role::DUP => (1, 2),
        role::LOAD_VAR_I32 | role::LOAD_CONST_I32 | role::LOAD_TRUE | role::LOAD_FALSE => (0, 1),
        role::POP | role::STORE_VAR_I32 | role::JMP_IF_NOT => (1, 0),
        role::NEG_I32 | role::BOOL_NOT => (1, 1),
        role::JMP | role::CMP_BR_I32 | role::RET => (0, 0),
        _ => (2, 1),
    }
}

fn instruction(role: u8, next: Place, bytes: &[u8]) -> Instruction {
    let offset = match bytes {
        [_, .., low, high] => i64::from(*low) + (i64::from(*high) << 8),
        _ => 0,
    };
    let target = next + if offset < 1 << 15 { offset } else { offset - (1 << 16) };
    let followers = match role {
        role::RET => vec![],
        role::JMP => vec![target],
        role::JMP_IF_NOT | role::CMP_BR_I32 => vec![next, target],
        _ => vec![next],
    };
    let (needed, left) = effect(role);
    Instruction { needed, left, followers, returns: role == role::RET }
}

impl Decoded {
    /// Decodes up to what is unlisted or cut.
    pub fn of(sheet: &Sheet, code: &[u8]) -> Self {
        let roles: BTreeMap<u8, u8> = sheet.opcodes.into_iter().zip(0..).collect();
        let (mut starts, mut rest) = (BTreeMap::new(), code);
        let end = code.len() as Place;
        while let Some(role) = rest.first().and_then(|opcode| roles.get(opcode)) {
            let Some((bytes, after)) = rest.split_at_checked(role::instruction_size(*role)) else { break };
            if *role == role::CMP_BR_I32 && !sheet.comparisons.contains(&bytes[1]) {
                break;
            }
            let next = end - after.len() as Place;
            starts.insert(end - rest.len() as Place, instruction(*role, next, bytes));
            rest = after;
        }
        Decoded { starts, end }
    }

    /// Whether a place that is neither start nor end can be reached.
    fn strays(&self) -> bool {
        let (mut reached, mut left) = (BTreeSet::new(), vec![0]);
        while let Some(place) = left.pop() {
            match self.starts.get(&place) {
                Some(instruction) if reached.insert(place) => left.extend(&instruction.followers),
                None if place != self.end => return true,
                _ => {}
            }
        }
        false
    }

    /// Whether something is at fault at a place, start or end, that is reached at this height.
    fn is_unfit(&self, place: Place, height: u64, depth: u64) -> bool {
        let unfit = match self.starts.get(&place) {
            Some(instruction) => height < instruction.needed || (instruction.returns && height > 0),
            None => height > 0,
        };
        unfit || height > depth
    }

    /// Whether a height is at fault, where only starts and the end are reached.
    fn tilts(&self, depth: u64) -> bool {
        let (mut heights, mut left) = (BTreeMap::new(), vec![(0, 0)]);
        while let Some((place, height)) = left.pop() {
            match heights.insert(place, height) {
                Some(known) if known == height => continue,
                Some(_) => return true,
                None if self.is_unfit(place, height, depth) => return true,
                None => {}
            }
            if let Some(instruction) = self.starts.get(&place) {
                let after = height - instruction.needed + instruction.left;
                left.extend(instruction.followers.iter().map(|next| (*next, after)));
            }
        }
        false
    }
}

pub fn check(sheet: &Sheet, code: &[u8], depth: u64) -> Verdict {
    let image = Decoded::of(sheet, code);
    match (image.strays(), image.tilts(depth)) {
        (true, _) => ASTRAY,
        (false, true) => BAD_HEIGHT,
        (false, false) => PASSES,
    }
}
