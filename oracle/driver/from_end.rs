//! The second reading of 02's L12: the most instructions that can follow from each start on, from the last start to the first, and then the way that has them.

use std::collections::BTreeMap;

use oracle::sheet::Sheet;

use crate::heights::{Decoded, Place};
use crate::slowest::Slowest;

/// The most instructions executed from each start on, and from the end. What no run reaches can lead to another place: nothing follows there.
fn most(code: &Decoded) -> BTreeMap<Place, usize> {
    let mut most = BTreeMap::from([(code.end, 0)]);
    for (place, instruction) in code.starts.iter().rev() {
        let behind = instruction.followers.iter().filter_map(|next| most.get(next)).max();
        most.insert(*place, 1 + behind.unwrap_or(&0));
    }
    most
}

/// The outcomes on the way that has so many instructions: a branch is taken only where more follow its target than follow it.
fn way(code: &Decoded, most: &BTreeMap<Place, usize>, count: usize) -> Vec<bool> {
    let (mut outcomes, mut place) = (Vec::new(), 0);
    for _ in 0..count {
        place = match code.starts.get(&place).map(|instruction| &instruction.followers[..]) {
            Some([next, target]) => {
                let taken = most[target] > most[next];
                outcomes.push(taken);
                [*next, *target][usize::from(taken)]
            }
            Some([next]) => *next,
            _ => break,
        };
    }
    outcomes
}

/// What is answered for code that passes.
pub fn slowest(sheet: &Sheet, bytes: &[u8]) -> Slowest {
    let code = Decoded::of(sheet, bytes);
    // Only a branch is followed by its own start or by what lies before it.
    if code.starts.iter().any(|(place, instruction)| instruction.followers.iter().any(|next| next <= place)) {
        return Slowest::Loops;
    }
    let most = most(&code);
    let count = most[&0];
    Slowest::Run { count, outcomes: way(&code, &most, count) }
}
