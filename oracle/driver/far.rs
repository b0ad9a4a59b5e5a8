//! Branches that are too far (02's L1): the second reading, from 02 and the finished bytes, NOT from the Rust's labels and patches. Finished code has at most
//! 65,535 bytes, so a target is known by its low 16 bits, which are there even where the Rust cut the displacement.

use ironplc_container::opcode as role;
use oracle::sheet::instructions;

/// So many numbers have 16 bits.
const WORD: usize = 1 << 16;

/// A branch of finished code: where it is, the place behind it, and where it leads.
struct Branch {
    place: usize,
    next: usize,
    target: usize,
}

impl Branch {
    fn of(place: usize, bytes: &[u8]) -> Option<Self> {
        let [role::JMP | role::JMP_IF_NOT | role::CMP_BR_I32, .., low, high] = *bytes else { return None };
        let next = place + bytes.len();
        Some(Branch { place, next, target: (next + usize::from(low) + 256 * usize::from(high)) % WORD })
    }

    /// As whole numbers.
    fn is_far(&self) -> bool {
        let displacement = self.target as i64 - self.next as i64;
        !(-32_768..=32_767).contains(&displacement)
    }
}

/// The lowest branch of code over roles that is too far, reached or not. That a branch leads neither to a start nor to the end is a fault of the code.
pub fn lowest(code: &[u8]) -> Result<Option<usize>, String> {
    let mut lands = vec![false; code.len() + 1];
    lands[code.len()] = true;
    instructions(code).for_each(|(place, _)| lands[place] = true);
    let branches: Vec<Branch> = instructions(code).filter_map(|(place, bytes)| Branch::of(place, bytes)).collect();
    if let Some(Branch { place, target, .. }) = branches.iter().find(|branch| lands.get(branch.target) != Some(&true)) {
        return Err(format!("the branch at {place} leads to {target}, which is neither a start nor the end"));
    }
    Ok(branches.iter().filter(|branch| branch.is_far()).map(|branch| branch.place).min())
}
