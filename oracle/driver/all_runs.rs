//! The first reading of 02's L12: runs as 01 says, over all outcomes, by search.
//!
//! So many outcomes and steps suffice. Of S starts, B wait for an outcome. Where every branch leads forward a run is at no start twice: it has finished after S
//! steps, and has used an outcome at most once at each of the B: all lists of B outcomes, each for S steps. Lists that differ only behind the outcomes that are
//! used give the same run.

use std::cmp::Reverse;

use ironplc_container::opcode as role;
use oracle::sheet::Sheet;

use crate::outcomes::Code;
use crate::slowest::Slowest;

/// How many instructions a run executes, and the outcomes that it uses.
fn ran(code: &Code, list: impl Iterator<Item = bool>) -> (usize, Vec<bool>) {
    let mut used = Vec::new();
    let (states, _) = code.run(0, code.starts().count(), list.inspect(|taken| used.push(*taken)));
    // At each start that it comes to an instruction is executed, RET too; the end has none.
    let executed = states.iter().filter(|state| code.role(state.place).is_some());
    (executed.count(), used)
}

/// What is answered for code that passes, unless the lists are too many.
pub fn slowest(sheet: &Sheet, bytes: &[u8]) -> Option<Slowest> {
    let code = Code::of(sheet, bytes);
    let is_branch = |role| matches!(role, role::JMP | role::JMP_IF_NOT | role::CMP_BR_I32);
    if code.starts().any(|(place, role)| is_branch(role) && code.target(place, role) <= place) {
        return Some(Slowest::Loops);
    }
    let runs = code.lists()?.map(|list| ran(&code, list));
    let (count, outcomes) = runs.max_by_key(|(count, outcomes)| (*count, Reverse(outcomes.clone())))?;
    Some(Slowest::Run { count, outcomes })
}
