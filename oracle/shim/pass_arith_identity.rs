//! Stands for the second pass.

use std::collections::HashSet;

use super::pass_self_assign::apply_rules;
use super::OffsetMap;
use crate::compile::PoolConstant;

pub(super) fn apply(bytecode: &[u8], protected: &HashSet<usize>, _constants: &[PoolConstant]) -> (Vec<u8>, OffsetMap) {
    apply_rules(2, bytecode, protected)
}
