//! The compile context, cut to the pool; then the published items.

use ironplc_container::VarIndex;
use ironplc_ir::Diagnostic;

use crate::access::Named;
use crate::emit::Emitter;

/// Every variable is signed and of 32 bits.
#[derive(Default)]
pub(crate) struct CompileContext {
    pub(crate) constants: Vec<PoolConstant>,
}

impl CompileContext {
    pub(crate) fn var_type_info(&self, _name: &Named) -> Option<VarTypeInfo> {
        Some(DEFAULT_VAR_TYPE_INFO)
    }

    pub(crate) fn var_index(&self, name: &Named) -> Result<VarIndex, Diagnostic> {
        Ok(name.0)
    }
}
