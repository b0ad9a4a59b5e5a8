//! Stands for the layout's addressing: a place is one slot of 32 bits.

use ironplc_container::VarIndex;
use ironplc_ir::lowered::{Expr, Place as LoweredPlace, Program, TypeId, TypeTable};
use ironplc_ir::{Diagnostic, LeftOut, SourceSpan};

use crate::access::Named;
use crate::compile::{CompileContext, OpType, VarTypeInfo, DEFAULT_OP_TYPE, DEFAULT_VAR_TYPE_INFO};
use crate::compile_expr::{emit_load_var, emit_store_var};
use crate::emit::Emitter;

pub(super) struct Slot(VarIndex);

impl Slot {
    pub(super) fn op_type(&self) -> OpType {
        DEFAULT_OP_TYPE
    }

    pub(super) fn emit_load(&self, emitter: &mut Emitter, _ctx: &mut CompileContext) -> Result<(), Diagnostic> {
        emit_load_var(emitter, self.0, self.op_type());
        Ok(())
    }

    pub(super) fn emit_store_fitting(
        &self,
        emitter: &mut Emitter,
        _ctx: &mut CompileContext,
    ) -> Result<(), Diagnostic> {
        emit_store_var(emitter, self.0, self.op_type());
        Ok(())
    }

    /// The value that `push` pushes, stored here.
    pub(super) fn emit_assign_fitting(
        &self,
        emitter: &mut Emitter,
        ctx: &mut CompileContext,
        push: impl FnOnce(&mut Emitter, &mut CompileContext) -> Result<(), Diagnostic>,
    ) -> Result<(), Diagnostic> {
        push(emitter, ctx)?;
        self.emit_store_fitting(emitter, ctx)
    }

    /// A full slot needs no truncation.
    pub(super) fn emit_assign(
        &self,
        emitter: &mut Emitter,
        ctx: &mut CompileContext,
        push: impl FnOnce(&mut Emitter, &mut CompileContext) -> Result<(), Diagnostic>,
    ) -> Result<(), Diagnostic> {
        self.emit_assign_fitting(emitter, ctx, push)
    }

    /// Named by bit assignment, which 01 leaves out.
    pub(super) fn emit_update(
        &self,
        emitter: &mut Emitter,
        ctx: &mut CompileContext,
        update: impl FnOnce(&mut Emitter, &mut CompileContext) -> Result<(), Diagnostic>,
    ) -> Result<(), Diagnostic> {
        self.emit_load(emitter, ctx)?;
        update(emitter, ctx)?;
        self.emit_store_fitting(emitter, ctx)
    }
}

pub(super) enum Load {
    Stored(Slot),
    Referenced(LeftOut),
}

impl Load {
    pub(super) fn emit_load(&self, emitter: &mut Emitter, ctx: &mut CompileContext) -> Result<(), Diagnostic> {
        match self {
            Load::Stored(slot) => slot.emit_load(emitter, ctx),
            Load::Referenced(left_out) => match *left_out {},
        }
    }

    pub(super) fn emit_store_fitting(&self, emitter: &mut Emitter, ctx: &mut CompileContext) -> Result<(), Diagnostic> {
        match self {
            Load::Stored(slot) => slot.emit_store_fitting(emitter, ctx),
            Load::Referenced(left_out) => match *left_out {},
        }
    }
}

pub(super) fn resolve(
    _lowering: &Program,
    _ctx: &CompileContext,
    place: &LoweredPlace,
    _span: &SourceSpan,
) -> Result<Slot, Diagnostic> {
    Ok(Slot(place.0))
}

pub(super) fn resolve_load(
    lowering: &Program,
    ctx: &CompileContext,
    place: &LoweredPlace,
    span: &SourceSpan,
) -> Result<Load, Diagnostic> {
    resolve(lowering, ctx, place, span).map(Load::Stored)
}

pub(super) fn variable_name(_lowering: &Program, _ctx: &CompileContext, place: &LoweredPlace) -> Option<Named> {
    Some(Named(place.0))
}

pub(super) fn type_info(_types: &TypeTable, _ty: TypeId) -> Option<VarTypeInfo> {
    Some(DEFAULT_VAR_TYPE_INFO)
}

/// There are no function blocks.
pub(super) fn reads_standard_block_field(_lowering: &Program, _ctx: &CompileContext, _expr: &Expr) -> bool {
    false
}
