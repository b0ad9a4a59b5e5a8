//! What the published statements and expressions call for the parts that 01 leaves out. `LeftOut` has no value, so
//! the compiler holds that none of this runs, but for conversions: the reader makes none, and one would be an error.

use ironplc_ir::lowered::{Program, Stmt};
use ironplc_ir::{Diagnostic, LeftOut, SourceSpan};

use crate::compile::{CompileContext, OpType, OpWidth};
use crate::emit::Emitter;

type Emitted = Result<(), Diagnostic>;

/// Bit assignment.
pub(crate) struct Bits;

impl Bits {
    pub(crate) fn new(_shift: u32, _bits: u32) -> Self {
        Bits
    }

    pub(crate) fn emit_insert(
        self,
        _emitter: &mut Emitter,
        _ctx: &mut CompileContext,
        _width: OpWidth,
        _emit_value: impl FnOnce(&mut Emitter, &mut CompileContext) -> Emitted,
    ) -> Emitted {
        Err(Diagnostic::internal_error())
    }
}

pub(super) mod fb_call {
    use super::*;

    /// A call and the statements that belong to it.
    pub(crate) enum CallSite {}

    impl CallSite {
        pub(crate) fn len(&self) -> usize {
            match *self {}
        }
    }

    pub(crate) fn call_site(_lowering: &Program, _ctx: &CompileContext, _stmts: &[Stmt]) -> Option<CallSite> {
        None
    }

    pub(crate) fn emit_call_site(
        _emitter: &mut Emitter,
        _ctx: &mut CompileContext,
        _lowering: &Program,
        call: &CallSite,
        _span: &SourceSpan,
    ) -> Emitted {
        match *call {}
    }

    pub(crate) fn bare_call(_lowering: &Program, _ctx: &CompileContext, instance: &LeftOut) -> Option<CallSite> {
        match *instance {}
    }

    pub(crate) fn no_instance(_span: &SourceSpan) -> Diagnostic {
        Diagnostic::internal_error()
    }
}

pub(super) mod fn_call {
    use super::*;

    pub(crate) use super::fb_call::{call_site as output_call, emit_call_site as emit_call_statement};

    pub(crate) fn emit_in_place(
        _emitter: &mut Emitter,
        _ctx: &mut CompileContext,
        _lowering: &Program,
        call: &LeftOut,
        _span: &SourceSpan,
    ) -> Emitted {
        match *call {}
    }

    pub(crate) fn user_function(_ctx: &CompileContext, pou: LeftOut) -> Option<LeftOut> {
        match pou {}
    }

    pub(crate) fn emit_user_call(
        _emitter: &mut Emitter,
        _ctx: &mut CompileContext,
        _lowering: &Program,
        function: &LeftOut,
        _args: &[LeftOut],
        _span: &SourceSpan,
    ) -> Emitted {
        match *function {}
    }

    pub(crate) fn emit_intrinsic_call(
        _emitter: &mut Emitter,
        _ctx: &mut CompileContext,
        _lowering: &Program,
        intrinsic: LeftOut,
        _args: &[LeftOut],
        _span: &SourceSpan,
    ) -> Emitted {
        match intrinsic {}
    }

    pub(crate) fn method_site(
        _lowering: &Program,
        _ctx: &CompileContext,
        pou: LeftOut,
        _args: &[LeftOut],
    ) -> Option<LeftOut> {
        match pou {}
    }

    pub(crate) fn emit_method_call(
        _emitter: &mut Emitter,
        _ctx: &mut CompileContext,
        _lowering: &Program,
        site: &LeftOut,
        _args: &[LeftOut],
        _span: &SourceSpan,
    ) -> Emitted {
        match *site {}
    }
}

pub(super) mod string {
    use super::*;

    pub(crate) fn emit_assign_str(
        _emitter: &mut Emitter,
        _ctx: &mut CompileContext,
        _lowering: &Program,
        place: &LeftOut,
        _value: &LeftOut,
        _span: &SourceSpan,
    ) -> Emitted {
        match *place {}
    }
}

pub(super) mod instance_copy {
    use super::*;

    pub(crate) fn instance_copy(
        _lowering: &Program,
        _ctx: &CompileContext,
        dst: &LeftOut,
        _src: &LeftOut,
    ) -> Option<LeftOut> {
        match *dst {}
    }

    pub(crate) fn emit_instance_copy(_emitter: &mut Emitter, copy: &LeftOut) {
        match *copy {}
    }
}

pub(super) mod aggregate {
    use super::*;

    pub(crate) fn can_emit(_lowering: &Program, _ctx: &CompileContext, dst: &LeftOut, _src: &LeftOut) -> bool {
        match *dst {}
    }

    pub(crate) fn emit_copy(
        _emitter: &mut Emitter,
        _ctx: &mut CompileContext,
        _lowering: &Program,
        dst: &LeftOut,
        _src: &LeftOut,
        _span: &SourceSpan,
    ) -> Emitted {
        match *dst {}
    }

    pub(crate) fn no_region(_span: &SourceSpan) -> Diagnostic {
        Diagnostic::internal_error()
    }
}

pub(super) mod slot_copy {
    use super::*;

    pub(crate) fn slot_copy(
        _lowering: &Program,
        _ctx: &CompileContext,
        dst: &LeftOut,
        _src: &LeftOut,
    ) -> Option<LeftOut> {
        match *dst {}
    }

    pub(crate) fn emit_slot_copy(_emitter: &mut Emitter, _ctx: &mut CompileContext, copy: &LeftOut) -> Emitted {
        match *copy {}
    }
}

/// References and conversions.
pub(super) mod operand {
    use super::*;

    pub(crate) fn emit_ref(
        _emitter: &mut Emitter,
        _ctx: &mut CompileContext,
        _lowering: &Program,
        place: &LeftOut,
        _span: &SourceSpan,
    ) -> Emitted {
        match *place {}
    }

    pub(crate) fn convert(_emitter: &mut Emitter, _from: OpType, _to: OpType) -> Emitted {
        Err(Diagnostic::internal_error())
    }

    pub(crate) fn emit_subscript_check(
        _emitter: &mut Emitter,
        _from: OpType,
        _to: OpType,
        _span: &SourceSpan,
    ) -> Emitted {
        Err(Diagnostic::internal_error())
    }
}
