//! Stands for two functions that the published text lacks.

use ironplc_ir::SourceSpan;

use crate::compile::CompileContext;
use crate::emit::Emitter;

/// 01: RETURN emits RET.
pub(crate) fn emit_return(emitter: &mut Emitter, _ctx: &mut CompileContext) {
    emitter.emit_ret();
}

pub(crate) fn record_position(emitter: &mut Emitter, _ctx: &mut CompileContext, span: &SourceSpan) {
    let at = span.position;
    emitter.set_source_position(at.file, at.line, at.column);
}
