//! Stands for what the statements and expressions share in `body/`.

mod expr;
pub(crate) mod left_out;
mod place;
mod stmt;

use left_out::{aggregate, fb_call, fn_call, instance_copy, slot_copy, string};

use ironplc_ir::lowered::{Const, Expr, ExprKind, Place, Program, ScalarType, Stmt};
use ironplc_ir::Diagnostic;

use crate::compile::{CompileContext, OpType, DEFAULT_OP_TYPE};
use crate::emit::Emitter;

/// Emits the statements of a program.
pub(crate) fn emit_body(emitter: &mut Emitter, ctx: &mut CompileContext, stmts: &[Stmt]) -> Result<(), Diagnostic> {
    stmt::emit_stmts(emitter, ctx, &Program, stmts)
}

fn op_type(_ty: ScalarType) -> Option<OpType> {
    Some(DEFAULT_OP_TYPE)
}

/// The constant that `expr` is. 01: only K and B are, a negated K is not.
fn constant(expr: &Expr) -> Option<Const> {
    match expr.kind() {
        ExprKind::Const(value) => Some(*value),
        _ => None,
    }
}

/// The variable that `expr` reads.
fn read(expr: &Expr) -> Option<&Place> {
    match expr.kind() {
        ExprKind::Read(place) => Some(place),
        _ => None,
    }
}
