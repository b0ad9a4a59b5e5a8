//! What the published expressions use; then the published items.

use ironplc_ir::lowered::Program;
use ironplc_ir::lowered::{BinaryOp, Callee, CompareOp, Const, Expr, ExprKind, NarrowWidth, ShortCircuitOp, UnaryOp};
use ironplc_ir::SourceSpan;
use ironplc_ir::{Diagnostic, Label};

use super::left_out::fn_call::{
    emit_in_place, emit_intrinsic_call, emit_method_call, emit_user_call, method_site, user_function,
};
use super::left_out::operand::{convert, emit_ref, emit_subscript_check};
use super::op_type;
use super::place::resolve_load;
use crate::compile::{CompileContext, OpWidth, Signedness};
use crate::compile_expr::{
    emit_add, emit_div, emit_eq, emit_ge, emit_gt, emit_le, emit_lt, emit_mod, emit_mul, emit_ne, emit_neg, emit_null,
    emit_sub,
};
use crate::emit::Emitter;
