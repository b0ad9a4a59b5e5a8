//! The published emitter, expressions, statements and optimizer, with 01's stand-ins and a reader around them.

// The published files hold more than 01 asks for; what it leaves out never runs.
#![allow(dead_code, unreachable_code, unused_variables)]

mod access;
mod body;
mod compile;
mod compile_expr;
mod compile_partial_access {
    pub(crate) use crate::body::left_out::Bits;
}
mod compile_stmt;
mod cuts;
mod emit;
mod optimize;

pub mod alone;
pub mod limits;
pub mod listing;
pub mod reader;
pub mod rules;
pub mod sheet;
pub mod stand_ins;
