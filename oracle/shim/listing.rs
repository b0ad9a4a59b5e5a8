//! Whole programs: the published code run on a program, and the listing of what it gives.

use std::fmt::Write;

use ironplc_ir::Diagnostic;

use crate::body::emit_body;
use crate::compile::{finalize_function, CompileContext, FinalizedFunction, PoolConstant};
use crate::compile_stmt::record_position;
use crate::emit::Emitter;
use crate::reader::{Input, Refusal};
use crate::sheet::{instructions, Sheet};
use crate::{cuts, limits, rules};

/// Why there is no listing.
pub enum Fault {
    Refused(Refusal),
    /// A displacement was cut to 16 bits: what was finished all the same.
    Cut(Finished),
    /// An error of the published code that 01 has no number for.
    Broken(String),
}

pub struct Finished {
    function: FinalizedFunction,
    constants: Vec<PoolConstant>,
}

impl Finished {
    /// The code over roles.
    pub fn code(&self) -> &[u8] {
        &self.function.bytecode
    }
}

/// Emits, rewrites and patches a program.
pub fn compile(input: &Input) -> Result<Finished, Fault> {
    rules::set(&input.rules);
    let mut emitter = Emitter::new();
    let mut ctx = CompileContext::default();
    // 01: the header's position holds until a nested block sets one.
    record_position(&mut emitter, &mut ctx, &input.program.header);
    let emitted = emit_body(&mut emitter, &mut ctx, &input.program.statements);
    if let Some(number) = limits::take() {
        return Err(Fault::Refused(Refusal::at(number, 0)));
    }
    emitted.map_err(fault)?;
    let function = finalize_function(&mut emitter, &mut ctx).map_err(fault)?;
    let finished = Finished { function, constants: ctx.constants };
    if cuts::take() {
        return Err(Fault::Cut(finished));
    }
    Ok(finished)
}

/// A loop that is not open is refusal 4, at the statement's line.
fn fault(diagnostic: Diagnostic) -> Fault {
    match diagnostic.span {
        Some(span) if diagnostic.message.ends_with("does not enclose the statement") => {
            Fault::Refused(Refusal::at(4, span.row))
        }
        _ => Fault::Broken(diagnostic.message),
    }
}

pub fn print(sheet: &Sheet, finished: &Finished) -> String {
    let Finished { function, constants } = finished;
    let (code, depth, entries) = (&function.bytecode, function.max_stack_depth, &function.line_map);
    let mut text = format!("0,{},{depth},{},{}\n", code.len(), constants.len(), entries.len());
    for constant in constants {
        if let PoolConstant::I32(value) = constant {
            let _ = writeln!(text, "k,{value}");
        }
    }
    for entry in entries {
        let (line, column) = (entry.source_line.0, entry.source_column.0);
        let _ = writeln!(text, "l,{},{line},{column}", entry.bytecode_offset);
    }
    for (offset, instruction) in instructions(code) {
        print_instruction(&mut text, offset, &sheet.bytes_of(instruction, true));
    }
    text
}

pub fn print_instruction(text: &mut String, offset: usize, bytes: &[u8]) {
    let _ = write!(text, "b,{offset}");
    for byte in bytes {
        let _ = write!(text, ",{byte}");
    }
    text.push('\n');
}
