//! The passes and the line mapping called alone, on code, protected offsets and line entries.

use std::fmt::Write;

use ironplc_container::{SourceColumn, SourceFileId, SourceLine};

use crate::emit::{EmittedLineMapEntry, UnpatchedCode};
use crate::limits;
use crate::listing::print_instruction;
use crate::optimize::{optimize, remap_line_map, OffsetMap};
use crate::reader::{numbers, read_head, split_line, Refusal};
use crate::rules::{self, Rule};
use crate::sheet::{instructions, Sheet};

/// Code over roles, and the offsets into it.
pub struct Request {
    sheet: Sheet,
    rules: Vec<Rule>,
    code: Vec<u8>,
    protected: Vec<usize>,
    entries: Vec<EmittedLineMapEntry>,
}

/// Why there is nothing to run.
pub enum Unread {
    Refused(Refusal),
    /// A line of code, protected offsets or an entry is malformed: its line in the input.
    Malformed(usize),
}

/// The sheet line, the rules, a line of code, a line of protected offsets, a line for each entry. The refusals
/// that 01 gives before anything runs are in its order: 7, 9, then a malformed line, 10, 11, 12, 8.
pub fn read(text: &[u8]) -> Result<Request, Unread> {
    let (sheet, rules, rest) = read_head(text).map_err(Unread::Refused)?;
    let mut lines = NumberLines { rest, row: rules.len() + 3 };
    let code: Vec<u8> = lines.list(255)?.into_iter().map(|byte| byte as u8).collect();
    let protected: Vec<usize> = lines.list(65_535)?.into_iter().map(|offset| offset as usize).collect();
    let mut entries = Vec::new();
    while !lines.rest.is_empty() {
        entries.push(lines.entry()?);
    }
    let refused = |number, place| Err(Unread::Refused(Refusal::at(number, place)));
    if code.len() > limits::CODE {
        return refused(10, 0);
    }
    if protected.len() > limits::LABELS {
        return refused(11, 0);
    }
    if entries.len() > limits::ENTRIES {
        return refused(12, 0);
    }
    let code = match sheet.to_roles(&code) {
        Ok(code) => code,
        Err(offset) => return refused(8, offset),
    };
    let mut starts: Vec<bool> = vec![false; code.len() + 1];
    instructions(&code).for_each(|(offset, _)| starts[offset] = true);
    starts[code.len()] = true;
    let named = protected.iter().copied().chain(entries.iter().map(|entry| entry.bytecode_offset.into()));
    if let Some(offset) = named.into_iter().find(|offset| !starts.get(*offset).is_some_and(|start| *start)) {
        return refused(8, offset);
    }
    Ok(Request { sheet, rules, code, protected, entries })
}

/// Lines of numbers, and the row of the next in the input.
struct NumberLines<'t> {
    rest: &'t [u8],
    row: usize,
}

impl NumberLines<'_> {
    fn line(&mut self, greatest: i64) -> Option<Vec<i64>> {
        let (line, rest) = split_line(self.rest)?;
        let fields = if line.is_empty() { Vec::new() } else { numbers(line, greatest)? };
        self.rest = rest;
        self.row += 1;
        Some(fields)
    }

    fn list(&mut self, greatest: i64) -> Result<Vec<i64>, Unread> {
        let row = self.row;
        self.line(greatest).ok_or(Unread::Malformed(row))
    }

    fn entry(&mut self) -> Result<EmittedLineMapEntry, Unread> {
        let row = self.row;
        let fields: [i64; 3] = self.list(65_535)?.try_into().map_err(|_| Unread::Malformed(row))?;
        let [offset, line, column] = fields.map(|field| field as u16);
        Ok(EmittedLineMapEntry {
            bytecode_offset: offset,
            file_id: SourceFileId(0),
            source_line: SourceLine(line),
            source_column: SourceColumn(column),
        })
    }
}

/// Rewritten code over roles, and where each start moved.
pub struct Rewritten {
    code: Vec<u8>,
    map: OffsetMap,
}

/// The three passes.
pub fn rewrite(request: &Request) -> Rewritten {
    rules::set(&request.rules);
    let jump_targets = request.protected.iter().copied().collect();
    let (code, map) = optimize(UnpatchedCode { bytecode: &request.code, jump_targets }, &mut Vec::new());
    Rewritten { code, map }
}

/// The entries that are kept, at their new offsets; else an error of the published code that 01 has no number for.
pub fn remap(request: &Request, rewritten: &Rewritten) -> Result<Vec<EmittedLineMapEntry>, String> {
    remap_line_map(request.entries.clone(), &rewritten.map, rewritten.code.len() as u16)
        .map_err(|diagnostic| diagnostic.message)
}

pub fn print(request: &Request, rewritten: &Rewritten, entries: &[EmittedLineMapEntry]) -> String {
    let Rewritten { code, map } = rewritten;
    let mut text = format!("0,{},{},{}\n", code.len(), request.protected.len(), entries.len());
    for offset in &request.protected {
        let _ = writeln!(text, "p,{}", map[offset]);
    }
    for entry in entries {
        let (line, column) = (entry.source_line.0, entry.source_column.0);
        let _ = writeln!(text, "l,{},{line},{column}", entry.bytecode_offset);
    }
    for (offset, instruction) in instructions(code) {
        print_instruction(&mut text, offset, &request.sheet.bytes_of(instruction, false));
    }
    text
}
