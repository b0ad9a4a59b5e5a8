//! A plain reading of 01's three files and their refusals. None of it is from the Rust.

use ironplc_container::{SourceColumn, SourceFileId, SourceLine, VarIndex};
use ironplc_ir::lowered::{
    BinaryOp, CaseArm, CaseLabel, CompareOp, Const, Expr, ExprKind, LoopId, Place, ShortCircuitOp, Stmt, StmtKind,
    UnaryOp,
};
use ironplc_ir::{Position, SourceSpan};

use crate::limits;
use crate::rules::{Action, Rule, Test};
use crate::sheet::{Sheet, COMPARISONS, ROLES};

#[derive(Debug)]
pub struct Refusal {
    pub number: u8,
    pub place: usize,
}

impl Refusal {
    pub fn at(number: u8, place: usize) -> Self {
        Refusal { number, place }
    }
}

pub struct Program {
    pub variables: usize,
    pub header: SourceSpan,
    pub statements: Vec<Stmt>,
}

pub struct Input {
    pub sheet: Sheet,
    pub rules: Vec<Rule>,
    pub program: Program,
}

/// The listing program's input.
pub fn read(text: &[u8]) -> Result<Input, Refusal> {
    let (sheet, rules, program) = read_head(text)?;
    let program = read_program(program)?;
    Ok(Input { sheet, rules, program })
}

/// The sheet and the rules, and the text after them.
pub fn read_head(text: &[u8]) -> Result<(Sheet, Vec<Rule>, &[u8]), Refusal> {
    let (line, rest) = split_line(text).ok_or(Refusal::at(7, 0))?;
    let sheet = read_sheet(line)?;
    let (count, mut rest) = split_line(rest)
        .and_then(|(line, rest)| Some((number(line, false)?, rest)))
        .filter(|(count, _)| *count <= limits::RULES as i64)
        .ok_or(Refusal::at(9, 0))?;
    let mut rules = Vec::new();
    while (rules.len() as i64) < count && !rest.is_empty() {
        let place = rules.len() + 1;
        let (rule, after) =
            split_line(rest).and_then(|(line, after)| Some((read_rule(line)?, after))).ok_or(Refusal::at(9, place))?;
        rules.push(rule);
        rest = after;
    }
    Ok((sheet, rules, rest))
}

/// The first line, without its LF, and the text after it.
pub fn split_line(text: &[u8]) -> Option<(&[u8], &[u8])> {
    let end = text.iter().position(|byte| *byte == b'\n')?;
    Some((&text[..end], &text[end + 1..]))
}

/// Above every range: a longer number is held at this.
const HUGE: i64 = 1 << 40;

/// A well-formed number.
pub fn number(field: &[u8], signed: bool) -> Option<i64> {
    let (minus, digits) = match field {
        [b'-', digits @ ..] if signed => (true, digits),
        _ => (false, field),
    };
    let formed = match digits {
        [] => false,
        [b'0'] => !minus,
        [first, rest @ ..] => (b'1'..=b'9').contains(first) && rest.iter().all(u8::is_ascii_digit),
    };
    let size = || digits.iter().fold(0, |size, digit| (size * 10 + i64::from(digit - b'0')).min(HUGE));
    formed.then(|| if minus { -size() } else { size() })
}

/// The numbers of a line whose fields all lie in 0 to `greatest`.
pub fn numbers(line: &[u8], greatest: i64) -> Option<Vec<i64>> {
    line.split(|byte| *byte == b',').map(|field| number(field, false).filter(|value| *value <= greatest)).collect()
}

/// The sheet of a line without its LF.
pub fn read_sheet(line: &[u8]) -> Result<Sheet, Refusal> {
    let fields: Vec<&[u8]> = line.split(|byte| *byte == b',').collect();
    if fields.len() != ROLES + COMPARISONS {
        return Err(Refusal::at(7, 0));
    }
    let mut sheet = Sheet { opcodes: [0; ROLES], comparisons: [0; COMPARISONS] };
    for (index, field) in fields.iter().enumerate() {
        let fault = Refusal::at(7, index + 1);
        let byte = number(field, false).and_then(|value| u8::try_from(value).ok());
        let (group, at) = match index {
            0..ROLES => (&mut sheet.opcodes[..], index),
            _ => (&mut sheet.comparisons[..], index - ROLES),
        };
        match byte {
            Some(byte) if !group[..at].contains(&byte) => group[at] = byte,
            _ => return Err(fault),
        }
    }
    Ok(sheet)
}

const FIRST_BRANCH: i64 = 23;
const GREATEST_OPERAND: i64 = 1_023;

/// The change of height by role, up to the first branch.
const HEIGHTS: [i8; FIRST_BRANCH as usize] =
    [1, -1, 1, -1, 1, 1, 1, -1, -1, -1, -1, -1, 0, -1, -1, -1, 0, -1, -1, -1, -1, -1, -1];

fn read_rule(line: &[u8]) -> Option<Rule> {
    let fields: [i64; 9] = numbers(line, 65_535)?.try_into().ok()?;
    let [pass, first, second, test, number, one, its, two, other] = fields;
    let named = (1..=3).contains(&pass) && first < FIRST_BRANCH && second < FIRST_BRANCH;
    if !named {
        return None;
    }
    let has_operand = |role: i64| (2..=4).contains(&role);
    let number = number as u16;
    let test = match test {
        0 => Test::Always,
        1 if has_operand(first) && has_operand(second) => Test::Equal,
        2 if has_operand(first) => Test::First(number),
        3 if has_operand(second) => Test::Second(number),
        _ => return None,
    };
    let action = |role: i64, action: i64, operand: i64| match action {
        0 => Some((Action::Keep, 0)),
        1 => Some((Action::Remove, HEIGHTS[role as usize])),
        2 if (role == 2 || role == 3) && operand <= GREATEST_OPERAND => Some((Action::Rewrite(operand as u16), 0)),
        _ => None,
    };
    let (one, loses) = action(first, one, its)?;
    let (two, loses_too) = action(second, two, other)?;
    let rule = Rule { pass: pass as u8, roles: [first as u8, second as u8], test, actions: [one, two] };
    (loses + loses_too == 0).then_some(rule)
}

/// What a field of a program line may hold.
#[derive(Clone, Copy)]
enum Field {
    /// 0 to 65,535: a position, a count, a loop.
    Short,
    /// A signed 32-bit number.
    Value,
    /// How many variables there are.
    Variables,
    /// A variable's index.
    Variable,
    /// One of so many choices.
    Choice(i64),
}

use Field::{Choice, Short, Value, Variable, Variables};

/// The lines that may stand at one place: each letter with its fields.
type Forms = [(u8, &'static [Field])];

const HEADER: &Forms = &[(b'P', &[Variables, Short, Short, Short])];
const STATEMENT: &Forms = &[
    (b'A', &[Short, Short, Variable]),
    (b'I', &[Short, Short, Short, Short]),
    (b'S', &[Short, Short, Short, Short]),
    (b'F', &[Short, Short, Short, Variable, Value, Short]),
    (b'L', &[Short, Short, Short, Short, Short]),
    (b'X', &[Short, Short, Short]),
    (b'N', &[Short, Short, Short]),
    (b'R', &[Short, Short]),
];
const ARM: &Forms = &[(b'M', &[Short, Short])];
const LABEL: &Forms = &[(b'Q', &[Value]), (b'G', &[Value, Value])];
const EXPRESSION: &Forms = &[
    (b'K', &[Value]),
    (b'B', &[Choice(2)]),
    (b'D', &[Variable]),
    (b'O', &[Choice(8)]),
    (b'U', &[Choice(2)]),
    (b'C', &[Choice(6)]),
    (b'H', &[Choice(2)]),
];

struct Line {
    letter: u8,
    fields: Vec<i64>,
    row: usize,
}

impl Line {
    fn short(&self, field: usize) -> u16 {
        self.fields[field] as u16
    }

    fn count(&self, field: usize) -> usize {
        self.fields[field] as usize
    }

    fn value(&self, field: usize) -> Const {
        Const::I32(self.fields[field] as i32)
    }

    fn variable(&self, field: usize) -> Place {
        Place(VarIndex(self.short(field)))
    }

    /// The position in the two fields from `field` on.
    fn span(&self, field: usize) -> SourceSpan {
        let (line, column) = (SourceLine(self.short(field)), SourceColumn(self.short(field + 1)));
        SourceSpan { position: Position { file: SourceFileId(0), line, column }, row: self.row }
    }
}

struct Reader<'t> {
    lines: Vec<&'t [u8]>,
    next: usize,
    variables: i64,
}

fn read_program(text: &[u8]) -> Result<Program, Refusal> {
    let whole = match text {
        [lines @ .., b'\n'] if text.len() <= limits::PROGRAM_BYTES => lines,
        _ => return Err(Refusal::at(1, 0)),
    };
    let lines = whole.split(|byte| *byte == b'\n').collect();
    let mut reader = Reader { lines, next: 0, variables: 0 };
    let header = reader.line(0, HEADER)?;
    reader.variables = header.fields[0];
    let statements = reader.block(header.count(1), 1)?;
    if reader.next < reader.lines.len() {
        return Err(Refusal::at(6, reader.next + 1));
    }
    Ok(Program { variables: header.count(0), header: header.span(2), statements })
}

impl Reader<'_> {
    /// The next line, which stands at nesting `depth`: 6, 5, 2 and 3, in that order.
    fn line(&mut self, depth: usize, forms: &Forms) -> Result<Line, Refusal> {
        let row = self.next + 1;
        let text = self.lines.get(self.next).ok_or(Refusal::at(6, row))?;
        if depth > limits::NESTING {
            return Err(Refusal::at(5, row));
        }
        let (letter, kinds, fields) = formed(text, forms).ok_or(Refusal::at(2, row))?;
        if !kinds.iter().zip(&fields).all(|(kind, value)| self.in_range(*kind, *value)) {
            return Err(Refusal::at(3, row));
        }
        self.next += 1;
        Ok(Line { letter, fields, row })
    }

    fn in_range(&self, kind: Field, value: i64) -> bool {
        match kind {
            Short => value <= 65_535,
            Value => i32::try_from(value).is_ok(),
            Variables => value <= limits::VARIABLES,
            Variable => value < self.variables,
            Choice(choices) => value < choices,
        }
    }

    fn block(&mut self, count: usize, depth: usize) -> Result<Vec<Stmt>, Refusal> {
        (0..count).map(|_| self.statement(depth)).collect()
    }

    fn statement(&mut self, depth: usize) -> Result<Stmt, Refusal> {
        let line = self.line(depth, STATEMENT)?;
        let inside = depth + 1;
        let kind = match line.letter {
            b'A' => StmtKind::Assign { place: line.variable(2), value: self.expression(inside)? },
            b'I' => StmtKind::If {
                cond: self.expression(inside)?,
                then: self.block(line.count(2), inside)?,
                otherwise: self.block(line.count(3), inside)?,
            },
            b'S' => StmtKind::Case {
                selector: self.expression(inside)?,
                arms: (0..line.count(2)).map(|_| self.arm(inside)).collect::<Result<_, _>>()?,
                otherwise: self.block(line.count(3), inside)?,
            },
            b'F' => StmtKind::For {
                id: LoopId(line.short(2)),
                control: line.variable(3),
                step: line.value(4),
                from: self.expression(inside)?,
                to: self.expression(inside)?,
                body: self.block(line.count(5), inside)?,
            },
            b'L' => StmtKind::Loop {
                id: LoopId(line.short(2)),
                body: self.block(line.count(3), inside)?,
                continuing: self.block(line.count(4), inside)?,
            },
            b'X' => StmtKind::Exit(LoopId(line.short(2))),
            b'N' => StmtKind::Continue(LoopId(line.short(2))),
            _ => StmtKind::Return,
        };
        Ok(Stmt { kind, span: line.span(0) })
    }

    /// An arm, its labels and its body stand at one depth.
    fn arm(&mut self, depth: usize) -> Result<CaseArm, Refusal> {
        let line = self.line(depth, ARM)?;
        let labels = (0..line.count(0)).map(|_| self.label(depth)).collect::<Result<_, _>>()?;
        Ok(CaseArm { labels, body: self.block(line.count(1), depth)? })
    }

    fn label(&mut self, depth: usize) -> Result<CaseLabel, Refusal> {
        let line = self.line(depth, LABEL)?;
        Ok(match line.letter {
            b'Q' => CaseLabel::Value(line.value(0)),
            _ => CaseLabel::Range(line.value(0), line.value(1)),
        })
    }

    fn expression(&mut self, depth: usize) -> Result<Expr, Refusal> {
        let line = self.line(depth, EXPRESSION)?;
        let mut side = || Ok(Box::new(self.expression(depth + 1)?));
        let choice = line.count(0);
        let kind = match line.letter {
            b'K' => ExprKind::Const(line.value(0)),
            b'B' => ExprKind::Const(Const::Bool(choice == 1)),
            b'D' => ExprKind::Read(line.variable(0)),
            b'O' => ExprKind::Binary { op: BINARY[choice], lhs: side()?, rhs: side()? },
            b'U' => ExprKind::Unary { op: [UnaryOp::Neg, UnaryOp::BoolNot][choice], value: side()? },
            b'C' => ExprKind::Compare { op: COMPARE[choice], lhs: side()?, rhs: side()? },
            _ => ExprKind::ShortCircuit { op: SHORT_CIRCUIT[choice], lhs: side()?, rhs: side()? },
        };
        let nowhere = Position { file: SourceFileId(0), line: SourceLine(0), column: SourceColumn(0) };
        Ok(Expr { kind, span: SourceSpan { position: nowhere, row: line.row } })
    }
}

const BINARY: [BinaryOp; 8] = [
    BinaryOp::Add,
    BinaryOp::Sub,
    BinaryOp::Mul,
    BinaryOp::Div,
    BinaryOp::Mod,
    BinaryOp::BoolAnd,
    BinaryOp::BoolOr,
    BinaryOp::BoolXor,
];
const COMPARE: [CompareOp; 6] =
    [CompareOp::Eq, CompareOp::Ne, CompareOp::Lt, CompareOp::Le, CompareOp::Gt, CompareOp::Ge];
const SHORT_CIRCUIT: [ShortCircuitOp; 2] = [ShortCircuitOp::AndThen, ShortCircuitOp::OrElse];

/// The letter, the kinds of its fields and their numbers, if the line is of one of `forms`.
fn formed(text: &[u8], forms: &Forms) -> Option<(u8, &'static [Field], Vec<i64>)> {
    let mut parts = text.split(|byte| *byte == b',');
    let [letter] = parts.next()? else { return None };
    let (_, kinds) = forms.iter().find(|(form, _)| form == letter)?;
    let parts: Vec<&[u8]> = parts.collect();
    if parts.len() != kinds.len() {
        return None;
    }
    let fields: Option<Vec<i64>> =
        parts.iter().zip(*kinds).map(|(part, kind)| number(part, matches!(kind, Value))).collect();
    Some((*letter, kinds, fields?))
}
