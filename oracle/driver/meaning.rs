//! What a dial program makes of its variables, statement by statement: a reading of 01, of 02's L13 and of IEC 61131-3 without labels or places. It is
//! written from these papers alone, NOT from the definition and NOT from the Rust, so that both can be held against it.

use std::fmt;

use ironplc_ir::lowered::{
    BinaryOp, CaseArm, CaseLabel, CompareOp, Const, Expr, ExprKind, LoopId, Place, ShortCircuitOp, Stmt, StmtKind,
    UnaryOp,
};
use oracle::reader::Program;

/// The bits of a variable: results wrap there.
const WIDTH: u32 = 32;

pub type Value = i64;

/// How a run comes out.
#[derive(Clone, Copy, Debug, PartialEq)]
pub enum Outcome {
    /// At the program's end or at RETURN.
    Ended,
    /// At a zero divisor.
    Stopped,
    /// It went back to the head of a loop more often than its budget says.
    Running,
}

impl fmt::Display for Outcome {
    fn fmt(&self, f: &mut fmt::Formatter<'_>) -> fmt::Result {
        f.write_str(match self {
            Outcome::Ended => "ended",
            Outcome::Stopped => "stopped",
            Outcome::Running => "running",
        })
    }
}

pub struct Meant {
    pub outcome: Outcome,
    pub variables: Vec<Value>,
    /// How many statements, expressions, labels and passes were gone through.
    pub work: u64,
    /// How many passes went back to their loop's head.
    pub passes: u64,
    /// How many values were stored.
    pub stores: u64,
}

/// Why what follows a statement or an expression is not done next.
enum Leave {
    Exit(LoopId),
    Continue(LoopId),
    Return,
    ZeroDivisor,
    OutOfBudget,
}

type Flow<T = ()> = Result<T, Leave>;

/// Runs `program` from these values, for at most `budget` passes that go back to their loop's head.
pub fn meant(program: &Program, start: &[Value], budget: u64) -> Result<Meant, String> {
    let mut run = Run { variables: start.to_vec(), budget, work: 0, passes: 0, stores: 0 };
    let outcome = match run.block(&program.statements) {
        Ok(()) | Err(Leave::Return) => Outcome::Ended,
        Err(Leave::ZeroDivisor) => Outcome::Stopped,
        Err(Leave::OutOfBudget) => Outcome::Running,
        Err(Leave::Exit(id) | Leave::Continue(id)) => return Err(format!("{id} is not open: that is refusal 4")),
    };
    let Run { variables, work, passes, stores, .. } = run;
    Ok(Meant { outcome, variables, work, passes, stores })
}

struct Run {
    variables: Vec<Value>,
    budget: u64,
    work: u64,
    passes: u64,
    stores: u64,
}

/// A FOR without its start.
struct Count<'t> {
    id: LoopId,
    control: &'t Place,
    to: &'t Expr,
    step: Value,
    body: &'t [Stmt],
}

impl Run {
    fn block(&mut self, block: &[Stmt]) -> Flow {
        block.iter().try_for_each(|stmt| self.statement(stmt))
    }

    fn statement(&mut self, stmt: &Stmt) -> Flow {
        self.work += 1;
        match &stmt.kind {
            StmtKind::Assign { place, value } => self.assign(place, value),
            StmtKind::If { cond, then, otherwise } => {
                let chosen = if holds(self.value(cond)?) { then } else { otherwise };
                self.block(chosen)
            }
            StmtKind::Case { selector, arms, otherwise } => self.case(selector, arms, otherwise),
            StmtKind::For { id, control, from, to, step, body } => {
                self.assign(control, from)?;
                self.count(&Count { id: *id, control, to, step: literal(*step), body })
            }
            StmtKind::Loop { id, body, continuing } => self.repeat(*id, body, continuing),
            StmtKind::Exit(id) => Err(Leave::Exit(*id)),
            StmtKind::Continue(id) => Err(Leave::Continue(*id)),
            StmtKind::Return => Err(Leave::Return),
            _ => unreachable!("left out by 01"),
        }
    }

    fn assign(&mut self, place: &Place, value: &Expr) -> Flow {
        let value = self.value(value)?;
        self.store(place, value);
        Ok(())
    }

    fn store(&mut self, place: &Place, value: Value) {
        self.stores += 1;
        self.variables[usize::from(place.0 .0)] = value;
    }

    fn read(&self, place: &Place) -> Value {
        self.variables[usize::from(place.0 .0)]
    }

    /// The first arm with a fitting label runs: one without labels never does.
    fn case(&mut self, selector: &Expr, arms: &[CaseArm], otherwise: &[Stmt]) -> Flow {
        let selector = self.value(selector)?;
        let chosen = arms.iter().find(|arm| self.fits(arm, selector));
        self.block(chosen.map_or(otherwise, CaseArm::body))
    }

    fn fits(&mut self, arm: &CaseArm, selector: Value) -> bool {
        self.work += 1 + arm.labels.len() as u64;
        arm.labels.iter().any(|label| match *label {
            CaseLabel::Value(value) => selector == literal(value),
            CaseLabel::Range(low, high) => literal(low) <= selector && selector <= literal(high),
        })
    }

    /// The end is worked out before each pass.
    fn count(&mut self, count: &Count) -> Flow {
        loop {
            let (at, end) = (self.read(count.control), self.value(count.to)?);
            let past = if count.step < 0 { at < end } else { at > end };
            if past || !self.goes_on(count.id, count.body)? {
                return Ok(());
            }
            let next = wrapped(i128::from(self.read(count.control)) + i128::from(count.step));
            self.store(count.control, next);
            self.go_back()?;
        }
    }

    fn repeat(&mut self, id: LoopId, body: &[Stmt], continuing: &[Stmt]) -> Flow {
        let until = until(id, continuing);
        while self.goes_on(id, body)? {
            match until {
                Some(until) if holds(self.value(until)?) => return Ok(()),
                Some(_) => {}
                // It lies outside the loop, so that its jumps are those of the loops around.
                None => self.block(continuing)?,
            }
            self.go_back()?;
        }
        Ok(())
    }

    /// One pass over a loop's body; whether the loop goes on after it. Jumps of other loops go on outwards.
    fn goes_on(&mut self, id: LoopId, body: &[Stmt]) -> Flow<bool> {
        match self.block(body) {
            Err(Leave::Exit(left)) if left == id => Ok(false),
            Err(Leave::Continue(continued)) if continued == id => Ok(true),
            flow => flow.map(|()| true),
        }
    }

    fn go_back(&mut self) -> Flow {
        self.work += 1;
        if self.passes == self.budget {
            return Err(Leave::OutOfBudget);
        }
        self.passes += 1;
        Ok(())
    }

    fn value(&mut self, expr: &Expr) -> Flow<Value> {
        self.work += 1;
        Ok(match &expr.kind {
            ExprKind::Const(constant) => literal(*constant),
            ExprKind::Read(place) => self.read(place),
            ExprKind::Unary { op, value } => unary(*op, self.value(value)?),
            ExprKind::Binary { op, lhs, rhs } => {
                let (left, right) = (self.value(lhs)?, self.value(rhs)?);
                binary(*op, left, right).ok_or(Leave::ZeroDivisor)?
            }
            ExprKind::Compare { op, lhs, rhs } => {
                let (left, right) = (self.value(lhs)?, self.value(rhs)?);
                Value::from(compares(*op, left, right))
            }
            ExprKind::ShortCircuit { op, lhs, rhs } => match (op, holds(self.value(lhs)?)) {
                (ShortCircuitOp::AndThen, false) => 0,
                (ShortCircuitOp::OrElse, true) => 1,
                // The left side does not decide: the right side's value, as it is.
                _ => self.value(rhs)?,
            },
            _ => unreachable!("left out by 01"),
        })
    }
}

/// The condition of a REPEAT: a `continuing` of one IF, with this loop's EXIT alone in then and an empty else.
fn until(id: LoopId, continuing: &[Stmt]) -> Option<&Expr> {
    let [Stmt { kind: StmtKind::If { cond, then, otherwise }, .. }] = continuing else { return None };
    match then.as_slice() {
        [Stmt { kind: StmtKind::Exit(left), .. }] if *left == id && otherwise.is_empty() => Some(cond),
        _ => None,
    }
}

/// 0 counts as false, all else as true.
fn holds(value: Value) -> bool {
    value != 0
}

fn literal(constant: Const) -> Value {
    match constant {
        Const::Bool(value) => value.into(),
        Const::I32(value) => value.into(),
        Const::I64(value) => value,
        Const::F32(_) | Const::F64(_) => unreachable!("left out by 01"),
    }
}

/// The low bits of an exact result, as a signed number.
fn wrapped(exact: i128) -> Value {
    let unused = i128::BITS - WIDTH;
    ((exact << unused) >> unused) as Value
}

fn unary(op: UnaryOp, value: Value) -> Value {
    match op {
        UnaryOp::Neg => wrapped(-i128::from(value)),
        UnaryOp::BoolNot => Value::from(!holds(value)),
        UnaryOp::BitNot => unreachable!("left out by 01"),
    }
}

/// None at a zero divisor.
fn binary(op: BinaryOp, left: Value, right: Value) -> Option<Value> {
    let (a, b) = (i128::from(left), i128::from(right));
    Some(match op {
        BinaryOp::Add => wrapped(a + b),
        BinaryOp::Sub => wrapped(a - b),
        BinaryOp::Mul => wrapped(a * b),
        BinaryOp::Div => wrapped(a.checked_div(b)?),
        // As IEC 61131-3 has it: what the quotient, its fraction dropped, leaves.
        BinaryOp::Mod => wrapped(a - a.checked_div(b)? * b),
        BinaryOp::BoolAnd => Value::from(holds(left) && holds(right)),
        BinaryOp::BoolOr => Value::from(holds(left) || holds(right)),
        BinaryOp::BoolXor => Value::from(holds(left) != holds(right)),
        BinaryOp::BitAnd | BinaryOp::BitOr | BinaryOp::BitXor => unreachable!("left out by 01"),
    })
}

fn compares(op: CompareOp, left: Value, right: Value) -> bool {
    match op {
        CompareOp::Eq => left == right,
        CompareOp::Ne => left != right,
        CompareOp::Lt => left < right,
        CompareOp::Le => left <= right,
        CompareOp::Gt => left > right,
        CompareOp::Ge => left >= right,
    }
}
