//! The lowered tree of 01's statements and expressions, over one type: signed 32 bits.

use std::fmt;

use ironplc_container::VarIndex;

use crate::{LeftOut, SourceSpan};

/// The program that a tree belongs to: 01's has no types of its own.
pub struct Program;

impl Program {
    pub fn types(&self) -> &TypeTable {
        &TypeTable
    }
}

pub struct TypeTable;

impl TypeTable {
    /// No variable is narrower than 32 bits.
    pub fn narrowed_storage(&self, _ty: TypeId) -> Option<NarrowWidth> {
        None
    }

    pub fn value_range(&self, _ty: TypeId) -> Option<(i128, i128)> {
        Some((i32::MIN.into(), i32::MAX.into()))
    }
}

#[derive(Clone, Copy)]
pub struct TypeId;

#[derive(Clone, Copy)]
pub struct ScalarType;

#[derive(Clone, Copy)]
pub enum NarrowWidth {
    B8,
    B16,
    B32,
}

/// A variable.
pub struct Place(pub VarIndex);

impl Place {
    pub fn ty(&self) -> TypeId {
        TypeId
    }
}

#[derive(Clone, Copy)]
pub enum Const {
    Bool(bool),
    I32(i32),
    I64(i64),
    F32(f32),
    F64(f64),
}

impl Const {
    /// The integer that a comparison with this constant is fused on. 01: B is never fused.
    pub fn integer_value(self, _ty: ScalarType) -> Option<i128> {
        match self {
            Const::I32(value) => Some(value.into()),
            Const::I64(value) => Some(value.into()),
            Const::Bool(_) | Const::F32(_) | Const::F64(_) => None,
        }
    }
}

/// Whether a `For` of this step counts down. 01: negative steps do.
pub fn counts_down(step: Const, ty: ScalarType) -> bool {
    step.integer_value(ty).is_some_and(|step| step < 0)
}

pub struct Expr {
    pub kind: ExprKind,
    pub span: SourceSpan,
}

impl Expr {
    pub fn kind(&self) -> &ExprKind {
        &self.kind
    }

    pub fn span(&self) -> &SourceSpan {
        &self.span
    }

    pub fn ty(&self) -> ScalarType {
        ScalarType
    }
}

pub enum ExprKind {
    Const(Const),
    Read(Place),
    Unary { op: UnaryOp, value: Box<Expr> },
    Binary { op: BinaryOp, lhs: Box<Expr>, rhs: Box<Expr> },
    Compare { op: CompareOp, lhs: Box<Expr>, rhs: Box<Expr> },
    ShortCircuit { op: ShortCircuitOp, lhs: Box<Expr>, rhs: Box<Expr> },
    // Left out by 01: the reader makes none of these.
    Null,
    RefTo(LeftOut),
    Convert(Box<Expr>),
    ConvertChecked(Box<Expr>),
    Truncate { value: Box<Expr>, width: NarrowWidth },
    Call { callee: Callee, args: Vec<LeftOut> },
    InPlaceCall(LeftOut),
}

pub enum Callee {
    User(LeftOut),
    Intrinsic(LeftOut),
}

#[derive(Clone, Copy)]
pub enum UnaryOp {
    Neg,
    BoolNot,
    BitNot,
}

#[derive(Clone, Copy)]
pub enum BinaryOp {
    Add,
    Sub,
    Mul,
    Div,
    Mod,
    BoolAnd,
    BoolOr,
    BoolXor,
    BitAnd,
    BitOr,
    BitXor,
}

#[derive(Clone, Copy)]
pub enum CompareOp {
    Eq,
    Ne,
    Lt,
    Le,
    Gt,
    Ge,
}

#[derive(Clone, Copy)]
pub enum ShortCircuitOp {
    AndThen,
    OrElse,
}

#[derive(Clone, Copy, PartialEq)]
pub struct LoopId(pub u16);

impl fmt::Display for LoopId {
    fn fmt(&self, f: &mut fmt::Formatter<'_>) -> fmt::Result {
        write!(f, "loop {}", self.0)
    }
}

pub struct Stmt {
    pub kind: StmtKind,
    pub span: SourceSpan,
}

impl Stmt {
    pub fn kind(&self) -> &StmtKind {
        &self.kind
    }

    pub fn span(&self) -> &SourceSpan {
        &self.span
    }
}

pub enum StmtKind {
    Assign { place: Place, value: Expr },
    If { cond: Expr, then: Vec<Stmt>, otherwise: Vec<Stmt> },
    Case { selector: Expr, arms: Vec<CaseArm>, otherwise: Vec<Stmt> },
    For { id: LoopId, control: Place, from: Expr, to: Expr, step: Const, body: Vec<Stmt> },
    Loop { id: LoopId, body: Vec<Stmt>, continuing: Vec<Stmt> },
    Exit(LoopId),
    Continue(LoopId),
    Return,
    // Left out by 01.
    AssignStr { place: LeftOut, value: LeftOut },
    AssignBits { place: Place, shift: LeftOut, bits: LeftOut, value: Expr },
    Copy { dst: LeftOut, src: LeftOut },
    FbCall { instance: LeftOut },
    Call { call: LeftOut },
}

pub struct CaseArm {
    pub labels: Vec<CaseLabel>,
    pub body: Vec<Stmt>,
}

impl CaseArm {
    pub fn labels(&self) -> &[CaseLabel] {
        &self.labels
    }

    pub fn body(&self) -> &[Stmt] {
        &self.body
    }
}

#[derive(Clone, Copy)]
pub enum CaseLabel {
    Value(Const),
    Range(Const, Const),
}
