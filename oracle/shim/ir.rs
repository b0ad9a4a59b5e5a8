//! Stands for the IR crate: spans, diagnostics, and what 01 leaves out.

pub mod lowered;

use ironplc_container::{SourceColumn, SourceFileId, SourceLine};

/// What 01 leaves out: there is no value of it, so an arm that needs one never runs.
#[derive(Clone, Copy)]
pub enum LeftOut {}

impl From<LeftOut> for u32 {
    fn from(left_out: LeftOut) -> u32 {
        match left_out {}
    }
}

/// A position in the source.
#[derive(Clone, Copy)]
pub struct Position {
    pub file: SourceFileId,
    pub line: SourceLine,
    pub column: SourceColumn,
}

/// Where a statement stands: its position in the source, and its line in the program file.
#[derive(Clone)]
pub struct SourceSpan {
    pub position: Position,
    pub row: usize,
}

#[derive(Default)]
pub struct FileId;

/// What a diagnostic points at.
pub struct Label {
    span: Option<SourceSpan>,
    message: String,
}

impl Label {
    pub fn span(span: SourceSpan, message: impl Into<String>) -> Self {
        Label { span: Some(span), message: message.into() }
    }

    pub fn file(_file: FileId, message: impl Into<String>) -> Self {
        Label { span: None, message: message.into() }
    }
}

/// An error of the published code.
pub struct Diagnostic {
    pub span: Option<SourceSpan>,
    pub message: String,
}

impl Diagnostic {
    pub fn internal_error() -> Self {
        Diagnostic { span: None, message: "internal error".to_string() }
    }

    pub fn internal_error_at(label: Label) -> Self {
        Diagnostic { span: label.span, message: label.message }
    }
}
