//! The definition's limits (`crates/definition/specs/Limits.antt`); `tests/header` holds them against each other.

/// Bytes of code, emitted and finished: its end is a place too, and fits 16 bits.
pub const MAX_CODE: usize = 65535;
/// Bytes that a branch of finished code leads back at most, from the byte behind it.
pub const MAX_BACK: usize = 32768;
/// Bytes that it leads forward at most, from there.
pub const MAX_FORWARD: usize = 32767;
/// Constants.
pub const MAX_CONSTANTS: usize = 1024;
/// Line entries.
pub const MAX_LINES: usize = 4096;
/// Numbers of a line entry: offset, line, column.
pub const ENTRY_SIZE: usize = 3;
/// Protected offsets of rewriting called alone.
pub const MAX_PROTECTED: usize = 4096;
/// Labels that emission creates.
pub const MAX_LABELS: usize = 4096;
/// Branches in the code: the smallest has three bytes.
pub const MAX_BRANCHES: usize = MAX_CODE / 3;
/// Branch outcomes of the slowest call.
pub const MAX_OUTCOMES: usize = 21845;
/// Bytes of a program.
pub const MAX_PROGRAM: usize = 65536;
/// Nesting levels of a program.
pub const MAX_NESTING: usize = 64;
/// Variables of a program.
pub const MAX_VARIABLES: usize = 1024;
/// The largest number of a field that is no value.
pub const MAX_FIELD: usize = 65535;
/// Lines of a rule file.
pub const MAX_RULES: usize = 64;
/// Passes of the rewriter.
pub const PASS_COUNT: usize = 3;
/// Bits of a value.
pub const WIDTH: usize = 32;

/// Bytes of stack for a thread that calls.
pub const STACK: usize = 1048576;

// Numbers of an answer of the call, of rewriting called alone, of the check of an image, and of the slowest call.
pub(crate) const COMPILED: usize = 6;
pub(crate) const REWRITTEN: usize = 5;
pub(crate) const CHECKED: usize = 2;
pub(crate) const MEASURED: usize = 5;
