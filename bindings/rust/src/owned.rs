//! The calls with outputs of their own.

use alloc::vec;
use alloc::vec::Vec;

use crate::{compile_into, rewrite_alone_into, slowest_into};
use crate::{CompiledIn, LineEntry, Refusal, RewrittenIn, SlowestIn};
use crate::{MAX_CODE, MAX_CONSTANTS, MAX_LINES, MAX_OUTCOMES, MAX_PROTECTED};

/// What a dial program became.
#[derive(Clone, Debug, PartialEq, Eq)]
pub struct Compiled {
    /// Finished code.
    pub code: Vec<u8>,
    /// The constants that the code names by index.
    pub constants: Vec<i32>,
    /// The line entries.
    pub lines: Vec<LineEntry>,
    /// No run of the code goes above this height of the stack.
    pub depth: u64,
}

/// What rewriting called alone made of code.
#[derive(Clone, Debug, PartialEq, Eq)]
pub struct Rewritten {
    /// The code after the three passes; branch bytes are copied as they are.
    pub code: Vec<u8>,
    /// The protected offsets as moved, in the order in which they were given.
    pub protected: Vec<u16>,
    /// The line entries that were kept, at their new offsets.
    pub lines: Vec<LineEntry>,
}

/// How many instructions a call of code can take.
#[derive(Clone, Debug, PartialEq, Eq)]
pub enum Slowest {
    /// The code holds a branch to its own start or before it, reached or not: there is no count.
    Loops,
    /// Every branch leads forward; this is the longest run.
    Run {
        /// Instructions on it, a RET counted.
        count: u64,
        /// Whether each conditional branch on it is taken, in order.
        outcomes: Vec<bool>,
    },
}

/// Turns a dial program into branch code.
///
/// `sheet` is the opcode sheet, one line with its LF; `rules` the rule file, 0 to [`MAX_RULES`](crate::MAX_RULES) lines; `program` the program.
pub fn compile(sheet: &[u8], rules: &[u8], program: &[u8]) -> Result<Compiled, Refusal> {
    let (mut code, mut constants, mut lines) = (vec![0; MAX_CODE], vec![0; MAX_CONSTANTS], no_entries());
    let CompiledIn { depth, code: bytes, constants: pool, lines: entries } =
        compile_into(sheet, rules, program, &mut code, &mut constants, &mut lines)?;
    Ok(Compiled { code: bytes.to_vec(), constants: pool.to_vec(), lines: entries.to_vec(), depth })
}

/// Rewrites code and maps its line entries.
///
/// `code` is the code to rewrite, `protected` the offsets at which no pair may be rewritten, `lines` the line entries; each offset must be an
/// instruction's start or the end.
pub fn rewrite_alone(
    sheet: &[u8],
    rules: &[u8],
    code: &[u8],
    protected: &[u16],
    lines: &[LineEntry],
) -> Result<Rewritten, Refusal> {
    let (mut bytes, mut offsets, mut entries) = (vec![0; MAX_CODE], vec![0; MAX_PROTECTED], no_entries());
    let RewrittenIn { code, protected, lines } =
        rewrite_alone_into(sheet, rules, code, protected, lines, &mut bytes, &mut offsets, &mut entries)?;
    Ok(Rewritten { code: code.to_vec(), protected: protected.to_vec(), lines: lines.to_vec() })
}

/// The slowest call of code, an image's or what [`compile`] gave back, with its depth.
///
/// Of equally long runs it is the one that falls through where they first differ. The refusal is the first of 7, 10, 20 and 21 that holds, as
/// [`check_image`](crate::check_image) gives it. Which variables and constants the code names is not looked at.
///
/// ```
/// # use mezhukan::Slowest;
/// # let sheet = b"1,2,3,4,5,6,7,8,9,10,11,12,13,14,15,16,17,18,19,20,21,22,23,24,25,26,27,1,2,3,4,5,6\n";
/// let longer_if_taken = [6, 25, 1, 0, 27, 6, 2, 27];
/// assert_eq!(mezhukan::slowest(sheet, &longer_if_taken, 1)?, Slowest::Run { count: 5, outcomes: vec![true] });
///
/// let jump_to_itself = [24, 253, 255];
/// assert_eq!(mezhukan::slowest(sheet, &jump_to_itself, 0)?, Slowest::Loops);
/// # Ok::<(), mezhukan::Refusal>(())
/// ```
pub fn slowest(sheet: &[u8], code: &[u8], depth: u64) -> Result<Slowest, Refusal> {
    let mut bytes = vec![0; MAX_OUTCOMES];
    Ok(match slowest_into(sheet, code, depth, &mut bytes)? {
        SlowestIn::Loops => Slowest::Loops,
        SlowestIn::Run { count, outcomes } => {
            Slowest::Run { count, outcomes: outcomes.iter().map(|taken| *taken != 0).collect() }
        }
    })
}

fn no_entries() -> Vec<LineEntry> {
    vec![LineEntry::default(); MAX_LINES]
}
