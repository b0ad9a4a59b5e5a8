//! Mezhukan for Rust: a dial program turned into branch code, rewriting called alone, the check of an image, and the slowest call.
//!
//! What is proved of the four functions behind this crate stands in `crates/mezhukan/src/lib.rt` of the repository: for every content of the
//! inputs, and outputs of every length, the answer is the definition's. So nothing is required of a caller, and nothing here panics on
//! account of an input. This crate itself is not proved: it hands slices over and takes the answer apart.
//!
//! ```
//! let sheet = b"1,2,3,4,5,6,7,8,9,10,11,12,13,14,15,16,17,18,19,20,21,22,23,24,25,26,27,1,2,3,4,5,6\n";
//! let compiled = mezhukan::compile(sheet, b"", b"P,1,1,1,1\nA,1,1,0\nK,7\n")?;
//! assert_eq!(compiled.code, [5, 0, 0, 4, 0, 0]);
//! assert_eq!((compiled.constants, compiled.depth), (vec![7], 1));
//!
//! let refusal = mezhukan::compile(sheet, b"", b"P,1,1,1,1\nA,1,1,1\nK,7\n").unwrap_err();
//! assert_eq!(refusal.reason(), Some(mezhukan::Reason::BadRange));
//! assert_eq!(refusal.to_string(), "3,2: number outside its range, at line 2 of the program");
//! # Ok::<(), mezhukan::Refusal>(())
//! ```
//!
//! # Linking
//!
//! The library is a static one for x86-64, which `tools/build mezhukan` writes to `target/staticlib/libmezhukan.a`. The environment
//! variable `MEZHUKAN_LIB` names its folder, as an absolute path, when this crate is built.
//!
//! # Stack, heap and threads
//!
//! A call keeps nothing between calls, so threads may call at once. It takes its room from the stack, the more the deeper a program nests;
//! `docs/DECISIONS.md` of the repository has what was measured. Give a thread [`STACK`] bytes; Rust's own threads have more. The library uses
//! no heap: [`compile`], [`rewrite_alone`] and [`slowest`] make vectors for the outputs, [`compile_into`], [`rewrite_alone_into`],
//! [`slowest_into`] and [`check_image`] do not, and are all that is left without the feature `alloc`.

#![no_std]
#![deny(missing_docs)]
#![deny(unsafe_op_in_unsafe_fn)]

#[cfg(feature = "alloc")]
extern crate alloc;

mod limits;
#[cfg(feature = "alloc")]
mod owned;
mod refusal;

pub use limits::*;
#[cfg(feature = "alloc")]
pub use owned::{compile, rewrite_alone, slowest, Compiled, Rewritten, Slowest};
pub use refusal::{Reason, Refusal};

extern "C" {
    fn mezhukan_compile(
        sheet: *const u8,
        sheet_length: usize,
        rules: *const u8,
        rules_length: usize,
        program: *const u8,
        program_length: usize,
        code: *mut u8,
        code_length: usize,
        constants: *mut u32,
        constants_length: usize,
        lines: *mut u16,
        lines_length: usize,
        answer: *mut [u64; COMPILED],
    ) -> u8;

    fn mezhukan_rewrite_alone(
        sheet: *const u8,
        sheet_length: usize,
        rules: *const u8,
        rules_length: usize,
        code: *const u8,
        code_length: usize,
        protected: *const u16,
        protected_length: usize,
        lines: *const u16,
        lines_length: usize,
        bytes: *mut u8,
        bytes_length: usize,
        offsets: *mut u16,
        offsets_length: usize,
        entries: *mut u16,
        entries_length: usize,
        answer: *mut [u64; REWRITTEN],
    ) -> u8;

    fn mezhukan_check_image(
        sheet: *const u8,
        sheet_length: usize,
        code: *const u8,
        code_length: usize,
        depth: u64,
        answer: *mut [u64; CHECKED],
    ) -> u8;

    fn mezhukan_slowest(
        sheet: *const u8,
        sheet_length: usize,
        code: *const u8,
        code_length: usize,
        depth: u64,
        outcomes: *mut u8,
        outcomes_length: usize,
        answer: *mut [u64; MEASURED],
    ) -> u8;
}

/// Which source position the code from an offset on has, up to the next entry's offset.
#[derive(Clone, Copy, Debug, Default, PartialEq, Eq, Hash)]
#[repr(C)]
pub struct LineEntry {
    /// Offset in the code.
    pub offset: u16,
    /// Line of the source.
    pub line: u16,
    /// Column of the source.
    pub column: u16,
}

// An entry lies in memory as the library's numbers of it do.
const _: () = assert!(size_of::<LineEntry>() == ENTRY_SIZE * size_of::<u16>());

/// What a dial program became, in the outputs that were lent.
#[derive(Clone, Copy, Debug, PartialEq, Eq)]
pub struct CompiledIn<'a> {
    /// Finished code.
    pub code: &'a [u8],
    /// The constants that the code names by index.
    pub constants: &'a [i32],
    /// The line entries.
    pub lines: &'a [LineEntry],
    /// No run of the code goes above this height of the stack.
    pub depth: u64,
}

/// What rewriting called alone made of code, in the outputs that were lent.
#[derive(Clone, Copy, Debug, PartialEq, Eq)]
pub struct RewrittenIn<'a> {
    /// The code after the three passes; branch bytes are copied as they are.
    pub code: &'a [u8],
    /// The protected offsets as moved, in the order in which they were given.
    pub protected: &'a [u16],
    /// The line entries that were kept, at their new offsets.
    pub lines: &'a [LineEntry],
}

/// How many instructions a call of code can take, in the output that was lent.
#[derive(Clone, Copy, Debug, PartialEq, Eq)]
pub enum SlowestIn<'a> {
    /// The code holds a branch to its own start or before it, reached or not: there is no count.
    Loops,
    /// Every branch leads forward; this is the longest run.
    Run {
        /// Instructions on it, a RET counted.
        count: u64,
        /// The outcome of each conditional branch on it, in order: 1 if taken, else 0.
        outcomes: &'a [u8],
    },
}

/// Turns a dial program into branch code, in lent outputs; allocates nothing.
///
/// `sheet` is the opcode sheet, one line with its LF; `rules` the rule file, 0 to [`MAX_RULES`] lines; `program` the program. An output that is
/// shorter than its limit ([`MAX_CODE`], [`MAX_CONSTANTS`], [`MAX_LINES`]) is refused with 14. Every element of the outputs is set: what lies
/// behind the result, and after a refusal everything, is 0.
pub fn compile_into<'a>(
    sheet: &[u8],
    rules: &[u8],
    program: &[u8],
    code: &'a mut [u8],
    constants: &'a mut [i32],
    lines: &'a mut [LineEntry],
) -> Result<CompiledIn<'a>, Refusal> {
    let mut answer = [0; COMPILED];
    // SAFETY: the function requires nothing but lists that are there: each pointer and count is a live slice's, of elements of the same size
    // and alignment (i32 for u32; an entry for ENTRY_SIZE numbers, by its layout) that may hold any bits; and no `&mut` overlaps another slice.
    let number = unsafe {
        mezhukan_compile(
            sheet.as_ptr(),
            sheet.len(),
            rules.as_ptr(),
            rules.len(),
            program.as_ptr(),
            program.len(),
            code.as_mut_ptr(),
            code.len(),
            constants.as_mut_ptr().cast(),
            constants.len(),
            lines.as_mut_ptr().cast(),
            lines.len() * ENTRY_SIZE,
            &mut answer,
        )
    };
    let [_, place, bytes, depth, pool, entries] = answer;
    refusal::none(number, place)?;
    Ok(CompiledIn {
        code: &code[..bytes as usize],
        constants: &constants[..pool as usize],
        lines: &lines[..entries as usize],
        depth,
    })
}

/// Rewrites code and maps its line entries, in lent outputs; allocates nothing.
///
/// `code` is the code to rewrite, `protected` the offsets at which no pair may be rewritten, `lines` the line entries; each offset must be an
/// instruction's start or the end. The outputs are `bytes`, `offsets` and `entries`; one that is shorter than its limit ([`MAX_CODE`],
/// [`MAX_PROTECTED`], [`MAX_LINES`]) is refused with 14. Every element of the outputs is set: what lies behind the result, and after a refusal
/// everything, is 0.
#[allow(clippy::too_many_arguments)]
pub fn rewrite_alone_into<'a>(
    sheet: &[u8],
    rules: &[u8],
    code: &[u8],
    protected: &[u16],
    lines: &[LineEntry],
    bytes: &'a mut [u8],
    offsets: &'a mut [u16],
    entries: &'a mut [LineEntry],
) -> Result<RewrittenIn<'a>, Refusal> {
    let mut answer = [0; REWRITTEN];
    // SAFETY: as in `compile_into`.
    let number = unsafe {
        mezhukan_rewrite_alone(
            sheet.as_ptr(),
            sheet.len(),
            rules.as_ptr(),
            rules.len(),
            code.as_ptr(),
            code.len(),
            protected.as_ptr(),
            protected.len(),
            lines.as_ptr().cast(),
            lines.len() * ENTRY_SIZE,
            bytes.as_mut_ptr(),
            bytes.len(),
            offsets.as_mut_ptr(),
            offsets.len(),
            entries.as_mut_ptr().cast(),
            entries.len() * ENTRY_SIZE,
            &mut answer,
        )
    };
    let [_, place, length, moved, kept] = answer;
    refusal::none(number, place)?;
    Ok(RewrittenIn {
        code: &bytes[..length as usize],
        protected: &offsets[..moved as usize],
        lines: &entries[..kept as usize],
    })
}

/// Checks an image, code made by whatever, against the sheet and its declared depth; allocates nothing.
///
/// It passes exactly if no run, over all branch outcomes, leaves the instruction starts and the end, pops an empty stack, exceeds the depth or
/// ends unempty, and no start is reached at two heights; else the refusal is the first of 7, 10, 20 and 21 that holds. Which variables and
/// constants the code names is not looked at. What [`compile`] gives back passes with its own depth.
///
/// ```
/// # let sheet = b"1,2,3,4,5,6,7,8,9,10,11,12,13,14,15,16,17,18,19,20,21,22,23,24,25,26,27,1,2,3,4,5,6\n";
/// let push_pop = [6, 2];
/// mezhukan::check_image(sheet, &push_pop, 1)?;
///
/// let refusal = mezhukan::check_image(sheet, &push_pop, 0).unwrap_err();
/// assert_eq!(refusal.reason(), Some(mezhukan::Reason::BadHeight));
/// # Ok::<(), mezhukan::Refusal>(())
/// ```
pub fn check_image(sheet: &[u8], code: &[u8], depth: u64) -> Result<(), Refusal> {
    let mut answer = [0; CHECKED];
    // SAFETY: as in `compile_into`.
    let number =
        unsafe { mezhukan_check_image(sheet.as_ptr(), sheet.len(), code.as_ptr(), code.len(), depth, &mut answer) };
    let [_, place] = answer;
    refusal::none(number, place)
}

/// The slowest call of code, an image's or what [`compile_into`] gave back, with its depth; allocates nothing.
///
/// Of equally long runs it is the one that falls through where they first differ. Where `outcomes` is shorter than [`MAX_OUTCOMES`] it is refused
/// with 14; else the refusal is the first of 7, 10, 20 and 21 that holds, as [`check_image`] gives it. Every element of `outcomes` is set: what
/// lies behind the result, and where there is no count everything, is 0.
pub fn slowest_into<'a>(
    sheet: &[u8],
    code: &[u8],
    depth: u64,
    outcomes: &'a mut [u8],
) -> Result<SlowestIn<'a>, Refusal> {
    let mut answer = [0; MEASURED];
    // SAFETY: as in `compile_into`.
    let number = unsafe {
        mezhukan_slowest(
            sheet.as_ptr(),
            sheet.len(),
            code.as_ptr(),
            code.len(),
            depth,
            outcomes.as_mut_ptr(),
            outcomes.len(),
            &mut answer,
        )
    };
    let [_, place, loops, count, branches] = answer;
    refusal::none(number, place)?;
    Ok(match loops {
        0 => SlowestIn::Run { count, outcomes: &outcomes[..branches as usize] },
        _ => SlowestIn::Loops,
    })
}
