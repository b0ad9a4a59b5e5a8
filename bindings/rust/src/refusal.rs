//! Why there is no answer.

use core::error::Error;
use core::fmt;

use crate::limits::{MAX_BACK, MAX_CODE, MAX_CONSTANTS, MAX_FORWARD, MAX_LABELS};
use crate::limits::{MAX_LINES, MAX_NESTING, MAX_PROGRAM, MAX_PROTECTED};

/// What a refusal's number means.
#[derive(Clone, Copy, Debug, PartialEq, Eq, Hash)]
#[non_exhaustive]
#[repr(u8)]
pub enum Reason {
    /// Program empty, too long, or not ended by LF.
    BadText = 1,
    /// Wrong letter, wrong field count or malformed number.
    BadForm = 2,
    /// Number outside its range.
    BadRange = 3,
    /// No open loop of that number.
    NoLoop = 4,
    /// Nesting too deep.
    TooDeep = 5,
    /// Line missing or left over.
    WrongLines = 6,
    /// Bad opcode sheet.
    BadSheet = 7,
    /// Rewriting called alone: unlisted opcode, cut instruction, or an offset that is neither start nor end.
    BadCode = 8,
    /// Bad rule line.
    BadRule = 9,
    /// Code over its limit.
    CodeFull = 10,
    /// Labels, or protected offsets, over their limit.
    LabelsFull = 11,
    /// Line entries over their limit.
    LinesFull = 12,
    /// Constants over their limit.
    ConstantsFull = 13,
    /// A lent output shorter than its limit: only where outputs are lent.
    OutputShort = 14,
    /// The call: a branch of finished code, reached or not, leads further than [`MAX_BACK`] or [`MAX_FORWARD`]. What lies between it and its target
    /// is to be shortened, or the program to be split.
    FarBranch = 15,
    /// An image's code: a run reaches a place that is neither start nor end, heights ignored.
    Astray = 20,
    /// An image's code: an empty stack popped, the depth exceeded, an unempty end, or a start at two heights.
    BadHeight = 21,
}

const REASONS: [Reason; 17] = [
    Reason::BadText,
    Reason::BadForm,
    Reason::BadRange,
    Reason::NoLoop,
    Reason::TooDeep,
    Reason::WrongLines,
    Reason::BadSheet,
    Reason::BadCode,
    Reason::BadRule,
    Reason::CodeFull,
    Reason::LabelsFull,
    Reason::LinesFull,
    Reason::ConstantsFull,
    Reason::OutputShort,
    Reason::FarBranch,
    Reason::Astray,
    Reason::BadHeight,
];

/// One refusal: its number and its place.
#[derive(Clone, Copy, Debug, PartialEq, Eq, Hash)]
pub struct Refusal {
    /// What is refused: see [`Refusal::reason`].
    pub number: u8,
    /// Where: a line of the program from 1 for 2 to 6, a line of the rules from 1 for 9, an offset for 8, the offset in finished code of the lowest
    /// such branch for 15, for 7 some field at fault from 1 (0 if the line or the field count is bad), else 0.
    pub place: u64,
}

/// Nothing, unless the answer is a refusal.
pub(crate) fn none(number: u8, place: u64) -> Result<(), Refusal> {
    match number {
        0 => Ok(()),
        _ => Err(Refusal { number, place }),
    }
}

impl Refusal {
    /// What the number means; none for a number that this crate does not know, as a later library may give it.
    pub fn reason(&self) -> Option<Reason> {
        REASONS.into_iter().find(|reason| *reason as u8 == self.number)
    }
}

impl fmt::Display for Reason {
    fn fmt(&self, f: &mut fmt::Formatter<'_>) -> fmt::Result {
        match self {
            Reason::BadText => write!(f, "program empty, over {MAX_PROGRAM} bytes, or not ended by LF"),
            Reason::BadForm => f.write_str("wrong letter, wrong field count, or malformed number"),
            Reason::BadRange => f.write_str("number outside its range"),
            Reason::NoLoop => f.write_str("no open loop of that number"),
            Reason::TooDeep => write!(f, "nesting over {MAX_NESTING}"),
            Reason::WrongLines => f.write_str("line missing or left over"),
            Reason::BadSheet => f.write_str("bad sheet"),
            Reason::BadCode => {
                f.write_str("unlisted opcode, cut instruction, or protected or line offset neither start nor end")
            }
            Reason::BadRule => f.write_str("bad rule"),
            Reason::CodeFull => write!(f, "code over {MAX_CODE} bytes"),
            Reason::LabelsFull => write!(f, "over {MAX_LABELS} labels or {MAX_PROTECTED} protected offsets"),
            Reason::LinesFull => write!(f, "over {MAX_LINES} line entries"),
            Reason::ConstantsFull => write!(f, "over {MAX_CONSTANTS} constants"),
            Reason::OutputShort => f.write_str("a lent output shorter than its limit"),
            Reason::FarBranch => write!(f, "branch over {MAX_BACK} bytes back or {MAX_FORWARD} forward"),
            Reason::Astray => f.write_str("a run reaches a place that is neither start nor end"),
            Reason::BadHeight => {
                f.write_str("empty stack popped, depth exceeded, unempty end, or a start at two heights")
            }
        }
    }
}

impl fmt::Display for Refusal {
    /// The line that the listing prints, `number,place`, then what it means.
    fn fmt(&self, f: &mut fmt::Formatter<'_>) -> fmt::Result {
        let Refusal { number, place } = self;
        write!(f, "{number},{place}: ")?;
        let Some(reason) = self.reason() else {
            return f.write_str("a refusal that this crate does not know");
        };
        write!(f, "{reason}")?;
        match reason {
            Reason::BadForm | Reason::BadRange | Reason::NoLoop | Reason::TooDeep | Reason::WrongLines => {
                write!(f, ", at line {place} of the program")
            }
            Reason::BadRule => write!(f, ", at line {place} of the rules"),
            Reason::BadSheet if *place == 0 => f.write_str(": its line or field count"),
            Reason::BadSheet => write!(f, ", at field {place}"),
            Reason::BadCode => write!(f, ", at offset {place}"),
            Reason::FarBranch => write!(f, ", at offset {place} of finished code"),
            _ => Ok(()),
        }
    }
}

impl Error for Refusal {}
