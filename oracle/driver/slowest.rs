//! The slowest call of an image (02's L12): its answer by two readings, and our library's held against it. All of it is from 01 and 02, NOT from the Rust, the
//! definition or our code. Inputs and refusals are those of the check of images.

use std::fmt;
use std::path::Path;

use oracle::limits::OUTCOMES;

use crate::answer::Answer;
use crate::compare::Compared;
use crate::generate::Kind;
use crate::images::{self, compare_each, Held, Image, Verdict};
use crate::{all_runs, from_end, slowest_inputs};

/// A lent output has not enough room.
const NO_ROOM: Verdict = 14;

/// What is answered for code that passes.
#[derive(PartialEq)]
pub enum Slowest {
    Loops,
    Run { count: usize, outcomes: Vec<bool> },
}

impl fmt::Display for Slowest {
    /// Number and place, which are 0 here; whether it loops; the count; the outcomes.
    fn fmt(&self, to: &mut fmt::Formatter) -> fmt::Result {
        match self {
            Slowest::Loops => write!(to, "0,0,1,0"),
            Slowest::Run { count, outcomes } => {
                write!(to, "0,0,0,{count}")?;
                outcomes.iter().try_for_each(|taken| write!(to, ",{}", u8::from(*taken)))
            }
        }
    }
}

/// The answer's text. Behind a refusal's number and place it says that nothing was worked out.
pub fn answered(slowest: Result<Slowest, String>) -> String {
    match slowest {
        Ok(slowest) => format!("{slowest}\n"),
        Err(refusal) => refusal.replacen('\n', ",0,0\n", 1),
    }
}

/// The answer to one input, and whether both readings gave it. A last line says so if they differ, which no answer of ours has.
fn worked_out(image: &Image) -> (String, bool) {
    let sheet = match images::judged(image) {
        (Ok(sheet), _) => sheet,
        (Err(refusal), both) => return (answered(Err(refusal)), both),
    };
    let slowest = from_end::slowest(&sheet, &image.code);
    match all_runs::slowest(&sheet, &image.code) {
        Some(other) if other != slowest => (format!("{slowest}\nbut by search: {other}\n"), true),
        searched => (answered(Ok(slowest)), searched.is_some()),
    }
}

/// The answer from the end alone, for the times.
pub fn from_end(image: &Image) -> Result<Slowest, String> {
    images::by_heights(image).map(|sheet| from_end::slowest(&sheet, &image.code))
}

pub fn answer(input: &[u8]) -> Answer {
    Ok(worked_out(&Image::of(input)?).0)
}

/// How many bytes are lent: enough, or more. For every fifth seed there is a call with too few, besides.
fn rooms(seed: u64) -> (usize, Option<usize>) {
    let at = seed as usize;
    let too_few = [OUTCOMES - 1, OUTCOMES / 2, 1, 0][at / 5 % 4];
    (OUTCOMES + [0, 1, 300][at / 8 % 3], (at % 5 == 0).then_some(too_few))
}

/// Our library held against the readings, and against 14 with too little room. Finished code that is refused is a difference too, as is that of a program
/// without loops that gets `loops`.
pub fn compare(kind: Kind, seeds: (u64, u64), folder: &Path) -> Result<Compared, String> {
    compare_each(kind, seeds, folder, |image, seed| {
        let (answer, both) = worked_out(image);
        let loops = answer == answered(Ok(Slowest::Loops));
        let sound = match kind.origin(seed) {
            slowest_inputs::LOOPING => answer.starts_with("0,"),
            slowest_inputs::LOOPLESS => answer.starts_with("0,") && !loops,
            _ => true,
        };
        let (enough, too_few) = rooms(seed);
        let (mut expected, mut got) = (answer, ours(image, enough)?);
        if let Some(room) = too_few {
            expected += &answered(Err(format!("{NO_ROOM},0\n")));
            got += &ours(image, room)?;
        }
        Ok(Held { expected, both, got, word: if loops { " loops" } else { "" }, sound })
    })
}

#[cfg(feature = "ours")]
fn ours(image: &Image, room: usize) -> Answer {
    Ok(crate::ours::Slowest::of(image, room).answered())
}

#[cfg(not(feature = "ours"))]
fn ours(_: &Image, _: usize) -> Answer {
    Err("our library is not linked: see oracle/link".to_string())
}
