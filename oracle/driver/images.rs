//! Images checked against the sheet and their depth (02's L11): what an input says, its answer by two readings, and our check held against it. All of it is
//! from 01 and 02, NOT from the Rust, the definition or our code.

use std::collections::BTreeMap;
use std::path::Path;

use oracle::limits;
use oracle::reader::{self, numbers, split_line};
use oracle::sheet::Sheet;

use crate::answer::Answer;
use crate::compare::{Compared, Trial};
use crate::generate::Kind;
use crate::{heights, image_inputs, outcomes};

/// What a check comes to.
pub type Verdict = u8;
pub const PASSES: Verdict = 0;
pub const CODE_FULL: Verdict = 10;
/// A run reaches a place that is neither start nor end.
pub const ASTRAY: Verdict = 20;
/// None does, but there is a fault of height.
pub const BAD_HEIGHT: Verdict = 21;

/// An input's three lines.
pub struct Image {
    /// Without its LF.
    pub sheet: Vec<u8>,
    pub depth: u64,
    pub code: Vec<u8>,
}

impl Image {
    pub fn of(text: &[u8]) -> Result<Self, String> {
        let line = |rest| split_line(rest).ok_or("an image's input is three lines: sheet, depth, code");
        let (sheet, rest) = line(text)?;
        let (depth, rest) = line(rest)?;
        let (code, rest) = line(rest)?;
        let depth = String::from_utf8_lossy(depth).parse().map_err(|_| "the depth is no number of 64 bits")?;
        let code = if code.is_empty() { Some(Vec::new()) } else { numbers(code, 255) };
        match code {
            Some(code) if rest.is_empty() => {
                Ok(Image { sheet: sheet.to_vec(), depth, code: code.into_iter().map(|byte| byte as u8).collect() })
            }
            _ => Err("the code is no list of bytes, or a line is left over".to_string()),
        }
    }
}

/// The sheet, if neither it nor the code's length is refused; else that answer.
fn accepted(image: &Image) -> Result<Sheet, String> {
    let sheet =
        reader::read_sheet(&image.sheet).map_err(|refusal| format!("{},{}\n", refusal.number, refusal.place))?;
    match image.code.len() > limits::CODE {
        true => Err(format!("{CODE_FULL},0\n")),
        false => Ok(sheet),
    }
}

/// The sheet of an image that passes, else the answer.
type Judged = Result<Sheet, String>;

fn judge(sheet: Sheet, verdict: Verdict) -> Judged {
    match verdict {
        PASSES => Ok(sheet),
        _ => Err(format!("{verdict},0\n")),
    }
}

/// What both readings make of an image, and whether both were used. A last line says so if they differ, which no answer of ours has.
pub fn judged(image: &Image) -> (Judged, bool) {
    let sheet = match accepted(image) {
        Ok(sheet) => sheet,
        refused => return (refused, false),
    };
    let verdict = heights::check(&sheet, &image.code, image.depth);
    match outcomes::check(&sheet, &image.code, image.depth) {
        Some(other) if other != verdict => (Err(format!("{verdict},0\nbut by search: {other}\n")), true),
        searched => (judge(sheet, verdict), searched.is_some()),
    }
}

/// The same by heights alone: for the times.
pub fn by_heights(image: &Image) -> Judged {
    let sheet = accepted(image)?;
    let verdict = heights::check(&sheet, &image.code, image.depth);
    judge(sheet, verdict)
}

pub fn answered(judged: Judged) -> String {
    judged.map_or_else(|refusal| refusal, |_| format!("{PASSES},0\n"))
}

pub fn answer(input: &[u8]) -> Answer {
    Ok(answered(judged(&Image::of(input)?).0))
}

/// What came of an image.
pub struct Held {
    pub expected: String,
    /// Whether both readings gave that.
    pub both: bool,
    pub got: String,
    /// A word for what is answered, behind its number.
    pub word: &'static str,
    /// Whether it is what 02 says of finished code.
    pub sound: bool,
}

/// Our library held against the answers to the inputs from `from` to below `to`, in this program, each as `hold` does it. Each difference is written to `folder`.
pub fn compare_each(
    kind: Kind,
    (from, to): (u64, u64),
    folder: &Path,
    hold: impl Fn(&Image, u64) -> Result<Held, String>,
) -> Result<Compared, String> {
    let trial = Trial::new(folder, &[])?;
    let (mut answers, mut origins, mut searched, mut differences) = (BTreeMap::new(), BTreeMap::new(), 0, 0);
    for (seed, input) in kind.inputs(from, to) {
        let Held { expected, both, got, word, sound } = hold(&Image::of(&input)?, seed)?;
        let number: Verdict = expected.split(',').next().and_then(|number| number.parse().ok()).unwrap_or(PASSES);
        *answers.entry((number, word)).or_insert(0) += 1;
        *origins.entry(kind.origin(seed)).or_insert(0) += 1;
        searched += usize::from(both);
        if got != expected || !sound {
            differences += 1;
            trial.note(kind, seed, &input, &expected, &got)?;
        }
    }
    let answers = listed(answers.into_iter().map(|((number, word), count)| (format!("{number}{word}"), count)));
    let counts = format!("{answers}; {}; {searched} by search too", listed(origins.into_iter()));
    Ok(Compared { counts, differences })
}

fn listed<K: std::fmt::Display>(counts: impl Iterator<Item = (K, usize)>) -> String {
    counts.map(|(name, count)| format!("{name}: {count}")).collect::<Vec<_>>().join(", ")
}

/// Our check held against the readings; finished code that does not pass with its own depth is a difference too.
pub fn compare(kind: Kind, seeds: (u64, u64), folder: &Path) -> Result<Compared, String> {
    compare_each(kind, seeds, folder, |image, seed| {
        let (judged, both) = judged(image);
        let sound = judged.is_ok() || kind.origin(seed) != image_inputs::FINISHED;
        Ok(Held { expected: answered(judged), both, got: ours(image)?, word: "", sound })
    })
}

#[cfg(feature = "ours")]
pub fn ours(image: &Image) -> Answer {
    Ok(crate::ours::checked(image))
}

#[cfg(not(feature = "ours"))]
pub fn ours(_: &Image) -> Answer {
    Err("our library is not linked: see oracle/link".to_string())
}
