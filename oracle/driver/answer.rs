//! One input, one answer.

use oracle::alone::{self, Unread};
use oracle::listing::{self, Fault};
use oracle::reader::{self, Refusal};

use crate::{far, images, runs, slowest};

/// What an input is for: one of our two programs, the interpreter, the check of images, or the slowest call.
#[derive(Clone, Copy)]
pub enum Program {
    Listing,
    Passes,
    Meaning,
    Images,
    Slowest,
}

/// The answer, or what went wrong in the published code.
pub type Answer = Result<String, String>;

/// Whose an answer of one of our two programs is; they are counted in this order.
#[derive(Clone, Copy)]
pub enum Source {
    Rust,
    /// The plain reader's: the Rust reads no such input.
    Reader,
    /// That of the second reading of far branches: the Rust cut a displacement.
    Far,
}

/// An answer and whose it is, or what went wrong.
pub type Sourced = Result<(Source, String), String>;

/// A branch of finished code is too far from its target (02's L1).
const FAR_BRANCH: u8 = 15;

/// The answer to one input. With `reading`, those too of a listing that are not the Rust's; else a word for them.
pub fn answer(program: Program, input: &[u8], reading: bool) -> Answer {
    match program {
        Program::Listing => Ok(match listed(input)? {
            (Source::Reader, _) if !reading => "unparsed\n".to_string(),
            (Source::Far, _) if !reading => "cut\n".to_string(),
            (_, answer) => answer,
        }),
        Program::Passes => Ok(passed(input)?.1),
        Program::Meaning => runs::answer(input, reading),
        Program::Images => images::answer(input),
        Program::Slowest => slowest::answer(input),
    }
}

/// The numbers of a printed line behind so many fields of it.
pub fn fields<T: std::str::FromStr>(line: &str, skipped: usize) -> Vec<T> {
    line.trim_end().split(',').skip(skipped).filter_map(|field| field.parse().ok()).collect()
}

fn refused(refusal: Refusal) -> String {
    format!("{},{}\n", refusal.number, refusal.place)
}

pub fn listed(input: &[u8]) -> Sourced {
    let input = match reader::read(input) {
        Ok(input) => input,
        Err(refusal) => return Ok((Source::Reader, refused(refusal))),
    };
    let (finished, cut) = match listing::compile(&input) {
        Ok(finished) => (finished, false),
        Err(Fault::Cut(finished)) => (finished, true),
        Err(Fault::Refused(refusal)) => return Ok((Source::Rust, refused(refusal))),
        Err(Fault::Broken(message)) => return Err(message),
    };
    // That the Rust cuts is seen on its side; the second reading must agree.
    match (cut, far::lowest(finished.code())?) {
        (false, None) => Ok((Source::Rust, listing::print(&input.sheet, &finished))),
        (true, Some(place)) => Ok((Source::Far, refused(Refusal::at(FAR_BRANCH, place)))),
        (true, None) => Err("the Rust cuts a displacement, but no branch is too far".to_string()),
        (false, Some(place)) => Err(format!("the branch at {place} is too far, but the Rust cuts no displacement")),
    }
}

pub fn passed(input: &[u8]) -> Sourced {
    let request = match alone::read(input) {
        Ok(request) => request,
        Err(Unread::Refused(refusal)) => return Ok((Source::Reader, refused(refusal))),
        Err(Unread::Malformed(row)) => return Ok((Source::Reader, format!("?,{row}\n"))),
    };
    let rewritten = alone::rewrite(&request);
    let entries = alone::remap(&request, &rewritten)?;
    Ok((Source::Rust, alone::print(&request, &rewritten, &entries)))
}
