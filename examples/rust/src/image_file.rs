//! A file of images on standard input, as `examples/c/image_file.h` reads it: its form and the exit status stand there.

use std::io::{self, BufRead, BufWriter, Write};
use std::process::ExitCode;

use crate::numbers::number;

const NOT_GOOD: u8 = 1;
const FAILED: u8 = 2;

/// An image, and the sheet of its file.
pub struct Image<'a> {
    /// The opcode sheet, a line with its LF.
    pub sheet: &'a [u8],
    /// Its code.
    pub code: &'a [u8],
    /// Its declared depth.
    pub depth: u64,
}

/// All that the program of this name does: `answer` prints the library's answer for an image, and says whether it is a good one.
pub fn answer_file(name: &str, answer: impl Fn(&Image, &mut dyn Write) -> io::Result<bool>) -> ExitCode {
    let mut out = BufWriter::new(io::stdout().lock());
    let answered = answer_all(&mut io::stdin().lock(), |image| answer(image, &mut out).map_err(|_| Failure::Output));
    let written = out.flush().map_err(|_| Failure::Output);
    match written.and(answered) {
        Ok(true) => ExitCode::SUCCESS,
        Ok(false) => ExitCode::from(NOT_GOOD),
        Err(failure) => {
            eprintln!("{name}: {}", failure.text());
            ExitCode::from(FAILED)
        }
    }
}

/// Why not every image has its answer; a line is counted from 1.
enum Failure {
    Unread(usize),
    Malformed(usize),
    Output,
}

impl Failure {
    fn text(&self) -> String {
        match self {
            Failure::Unread(line) => format!("line {line} cannot be read"),
            Failure::Malformed(line) => format!("line {line} is malformed"),
            Failure::Output => "standard output cannot be written".to_string(),
        }
    }
}

/// Whether every answer is good.
fn answer_all(
    input: &mut impl BufRead,
    mut answer: impl FnMut(&Image) -> Result<bool, Failure>,
) -> Result<bool, Failure> {
    let (mut sheet, mut line) = (Vec::new(), Vec::new());
    let mut good = true;
    input.read_until(b'\n', &mut sheet).map_err(|_| Failure::Unread(1))?;
    if !sheet.ends_with(b"\n") {
        return Err(Failure::Malformed(1));
    }
    for number in 2.. {
        line.clear();
        if input.read_until(b'\n', &mut line).map_err(|_| Failure::Unread(number))? == 0 {
            break;
        }
        let (depth, code) = depth_and_code(&line).ok_or(Failure::Malformed(number))?;
        good &= answer(&Image { sheet: &sheet, code: &code, depth })?;
    }
    Ok(good)
}

/// What stands in an image's line.
fn depth_and_code(line: &[u8]) -> Option<(u64, Vec<u8>)> {
    let mut numbers = line.strip_suffix(b"\n")?.split(|byte| *byte == b',').map(number);
    let depth = numbers.next()??;
    let code = numbers.map(|byte| byte?.try_into().ok()).collect::<Option<_>>()?;
    Some((depth, code))
}
