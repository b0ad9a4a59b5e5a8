//! The slowest calls of a file of images, through the library, as `examples/c/slowest.c` does it: what it reads and prints stands there. From the
//! repository's root:
//!
//!     tools/build mezhukan
//!     MEZHUKAN_LIB=$PWD/target/staticlib cargo run --manifest-path examples/rust/Cargo.toml --bin slowest < examples/slowest.txt

#![forbid(unsafe_code)]

use std::io::{self, Write};
use std::process::ExitCode;

use mezhukan::{Refusal, Slowest};
use shared::image_file::{answer_file, Image};
use shared::instructions::{kinds, Kind};

fn main() -> ExitCode {
    answer_file("slowest", slowest)
}

fn slowest(image: &Image, out: &mut dyn Write) -> io::Result<bool> {
    match mezhukan::slowest(image.sheet, image.code, image.depth) {
        Ok(Slowest::Run { count, outcomes }) => {
            writeln!(out, "{count}")?;
            print_branches(image, &outcomes, out)?;
            Ok(true)
        }
        Ok(Slowest::Loops) => writeln!(out, "loops").map(|()| false),
        Err(Refusal { number, place }) => writeln!(out, "{number},{place}").map(|()| false),
    }
}

/// Goes through code that passes, by the outcomes, as far as they reach: the next one belongs to the next conditional branch.
fn print_branches(image: &Image, outcomes: &[bool], out: &mut dyn Write) -> io::Result<()> {
    let (code, kinds) = (image.code, kinds(image.sheet));
    let mut at = 0;
    for taken in outcomes {
        at = conditional(code, &kinds, at);
        let kind = kinds[usize::from(code[at])];
        let name = if kind == Kind::CmpBr { "CMP_BR" } else { "JMP_IF_NOT" };
        writeln!(out, "b,{at},{name},{}", if *taken { "taken" } else { "not taken" })?;
        at += kind.size();
        if *taken {
            at = target(code, at);
        }
    }
    Ok(())
}

/// The next conditional branch on the way, which there is.
fn conditional(code: &[u8], kinds: &[Kind; 256], mut at: usize) -> usize {
    loop {
        let kind = kinds[usize::from(code[at])];
        match kind {
            Kind::JmpIfNot | Kind::CmpBr => return at,
            Kind::Jmp => at = target(code, at + kind.size()),
            Kind::Plain | Kind::Operand => at += kind.size(),
        }
    }
}

/// The target of a branch that leads forward, behind which `next` stands.
fn target(code: &[u8], next: usize) -> usize {
    next + usize::from(u16::from_le_bytes([code[next - 2], code[next - 1]]))
}
