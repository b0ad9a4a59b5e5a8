//! A dial string compiled through the library, and its listing. From the repository's root:
//!
//!     tools/build mezhukan
//!     MEZHUKAN_LIB=$PWD/target/staticlib cargo run --manifest-path examples/rust/Cargo.toml < examples/dial.txt
//!
//! It reads what `listing` reads (sheet line, rule count line, rules, program) and prints what that prints, a refusal too; what a refusal
//! means goes to standard error.

#![forbid(unsafe_code)]

use std::io::{self, BufWriter, Read, Write};

use mezhukan::{Compiled, Refusal, MAX_RULES};
use shared::instructions::kinds;
use shared::numbers::number;

const BAD_COUNT: &str = "9,0";

fn main() -> io::Result<()> {
    let mut input = Vec::new();
    io::stdin().lock().read_to_end(&mut input)?;
    let mut out = BufWriter::new(io::stdout().lock());
    list(&input, &mut out)?;
    out.flush()
}

fn list(input: &[u8], out: &mut impl Write) -> io::Result<()> {
    let (sheet, rest) = cut_lines(input, 1);
    let (count, rest) = cut_lines(rest, 1);
    let Some(count) = rule_count(count) else {
        return list_countless(sheet, out);
    };
    let (rules, program) = cut_lines(rest, count);
    match mezhukan::compile(sheet, rules, program) {
        Ok(compiled) => print(sheet, &compiled, out),
        Err(refusal) => print_refusal(&refusal, out),
    }
}

/// Without a count line there are no rules and no program: 7 comes first, then 9 with place 0.
fn list_countless(sheet: &[u8], out: &mut impl Write) -> io::Result<()> {
    match mezhukan::compile(sheet, b"", b"") {
        Err(refusal) if refusal.reason() == Some(mezhukan::Reason::BadSheet) => print_refusal(&refusal, out),
        _ => {
            eprintln!("{BAD_COUNT}: the line that says how many rules there are is bad");
            writeln!(out, "{BAD_COUNT}")
        }
    }
}

fn print_refusal(refusal: &Refusal, out: &mut impl Write) -> io::Result<()> {
    eprintln!("{refusal}");
    writeln!(out, "{},{}", refusal.number, refusal.place)
}

fn print(sheet: &[u8], compiled: &Compiled, out: &mut impl Write) -> io::Result<()> {
    let Compiled { code, constants, lines, depth } = compiled;
    writeln!(out, "0,{},{depth},{},{}", code.len(), constants.len(), lines.len())?;
    for constant in constants {
        writeln!(out, "k,{constant}")?;
    }
    for entry in lines {
        writeln!(out, "l,{},{},{}", entry.offset, entry.line, entry.column)?;
    }
    let kinds = kinds(sheet);
    let mut at = 0;
    while at < code.len() {
        let (instruction, _) = code[at..].split_at(kinds[usize::from(code[at])].size());
        write!(out, "b,{at}")?;
        for byte in instruction {
            write!(out, ",{byte}")?;
        }
        writeln!(out)?;
        at += instruction.len();
    }
    Ok(())
}

/// So many lines with their LFs, or those there are; and what follows them.
fn cut_lines(text: &[u8], count: usize) -> (&[u8], &[u8]) {
    let length = text.split_inclusive(|byte| *byte == b'\n').take(count).map(<[u8]>::len).sum();
    text.split_at(length)
}

/// The number in a count line, if it is one: digits without a leading zero, at most [`MAX_RULES`], then LF.
fn rule_count(line: &[u8]) -> Option<usize> {
    let number = number(line.strip_suffix(b"\n")?)?.try_into().ok()?;
    (number <= MAX_RULES).then_some(number)
}
