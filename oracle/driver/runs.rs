//! Runs on values: the interpreter held against the machine on a program's finished bytes. An input is a line of starting values and the listing's
//! input behind it.

use std::path::Path;

use oracle::reader::{self, Input};

use crate::answer::{self, fields, Answer, Program};
use crate::compare::{Compared, Trial};
use crate::generate::Kind;
use crate::head::joined;
use crate::machine::{Broken, Finished, Machine, Word};
use crate::meaning::{meant, Meant, Outcome, Value};

/// A program is still running if it has gone back to a loop's head so often. Each time takes an instruction or more.
const BUDGET: u64 = 10_000;

/// What the interpreter counts as one takes no more instructions than this.
const STEPS: u64 = 16;

/// The starting values and the listing's input.
fn split(input: &[u8]) -> Result<(Vec<Word>, &[u8]), String> {
    let (line, text) = reader::split_line(input).ok_or("no line of starting values")?;
    Ok((fields(&String::from_utf8_lossy(line), 0), text))
}

fn is_accepted(listing: &str) -> bool {
    listing.starts_with("0,")
}

fn interpreted(input: &Input, start: &[Word]) -> Result<Meant, String> {
    if start.len() != input.program.variables {
        return Err(format!("{} starting values for {} variables", start.len(), input.program.variables));
    }
    let start: Vec<Value> = start.iter().copied().map(Value::from).collect();
    meant(&input.program, &start, BUDGET)
}

/// What the interpreter answers for a program that is accepted: the outcome with the variables, then how many passes went back. Where it is still
/// running, the variables say nothing.
pub fn answer(input: &[u8], reading: bool) -> Answer {
    let (start, text) = split(input)?;
    let listing = answer::answer(Program::Listing, text, reading)?;
    let Some(input) = reader::read(text).ok().filter(|_| is_accepted(&listing)) else { return Ok(listing) };
    let Meant { outcome, variables, passes, .. } = interpreted(&input, &start)?;
    Ok(match outcome {
        Outcome::Running => format!("{outcome}\n"),
        _ => format!("{outcome},{}\np,{passes}\n", joined(&variables)),
    })
}

/// How an input came out: the outcome on both sides, or none where both refuse; else what was expected.
type Held = Result<Option<Outcome>, String>;

/// Holds the interpreter against `listing`, our program's answer to the same program.
fn held(start: &[Word], text: &[u8], listing: &str) -> Result<Held, String> {
    let expected = answer::answer(Program::Listing, text, true)?;
    let Some(input) = reader::read(text).ok().filter(|_| is_accepted(&expected)) else {
        return Ok(if listing == expected { Ok(None) } else { Err(expected) });
    };
    let meant = match interpreted(&input, start) {
        Ok(meant) => meant,
        Err(message) => return Ok(Err(message)),
    };
    let finished = Finished::of(&input.sheet, listing);
    let agreed = finished.and_then(|finished| agrees(&meant, &mut Machine::new(&finished, start.to_vec())));
    Ok(match agreed {
        Ok(true) => Ok(Some(meant.outcome)),
        Ok(false) => Err(format!("{},{}\n", meant.outcome, joined(&meant.variables))),
        Err(broken) => Err(format!("{},{}\nbut: {broken}\n", meant.outcome, joined(&meant.variables))),
    })
}

/// Whether the machine comes to what the interpreter says, within the steps that its work may take. Of a program that is still running: whether the
/// variables are the same after as many stores, and the machine has not come to an end either.
fn agrees(meant: &Meant, machine: &mut Machine) -> Result<bool, Broken> {
    let bound = STEPS * (meant.work + 1);
    let stores = if meant.outcome == Outcome::Running { meant.stores } else { u64::MAX };
    let outcome = machine.run(bound, stores)?;
    let variables = machine.variables.iter().copied().map(Value::from);
    let same = outcome == meant.outcome && meant.variables.iter().copied().eq(variables);
    match meant.outcome {
        Outcome::Running => Ok(same && machine.stores == stores && machine.run(BUDGET, u64::MAX)? == Outcome::Running),
        _ => Ok(same),
    }
}

/// Runs `command`, a listing program, on the inputs from `from` to below `to`, and the machine on what it prints. Each difference is written to
/// `folder`.
pub fn compare(from: u64, to: u64, folder: &Path, command: &[String]) -> Result<Compared, String> {
    let trial = Trial::new(folder, command)?;
    let (mut outcomes, mut refused, mut differences) = ([0; 3], 0, 0);
    for (seed, input) in Kind::Meaning.inputs(from, to) {
        let (start, text) = split(&input)?;
        let listing = trial.printed(text)?;
        match held(&start, text, &listing)? {
            Ok(Some(outcome)) => outcomes[outcome as usize] += 1,
            Ok(None) => refused += 1,
            Err(expected) => {
                differences += 1;
                trial.note(Kind::Meaning, seed, &input, &expected, &listing)?;
            }
        }
    }
    let [ended, stopped, running] = outcomes;
    let counts = format!("{ended} ended, {stopped} stopped, {running} still running, {refused} refused");
    Ok(Compared { counts, differences })
}
