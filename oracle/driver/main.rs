//! The oracle's driver.

mod all_runs;
mod answer;
mod compare;
mod far;
mod from_end;
mod generate;
mod head;
mod heights;
mod image_inputs;
mod images;
mod limits;
mod long;
mod machine;
mod meaning;
#[cfg(feature = "ours")]
mod ours;
mod outcomes;
mod passes;
mod programs;
mod random;
mod runs;
mod short;
mod short_images;
mod slowest;
mod slowest_inputs;
mod writer;

use std::hint::black_box;
use std::io::{self, Read, Write};
use std::path::Path;
use std::process::ExitCode;
use std::time::Instant;

#[cfg(feature = "ours")]
use answer::fields;
use answer::{answer, Answer, Program};
use compare::Compared;
use generate::Kind;
use images::Image;

const USE: &str = "use: oracle [--reader] [--fold-constants] COMMAND
  listing | passes | meaning | images | slowest  one input, one answer
  batch listing|passes|meaning|images|slowest    a line ==== ends each input, and each answer
  generate KIND FROM TO                          the inputs of these seeds, as a batch
  answers KIND FROM TO                           their answers, as a batch
  compare KIND FROM TO FOLDER PROGRAM [WORD..]   a program held against the oracle
  compare images|short-images FROM TO FOLDER     our check of images, linked as a library, held against the oracle
  compare slowest|short-slowest FROM TO FOLDER   our slowest call, likewise
  bench listing|passes|images|slowest RUNS       ns for a run on one input: the published code (images: the check by heights;
                                                 slowest: that and the reading from the end), and ours
KIND: programs, short, long or passes; or meaning, whose inputs have a line of starting values on top: PROGRAM's listing is run on them;
  or images, short-images, slowest or short-slowest (NOT from the Rust), whose inputs are the lines sheet, depth and code
--reader: the plain reader's refusals by number and place, and 15 with its place where the Rust cuts a displacement (NOT from the Rust), instead of
  `unparsed` and `cut`
--fold-constants: constant loads folded, as published";

const SEPARATOR: &[u8] = b"====\n";

fn main() -> ExitCode {
    match run() {
        Ok(()) => ExitCode::SUCCESS,
        Err(message) => {
            eprintln!("oracle: {message}");
            ExitCode::FAILURE
        }
    }
}

fn run() -> Result<(), String> {
    let words: Vec<String> = std::env::args_os().skip(1).map(|word| word.to_string_lossy().into()).collect();
    let switches = words.iter().take_while(|word| word.starts_with("--")).count();
    let (switches, words) = words.split_at(switches);
    let mut reading = false;
    for switch in switches {
        match switch.as_str() {
            "--reader" => reading = true,
            "--fold-constants" => oracle::stand_ins::fold_constants(),
            "--help" => return write(format!("{USE}\n").as_bytes()),
            _ => return Err(unknown("switch", switch)),
        }
    }
    let words: Vec<&str> = words.iter().map(String::as_str).collect();
    match words.as_slice() {
        ["batch", name] => batch(program(name)?, reading),
        ["generate", kind, from, to] => generate(self::kind(kind)?, seed(from)?, seed(to)?),
        ["answers", kind, from, to] => answers(self::kind(kind)?, seed(from)?, seed(to)?, reading),
        ["compare", kind, from, to, folder, command @ ..] if !command.is_empty() => {
            let command: Vec<String> = command.iter().map(|word| word.to_string()).collect();
            compare(self::kind(kind)?, seed(from)?, seed(to)?, Path::new(folder), &command)
        }
        ["compare", kind @ ("images" | "short-images" | "slowest" | "short-slowest"), from, to, folder] => {
            compare(self::kind(kind)?, seed(from)?, seed(to)?, Path::new(folder), &[])
        }
        ["bench", name, runs] => bench(program(name)?, seed(runs)?),
        ["listing" | "passes" | "meaning" | "images" | "slowest"] => {
            write(answer(program(words[0])?, &input()?, reading)?.as_bytes())
        }
        _ => Err(unknown("command", &words.join(" "))),
    }
}

fn unknown(what: &str, name: &str) -> String {
    format!("no {what} `{name}`: see oracle --help")
}

fn program(name: &str) -> Result<Program, String> {
    match name {
        "listing" => Ok(Program::Listing),
        "passes" => Ok(Program::Passes),
        "meaning" => Ok(Program::Meaning),
        "images" => Ok(Program::Images),
        "slowest" => Ok(Program::Slowest),
        _ => Err(unknown("program", name)),
    }
}

fn kind(name: &str) -> Result<Kind, String> {
    Kind::of(name).ok_or_else(|| unknown("kind of inputs", name))
}

fn seed(word: &str) -> Result<u64, String> {
    word.parse().map_err(|_| format!("not a number: {word}"))
}

fn input() -> Result<Vec<u8>, String> {
    let mut text = Vec::new();
    io::stdin().read_to_end(&mut text).map_err(|error| format!("standard input: {error}"))?;
    Ok(text)
}

fn write(text: &[u8]) -> Result<(), String> {
    io::stdout().write_all(text).map_err(|error| format!("standard output: {error}"))
}

fn write_all(parts: impl Iterator<Item = Answer>) -> Result<(), String> {
    let mut out = io::BufWriter::new(io::stdout().lock());
    for part in parts {
        let written = out.write_all(part?.as_bytes()).and_then(|()| out.write_all(SEPARATOR));
        written.map_err(|error| format!("standard output: {error}"))?;
    }
    out.flush().map_err(|error| format!("standard output: {error}"))
}

fn batch(program: Program, reading: bool) -> Result<(), String> {
    let text = input()?;
    let mut inputs: Vec<Vec<u8>> = vec![Vec::new()];
    for line in text.split_inclusive(|byte| *byte == b'\n') {
        match (line == SEPARATOR, inputs.last_mut()) {
            (false, Some(last)) => last.extend_from_slice(line),
            _ => inputs.push(Vec::new()),
        }
    }
    // Text after the last separator is an input too, unless there is none.
    if inputs.last().is_some_and(Vec::is_empty) {
        inputs.pop();
    }
    write_all(inputs.iter().map(|input| answer(program, input, reading)))
}

fn generate(kind: Kind, from: u64, to: u64) -> Result<(), String> {
    let mut out = io::BufWriter::new(io::stdout().lock());
    for (_, input) in kind.inputs(from, to) {
        let written = out.write_all(&input).and_then(|()| out.write_all(SEPARATOR));
        written.map_err(|error| format!("standard output: {error}"))?;
    }
    out.flush().map_err(|error| format!("standard output: {error}"))
}

fn answers(kind: Kind, from: u64, to: u64, reading: bool) -> Result<(), String> {
    write_all(kind.inputs(from, to).map(|(_, input)| answer(kind.program(), &input, reading)))
}

fn compare(kind: Kind, from: u64, to: u64, folder: &Path, command: &[String]) -> Result<(), String> {
    let Compared { counts, differences } = match (kind.program(), command) {
        (Program::Meaning, _) => runs::compare(from, to, folder, command)?,
        (Program::Images, []) => images::compare(kind, (from, to), folder)?,
        (Program::Slowest, []) => slowest::compare(kind, (from, to), folder)?,
        (Program::Images | Program::Slowest, _) => {
            return Err("images are held against our library, not a program".to_string())
        }
        (Program::Passes, _) => compare::compare(kind, (from, to), folder, command, answer::passed)?,
        (Program::Listing, _) => compare::compare(kind, (from, to), folder, command, answer::listed)?,
    };
    write(format!("{}: {counts}, {differences} differences\n", kind.name()).as_bytes())?;
    match differences {
        0 => Ok(()),
        _ => Err(format!("{differences} differences in {}", folder.display())),
    }
}

/// The time of one run, the shortest of five rounds.
fn time(runs: u64, mut run: impl FnMut()) -> u128 {
    let round = |run: &mut dyn FnMut()| {
        let start = Instant::now();
        (0..runs).for_each(|_| run());
        start.elapsed().as_nanos() / u128::from(runs)
    };
    (0..5).map(|_| round(&mut run)).min().unwrap_or(0)
}

fn bench(program: Program, runs: u64) -> Result<(), String> {
    let text = input()?;
    let runs = runs.max(1);
    let times = match program {
        Program::Listing => {
            let read = || oracle::reader::read(&text).map_err(|_| "a bad input cannot be timed");
            let input = read()?;
            let compile = time(runs, || drop(black_box(oracle::listing::compile(&input))));
            let whole = time(runs, || drop(black_box(read().map(|input| oracle::listing::compile(&input)))));
            format!("compile,{compile}\nread and compile,{whole}\n{}", our_call(&text, runs, compile, whole)?)
        }
        Program::Meaning => return Err(unknown("program to time", "meaning")),
        Program::Images => {
            let image = Image::of(&text)?;
            if images::ours(&image)? != images::answered(images::by_heights(&image)) {
                return Err("our check differs: nothing was timed".to_string());
            }
            let plain = time(runs, || drop(black_box(images::by_heights(&image))));
            let ours = time(runs, || drop(black_box(images::ours(&image))));
            format!("by heights,{plain}\nours,{ours}\nratio,{}\n", ratio(ours, plain))
        }
        Program::Slowest => {
            let image = Image::of(&text)?;
            let plain = time(runs, || drop(black_box(slowest::from_end(&image))));
            format!("from the end,{plain}\n{}", our_slowest(&image, runs, plain)?)
        }
        Program::Passes => {
            let request = oracle::alone::read(&text).map_err(|_| "a bad input cannot be timed")?;
            let rewritten = oracle::alone::rewrite(&request);
            let optimize = time(runs, || drop(black_box(oracle::alone::rewrite(&request))));
            let remap = time(runs, || drop(black_box(oracle::alone::remap(&request, &rewritten))));
            format!("optimize,{optimize}\nremap_line_map,{remap}\n{}", our_rewriting(&text, runs, optimize)?)
        }
    };
    write(times.as_bytes())
}

/// Our call on the same input, once its answer is the published code's: its time, and what part of the published code's it is, with reading and without.
#[cfg(feature = "ours")]
fn our_call(text: &[u8], runs: u64, compile: u128, whole: u128) -> Result<String, String> {
    let mut call = ours::Compile::of(text);
    let number = call.run();
    let printed = answer(Program::Listing, text, true)?;
    let (code, head): (Vec<&str>, Vec<&str>) = printed.split_inclusive('\n').partition(|line| line.starts_with('b'));
    let bytes: Vec<u8> = code.into_iter().flat_map(|line| fields::<u8>(line, 2)).collect();
    if number != 0 || head.concat() != call.head() || bytes != call.code() {
        return Err("our call differs: nothing was timed".to_string());
    }
    let ours = time(runs, || _ = black_box(call.run()));
    Ok(format!("ours,{ours}\nratio with reading,{}\nratio without,{}\n", ratio(ours, whole), ratio(ours, compile)))
}

/// Our rewriting called alone on the same input, once its code bytes are the published code's: its time, and what part of `optimize`'s it is.
#[cfg(feature = "ours")]
fn our_rewriting(text: &[u8], runs: u64, optimize: u128) -> Result<String, String> {
    let mut call = ours::Rewrite::of(text);
    let number = call.run();
    let printed = answer(Program::Passes, text, true)?;
    let mut bytes: Vec<u8> =
        printed.lines().filter(|line| line.starts_with('b')).flat_map(|line| fields(line, 2)).collect();
    bytes.resize(call.bytes.len(), 0);
    if number != 0 || bytes != call.bytes {
        return Err("our rewriting differs: nothing was timed".to_string());
    }
    let alone = time(runs, || _ = black_box(call.run()));
    Ok(format!("rewrite_alone,{alone}\nratio,{}\n", ratio(alone, optimize)))
}

/// Our slowest call of the same image, once its answer is the reading's: its time, and what part of the reading's it is.
#[cfg(feature = "ours")]
fn our_slowest(image: &Image, runs: u64, plain: u128) -> Result<String, String> {
    let mut call = ours::Slowest::of(image, oracle::limits::OUTCOMES);
    if call.answered() != slowest::answered(slowest::from_end(image)) {
        return Err("our slowest call differs: nothing was timed".to_string());
    }
    let ours = time(runs, || _ = black_box(call.run()));
    Ok(format!("ours,{ours}\nratio,{}\n", ratio(ours, plain)))
}

fn ratio(ours: u128, theirs: u128) -> String {
    format!("{:.2}", ours as f64 / theirs.max(1) as f64)
}

#[cfg(not(feature = "ours"))]
fn our_call(_: &[u8], _: u64, _: u128, _: u128) -> Result<String, String> {
    Ok(String::new())
}

#[cfg(not(feature = "ours"))]
fn our_rewriting(_: &[u8], _: u64, _: u128) -> Result<String, String> {
    Ok(String::new())
}

#[cfg(not(feature = "ours"))]
fn our_slowest(_: &Image, _: u64, _: u128) -> Result<String, String> {
    Ok(String::new())
}
