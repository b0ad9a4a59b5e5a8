//! Images at random: code of our own making, the published code's answers, and these with a few bytes changed.

use oracle::{listing, reader};

use crate::answer::fields;
use crate::head::joined;
use crate::limits::LENGTHS;
use crate::programs;
use crate::random::Random;
use crate::writer::Writer;

/// What an input is made of, before it is printed.
pub struct Draft {
    pub sheet: Vec<u8>,
    pub depth: u64,
    pub code: Vec<u8>,
}

/// A seed of this many has code at its limit, or as long as a table.
pub const LIMIT_EVERY: u64 = 64;

/// Where a seed's code is from.
const AT_LIMIT: &str = "at a limit";
const OWN: &str = "random";
/// With its own depth it always passes, 02 says.
pub const FINISHED: &str = "finished at its own depth";
const ANY_DEPTH: &str = "finished at any depth";
const CHANGED: &str = "finished and changed";

pub fn origin(seed: u64) -> &'static str {
    match seed % 8 {
        _ if seed % LIMIT_EVERY == LIMIT_EVERY - 1 => AT_LIMIT,
        0..4 => OWN,
        4 => FINISHED,
        5 => ANY_DEPTH,
        _ => CHANGED,
    }
}

/// The input of this seed.
pub fn input(seed: u64) -> Vec<u8> {
    let random = &mut Random::new(seed);
    let origin = origin(seed);
    let draft = match origin {
        AT_LIMIT => at_limit(random),
        OWN => own(random),
        FINISHED => finished(random, |_| true),
        ANY_DEPTH => at_any_depth(random),
        _ => changed(random),
    };
    let bad_sheets = match origin {
        FINISHED => 0,
        AT_LIMIT => 25,
        _ => 4,
    };
    printed(random, draft, bad_sheets)
}

/// The input, its sheet spoilt in so many of a hundred.
pub fn printed(random: &mut Random, Draft { sheet, depth, code }: Draft, bad_sheets: usize) -> Vec<u8> {
    let mut sheet = joined(&sheet);
    if random.percent(bad_sheets) {
        spoil(random, &mut sheet);
    }
    format!("{sheet}\n{depth}\n{}\n", joined(&code)).into_bytes()
}

/// The published code's answer to a random program that is wanted and that it accepts, mostly a small one.
pub fn finished(random: &mut Random, is_wanted: fn(&[u8]) -> bool) -> Draft {
    loop {
        let small = random.percent(98);
        let seed = random.below(1 << 20) as u64;
        // Every sixteenth program comes to a limit.
        let text = programs::input(if small && seed % 16 == 15 { seed - 1 } else { seed });
        let Some(input) = reader::read(&text).ok().filter(|_| is_wanted(&text)) else { continue };
        let Ok(answer) = listing::compile(&input) else { continue };
        let listing = listing::print(&input.sheet, &answer);
        let [_, _, depth, ..] = fields(&listing, 0)[..] else { continue };
        let code =
            listing.lines().filter(|line| line.starts_with('b')).flat_map(|line| fields::<u8>(line, 2)).collect();
        let sheet = input.sheet.opcodes.into_iter().chain(input.sheet.comparisons).collect();
        return Draft { sheet, depth, code };
    }
}

fn at_any_depth(random: &mut Random) -> Draft {
    let mut draft = finished(random, |_| true);
    draft.depth = near(random, draft.depth);
    draft
}

/// The depth itself most often; one less; or more, up to all that fits.
pub fn near(random: &mut Random, depth: u64) -> u64 {
    let other = random.pick(&[depth + 1, depth + 256, 65_535, 65_536, 65_536 + depth, 1 << 32, u64::MAX]);
    random.weigh(&[(5, depth), (2, depth.saturating_sub(1)), (3, other), (1, 0)])
}

/// One to three bytes of finished code changed, many of them a branch's.
fn changed(random: &mut Random) -> Draft {
    let mut draft = at_any_depth(random);
    for _ in 0..random.pick(&[1, 1, 2, 3]) {
        let Some(last) = draft.code.len().checked_sub(1) else { break };
        // The bytes of some branch, where there is one.
        let opcode = draft.sheet[random.pick(&[23, 24, 25])];
        let from = random.below(last + 1);
        let at = match draft.code[from..].iter().position(|byte| *byte == opcode) {
            Some(branch) if random.percent(50) => (from + branch + random.below(8)).min(last),
            _ => from,
        };
        let byte = &mut draft.code[at];
        *byte = match random.below(5) {
            0 => byte.wrapping_add(random.pick(&[1, 2, 3, 8])),
            1 => byte.wrapping_sub(random.pick(&[1, 2, 3, 8])),
            2 => random.below(256) as u8,
            _ => draft.sheet[random.below(draft.sheet.len())],
        };
    }
    draft
}

/// Short code, most of it at heights that fit and then with no fault or one; the rest at random.
fn own(random: &mut Random) -> Draft {
    let mut writer = Writer::new(random);
    let fitting = writer.random.percent(75);
    // One that need not fit, in every fourth.
    let (count, odd) = (writer.random.pick(&[0, 1, 2, 3, 4, 5, 6, 8, 12, 20]), writer.random.below(20));
    let odd = writer.random.percent(25).then_some(odd);
    for at in 0..count {
        let role = writer.role(fitting && odd.is_none_or(|odd| at != odd % count));
        writer.instruction(role);
    }
    if fitting {
        writer.pop_all();
    }
    writer.places.push((writer.code.len(), writer.height));
    let (astray, levels) = (writer.random.percent(30), writer.levels());
    for branch in std::mem::take(&mut writer.branches) {
        let aimed = fitting && !(astray && writer.random.percent(40));
        writer.aim(branch, aimed, &levels);
    }
    if writer.random.percent(if fitting { 25 } else { 50 }) {
        writer.slip();
    }
    let highest = writer.highest as u64;
    Draft { depth: near(writer.random, highest), sheet: writer.sheet, code: writer.code }
}

/// Code of the greatest length or as long as a table, one byte less, or one more.
fn at_limit(random: &mut Random) -> Draft {
    let mut writer = Writer::new(random);
    let length = writer.random.pick(&LENGTHS) - 1 + writer.random.below(3);
    writer.fill(length);
    writer.places.push((length, 0));
    let levels = writer.levels();
    for branch in std::mem::take(&mut writer.branches) {
        writer.aim(branch, true, &levels);
    }
    Draft { depth: writer.highest as u64, sheet: writer.sheet, code: writer.code }
}

/// A sheet line that is bad, but for a few.
fn spoil(random: &mut Random, sheet: &mut String) {
    let mut parts: Vec<String> = sheet.split(',').map(String::from).collect();
    let (one, other) = (random.below(parts.len()), random.below(parts.len()));
    match random.below(6) {
        0 => parts[one] = parts[other].clone(),
        1 => _ = parts.remove(one),
        2 => parts.push("7".to_string()),
        3 => parts.clear(),
        _ => parts[one] = random.pick(&["256", "00", "", "-1", "x", "65537", " 1", "255"]).to_string(),
    }
    *sheet = parts.join(",");
}
