//! Images for the slowest call at random: code whose branches lead forward, or back where no run comes; the published code's answers; images of the check.

use crate::image_inputs::{self, finished, near, printed, Draft, LIMIT_EVERY};
use crate::limits::LENGTHS;
use crate::random::Random;
use crate::writer::Writer;

/// Where a seed's code is from.
const AT_LIMIT: &str = "at a limit";
const FORWARD: &str = "forward";
const DIAMONDS: &str = "diamonds";
const UNREACHED: &str = "with unreached code";
/// At their own depth these are never refused, 02 says; and only a loop has a branch back.
pub const LOOPLESS: &str = "finished without loops";
pub const LOOPING: &str = "finished with loops";
const CHECKED: &str = "images of the check";

pub fn origin(seed: u64) -> &'static str {
    match seed % 8 {
        _ if seed % LIMIT_EVERY == LIMIT_EVERY - 1 => AT_LIMIT,
        0 | 1 => FORWARD,
        2 => DIAMONDS,
        3 => UNREACHED,
        4 => LOOPLESS,
        5 => LOOPING,
        _ => CHECKED,
    }
}

/// The input of this seed.
pub fn input(seed: u64) -> Vec<u8> {
    let random = &mut Random::new(seed);
    let (draft, bad_sheets) = match origin(seed) {
        AT_LIMIT => (full(random), 3),
        FORWARD => (forward(random), 3),
        DIAMONDS => (diamonds(random), 3),
        UNREACHED => (unreached(random), 3),
        LOOPLESS => (finished(random, |text| !loops(text)), 0),
        LOOPING => (finished(random, loops), 0),
        _ => return image_inputs::input(seed / 8),
    };
    printed(random, draft, bad_sheets)
}

/// Whether a program has a line of a loop.
fn loops(text: &[u8]) -> bool {
    text.split(|byte| *byte == b'\n').any(|line| line.starts_with(b"L") || line.starts_with(b"F"))
}

/// Most often as deep as its code is high.
fn drafted(writer: Writer) -> Draft {
    let highest = writer.highest as u64;
    let depth = if writer.random.percent(90) { highest } else { near(writer.random, highest) };
    Draft { depth, sheet: writer.sheet, code: writer.code }
}

/// So many instructions at random and what empties the stack, every branch forward.
fn write_forward(writer: &mut Writer, count: usize) {
    for _ in 0..count {
        let role = writer.role(true);
        writer.instruction(role);
    }
    writer.pop_all();
    writer.aim_forward();
}

fn forward(random: &mut Random) -> Draft {
    let mut writer = Writer::new(random);
    let count = writer.random.pick(&[0, 1, 2, 3, 4, 6, 8, 12, 20, 40]);
    write_forward(&mut writer, count);
    // Back, and often reached: to its own start, or to the code's first byte.
    if writer.random.percent(8) {
        let role = writer.random.pick(&[23, 25]);
        writer.instruction(role);
        let (start, end) = (writer.places[writer.places.len() - 1].0, writer.code.len());
        let target = writer.random.pick(&[0, start]);
        writer.lead(end - 2, target);
    }
    drafted(writer)
}

/// A conditional branch at this height; where its offset stands.
fn test(writer: &mut Writer) -> usize {
    if writer.random.percent(50) {
        writer.instruction(25);
    } else {
        writer.instruction(5);
        writer.instruction(24);
    }
    writer.code.len() - 2
}

/// Two instructions on the way that has most: a load and POP, or a branch and a JMP. The branch leads past a RET, and is taken there, or past the JMP, and is not.
fn pair(writer: &mut Writer) {
    if writer.random.percent(40) {
        writer.instruction(5);
        return writer.instruction(1);
    }
    writer.instruction(25);
    let branch = writer.code.len() - 2;
    if writer.random.percent(50) {
        writer.instruction(26);
        land(writer, Some(branch));
        return writer.instruction(23);
    }
    writer.instruction(23);
    land(writer, Some(branch));
}

/// So many instructions on the way that has most, which leave the height as it is.
fn arm(writer: &mut Writer, mut count: usize) {
    while count > 0 {
        if count > 1 && writer.random.percent(70) {
            pair(writer);
            count -= 1;
        } else {
            let role = writer.random.pick(&[23, 23, 25]);
            writer.instruction(role);
        }
        count -= 1;
    }
}

/// RET in so many of a hundred, else a JMP; where its offset stands.
fn leave(writer: &mut Writer, returning: usize) -> Option<usize> {
    if writer.random.percent(returning) {
        writer.instruction(26);
        return None;
    }
    writer.instruction(23);
    Some(writer.code.len() - 2)
}

/// Leads a branch, if there is one, to the place that is written next.
fn land(writer: &mut Writer, branch: Option<usize>) {
    if let Some(at) = branch {
        writer.lead(at, writer.code.len());
    }
}

/// The most bytes of a diamond: a CMP_BR, up to seven instructions in its arms, each with eight bytes at most, and a JMP.
const LARGEST: usize = 8 * 8 + 3;

/// A branch to the second of two arms, the first with a JMP behind both, or RET. With the JMP both arms are often as long as each other.
fn diamond(writer: &mut Writer) {
    let branch = test(writer);
    let first = writer.random.below(4);
    let second = if writer.random.percent(60) { first + 1 } else { writer.random.below(5) };
    arm(writer, first);
    let jump = leave(writer, 10);
    land(writer, Some(branch));
    arm(writer, second);
    land(writer, jump);
}

fn diamonds(random: &mut Random) -> Draft {
    let mut writer = Writer::new(random);
    for _ in 0..writer.random.pick(&[1, 2, 2, 3, 3, 4, 5, 9, 40, 300]) {
        diamond(&mut writer);
    }
    drafted(writer)
}

/// Leads a branch that no run reaches: forward to any place, one inside itself too; or back, to its own start or before it.
fn lead_anywhere(writer: &mut Writer, start: usize, back: bool) {
    let (random, next) = (&mut *writer.random, writer.code.len());
    let target = match back {
        true => {
            let before = random.below(start);
            // The last two lie before the code.
            random.pick(&[start, start, start - 1, before, 0, 0usize.wrapping_sub(1), next.wrapping_sub(1 << 15)])
        }
        false => random.pick(&[start + 1, next - 1, next - 2, next, next + 1, next + 300, next + (1 << 15) - 1]),
    };
    writer.lead(next - 2, target);
}

/// Code that is run, then code that is not, and perhaps bytes behind a stop of decoding: none of these is held.
fn unreached(random: &mut Random) -> Draft {
    let mut writer = Writer::new(random);
    let count = writer.random.pick(&[0, 0, 1, 2, 4, 8]);
    write_forward(&mut writer, count);
    let (jump, odd) = (leave(&mut writer, 50), writer.random.below(3));
    for at in 0..writer.random.pick(&[0, 1, 1, 2, 3]) {
        let (start, role) = (writer.code.len(), writer.random.pick(&[23, 24, 25, 5, 26]));
        writer.instruction(role);
        if (23..26).contains(&role) {
            lead_anywhere(&mut writer, start, at == odd);
        }
    }
    if writer.random.percent(40) {
        let unlisted = writer.unlisted();
        writer.code.push(unlisted);
        let start = writer.code.len();
        writer.instruction(23);
        lead_anywhere(&mut writer, start, true);
    }
    land(&mut writer, jump);
    drafted(writer)
}

/// CMP_BR; a load and JMP_IF_NOT, and with a RET that the branch leaves out; one byte each.
const BLOCKS: [&[usize]; 7] = [&[25], &[5, 24], &[5, 24], &[2, 24], &[5, 24, 26], &[5, 1], &[5, 12, 16, 1]];

/// As many of one block as fit, its branch to behind it.
fn write_blocks(writer: &mut Writer, length: usize) {
    let (block, mut size) = (writer.random.pick(&BLOCKS), 0);
    while writer.code.len() + size <= length {
        let start = writer.code.len();
        block.iter().for_each(|role| writer.instruction(*role));
        size = writer.code.len() - start;
        let branch = writer.branches.pop().map(|(at, _)| at);
        land(writer, branch);
    }
}

/// Code of the greatest length or as long as a table, one byte less, or one more.
fn full(random: &mut Random) -> Draft {
    let mut writer = Writer::new(random);
    let most = writer.random.pick(&LENGTHS);
    let length = writer.random.weigh(&[(8, most), (1, most - 1), (1, most + 1)]);
    match writer.random.below(6) {
        0 => {
            writer.fill(length);
            writer.aim_forward();
        }
        1 => {
            while writer.code.len() + LARGEST <= length {
                diamond(&mut writer);
            }
        }
        _ => write_blocks(&mut writer, length),
    }
    writer.fill(length);
    drafted(writer)
}
