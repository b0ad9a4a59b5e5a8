//! Our own call, our rewriting called alone, our check of images and our slowest call, linked as a static library (crates/mezhukan): the first two for the times.

use oracle::limits::{CODE, CONSTANTS, ENTRIES, LABELS};
use oracle::reader::split_line;

use crate::answer::fields;
use crate::images::Image;

extern "C" {
    #[allow(improper_ctypes)]
    fn mezhukan_compile(
        sheet: &[u8],
        rules: &[u8],
        program: &[u8],
        code: &mut [u8],
        constants: &mut [u32],
        lines: &mut [u16],
        answer: &mut [u64; 6],
    ) -> u8;

    #[allow(improper_ctypes)]
    fn mezhukan_rewrite_alone(
        sheet: &[u8],
        rules: &[u8],
        code: &[u8],
        protected: &[u16],
        lines: &[u16],
        bytes: &mut [u8],
        offsets: &mut [u16],
        entries: &mut [u16],
        answer: &mut [u64; 5],
    ) -> u8;

    #[allow(improper_ctypes)]
    fn mezhukan_check_image(sheet: &[u8], code: &[u8], depth: u64, answer: &mut [u64; 2]) -> u8;

    /// As C has it: a slice would not be parted between the last register and the stack.
    fn mezhukan_slowest(
        sheet: *const u8,
        sheet_length: usize,
        code: *const u8,
        code_length: usize,
        depth: u64,
        outcomes: *mut u8,
        outcomes_length: usize,
        answer: &mut [u64; 5],
    ) -> u8;
}

/// The sheet file, the rule file and what follows them, of an input that the oracle's reader accepts.
fn files(text: &[u8]) -> (Vec<u8>, Vec<u8>, &[u8]) {
    let next = |rest| split_line(rest).unwrap_or((rest, &[]));
    let file = |line: &[u8]| [line, b"\n"].concat();
    let (sheet, rest) = next(text);
    let (count, mut rest) = next(rest);
    let mut rules = Vec::new();
    for _ in 0..String::from_utf8_lossy(count).parse().unwrap_or(0) {
        let (rule, after) = next(rest);
        rules.extend(file(rule));
        rest = after;
    }
    (file(sheet), rules, rest)
}

/// The call: what is handed over, and room for what comes back.
pub struct Compile {
    sheet: Vec<u8>,
    rules: Vec<u8>,
    program: Vec<u8>,
    code: Vec<u8>,
    constants: Vec<u32>,
    lines: Vec<u16>,
    answer: [u64; 6],
}

impl Compile {
    pub fn of(text: &[u8]) -> Self {
        let (sheet, rules, program) = files(text);
        let (code, constants, lines) = (vec![0; CODE], vec![0; CONSTANTS], vec![0; 3 * ENTRIES]);
        Compile { sheet, rules, program: program.to_vec(), code, constants, lines, answer: [0; 6] }
    }

    pub fn run(&mut self) -> u8 {
        let Compile { sheet, rules, program, code, constants, lines, answer } = self;
        // SAFETY: the function has no requirement, and the slices are those of live vectors.
        unsafe { mezhukan_compile(sheet, rules, program, code, constants, lines, answer) }
    }

    /// The listing but for its instructions: numbers, constants, entries.
    pub fn head(&self) -> String {
        let [number, place, length, depth, constants, entries] = self.answer;
        if number != 0 {
            return format!("{number},{place}\n");
        }
        let mut text = format!("0,{length},{depth},{constants},{entries}\n");
        self.constants.iter().take(constants as usize).for_each(|k| text += &format!("k,{}\n", *k as i32));
        let entries = self.lines.chunks(3).take(entries as usize);
        entries.for_each(|entry| text += &format!("l,{},{},{}\n", entry[0], entry[1], entry[2]));
        text
    }

    /// The code that was given back.
    pub fn code(&self) -> &[u8] {
        &self.code[..self.answer[2] as usize]
    }
}

/// Rewriting called alone: what is handed over, and room for what comes back.
pub struct Rewrite {
    sheet: Vec<u8>,
    rules: Vec<u8>,
    code: Vec<u8>,
    protected: Vec<u16>,
    lines: Vec<u16>,
    pub bytes: Vec<u8>,
    offsets: Vec<u16>,
    entries: Vec<u16>,
    answer: [u64; 5],
}

impl Rewrite {
    pub fn of(text: &[u8]) -> Self {
        let (sheet, rules, rest) = files(text);
        let rest = String::from_utf8_lossy(rest);
        let mut lines = rest.lines();
        let code = fields(lines.next().unwrap_or(""), 0);
        let protected = fields(lines.next().unwrap_or(""), 0);
        let lines = lines.flat_map(|line| fields::<u16>(line, 0)).collect();
        let (bytes, offsets, entries) = (vec![0; CODE], vec![0; LABELS], vec![0; 3 * ENTRIES]);
        Rewrite { sheet, rules, code, protected, lines, bytes, offsets, entries, answer: [0; 5] }
    }

    pub fn run(&mut self) -> u8 {
        let Rewrite { sheet, rules, code, protected, lines, bytes, offsets, entries, answer } = self;
        // SAFETY: the function has no requirement, and the slices are those of live vectors.
        unsafe { mezhukan_rewrite_alone(sheet, rules, code, protected, lines, bytes, offsets, entries, answer) }
    }
}

fn sheet_file(image: &Image) -> Vec<u8> {
    [image.sheet.as_slice(), b"\n"].concat()
}

/// What our check answers for an image; the result must be the answer's number.
pub fn checked(image: &Image) -> String {
    let mut answer = [u64::MAX; 2];
    // SAFETY: the function has no requirement, and the slices are those of live vectors.
    let result = unsafe { mezhukan_check_image(&sheet_file(image), &image.code, image.depth, &mut answer) };
    let [number, place] = answer;
    format!("{number},{place}\n") + &other_result(result, number)
}

/// Says so if a result is not the answer's number.
fn other_result(result: u8, number: u64) -> String {
    match u64::from(result) == number {
        true => String::new(),
        false => format!("but the result: {result}\n"),
    }
}

/// The slowest call: what is handed over, and room for what comes back.
pub struct Slowest<'i> {
    sheet: Vec<u8>,
    image: &'i Image,
    outcomes: Vec<u8>,
    answer: [u64; 5],
}

/// What stands in the room before: neither an outcome nor 0.
const UNTOUCHED: u8 = 0xaa;

impl<'i> Slowest<'i> {
    /// With so many bytes lent for the outcomes.
    pub fn of(image: &'i Image, room: usize) -> Self {
        Slowest { sheet: sheet_file(image), image, outcomes: vec![UNTOUCHED; room], answer: [u64::MAX; 5] }
    }

    pub fn run(&mut self) -> u8 {
        let Slowest { sheet, image: Image { code, depth, .. }, outcomes, answer } = self;
        let (lent, room) = (outcomes.as_mut_ptr(), outcomes.len());
        // SAFETY: the function has no requirement, and the lists are live vectors.
        unsafe { mezhukan_slowest(sheet.as_ptr(), sheet.len(), code.as_ptr(), code.len(), *depth, lent, room, answer) }
    }

    /// What it answers, in one line. More lines say what no answer of the readings has: outcomes that are not there, a byte behind them, another result.
    pub fn answered(&mut self) -> String {
        let result = self.run();
        let [number, place, loops, count, length] = self.answer;
        let mut text = format!("{number},{place},{loops},{count}");
        match self.outcomes.split_at_checked(length as usize) {
            Some((outcomes, behind)) => {
                outcomes.iter().for_each(|outcome| text += &format!(",{outcome}"));
                text += "\n";
                let left = behind.iter().find(|byte| **byte != 0);
                left.into_iter().for_each(|byte| text += &format!("but a byte behind the outcomes: {byte}\n"));
            }
            None => text += &format!("\nbut the number of outcomes: {length}\n"),
        }
        text + &other_result(result, number)
    }
}
