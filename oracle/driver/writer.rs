//! Code at random, instruction by instruction.

use std::collections::BTreeMap;

use crate::head;
use crate::random::Random;

/// Code that is being written: its starts with the heights there, if it is run through from the first byte on, and its branches.
pub struct Writer<'r> {
    pub random: &'r mut Random,
    pub sheet: Vec<u8>,
    pub code: Vec<u8>,
    pub height: usize,
    pub highest: usize,
    pub places: Vec<(usize, usize)>,
    pub branches: Vec<Branch>,
}

/// Where the two bytes of an offset stand, and the height behind the branch.
pub type Branch = (usize, usize);

/// The places at each height, in order.
pub type Levels = BTreeMap<usize, Vec<usize>>;

/// Roles by what they need: nothing, one value, two.
const FREE: [usize; 9] = [2, 4, 5, 6, 23, 25, 25, 25, 26];
const ON_ONE: [usize; 9] = [0, 0, 1, 3, 12, 16, 24, 24, 24];
const ON_TWO: [usize; 5] = [7, 9, 11, 14, 20];

impl<'r> Writer<'r> {
    pub fn new(random: &'r mut Random) -> Self {
        let sheet = if random.percent(80) { head::plain_sheet() } else { head::sheet(random) };
        Writer { random, sheet, code: Vec::new(), height: 0, highest: 0, places: Vec::new(), branches: Vec::new() }
    }

    pub fn instruction(&mut self, role: usize) {
        self.places.push((self.code.len(), self.height));
        self.code.push(self.sheet[role]);
        self.height = match role {
            0 | 2 | 4..=6 => self.height + 1,
            1 | 3 | 7..=11 | 13..=15 | 17..=22 | 24 => self.height.saturating_sub(1),
            _ => self.height,
        };
        self.highest = self.highest.max(self.height);
        match role {
            2..=4 => self.code.extend([self.random.below(4) as u8, 0]),
            23 | 24 => self.code.extend([0; 2]),
            25 => {
                let comparison = 27 + self.random.below(6);
                self.code.extend([self.sheet[comparison], 0, 0, 0, 0, 0, 0]);
            }
            _ => return,
        }
        if role >= 23 {
            self.branches.push((self.code.len() - 2, self.height));
        }
    }

    /// A role that the height here allows, where `fitting`.
    pub fn role(&mut self, fitting: bool) -> usize {
        if !fitting {
            return self.random.below(27);
        }
        let choices: &[&[usize]] = match self.height {
            0 => &[&FREE],
            1 => &[&FREE[..8], &ON_ONE],
            _ => &[&FREE[..8], &ON_ONE, &ON_TWO],
        };
        let group = self.random.pick(choices);
        self.random.pick(group)
    }

    pub fn levels(&self) -> Levels {
        let mut levels = Levels::new();
        self.places.iter().for_each(|(place, height)| levels.entry(*height).or_default().push(*place));
        levels
    }

    /// Sets a branch's offset: to a start or the end, at its height if there is one and `fitting`; else anywhere.
    pub fn aim(&mut self, (at, height): Branch, fitting: bool, levels: &Levels) {
        let level = levels.get(&height).map_or(&[][..], Vec::as_slice);
        let end = self.code.len();
        let any = self.random.pick(&self.places).0;
        let target = match self.random.below(20) {
            _ if fitting && !level.is_empty() => self.random.pick(level),
            0..14 => any,
            14 => end,
            15 => any + 1,
            16 => end + self.random.pick(&[1, 2, 300]),
            // Below 0: wrapped here, and read as a signed number by a run.
            17 => 0usize.wrapping_sub(self.random.pick(&[1, 2, 3, 300])),
            18 => (at + 2).wrapping_add(self.random.pick(&[0x7fff, 0x8000])),
            _ => self.random.below(1 << 16),
        };
        self.lead(at, target);
    }

    /// Sets the offset that stands here so that its branch leads to a place.
    pub fn lead(&mut self, at: usize, target: usize) {
        let offset = target.wrapping_sub(at + 2) as u16;
        self.code[at..at + 2].copy_from_slice(&offset.to_le_bytes());
    }

    /// Leads every branch forward, to a place at its height: often a near one, and the one behind it too.
    pub fn aim_forward(&mut self) {
        self.places.push((self.code.len(), self.height));
        let levels = self.levels();
        for (at, height) in std::mem::take(&mut self.branches) {
            let level = &levels[&height];
            let level = &level[level.partition_point(|place| *place < at + 2)..];
            let near = level.len().min(self.random.pick(&[1, 3, 5, 9, usize::MAX]));
            let target = self.random.pick(&level[..near]);
            self.lead(at, target);
        }
    }

    /// Instructions at random, the stack emptied, and RETs, up to a length.
    pub fn fill(&mut self, length: usize) {
        while self.code.len() + 8 + self.height < length {
            let role = if self.height < 50 { self.role(true) } else { 1 };
            self.instruction(role);
        }
        self.pop_all();
        while self.code.len() < length {
            self.instruction(26);
        }
    }

    pub fn pop_all(&mut self) {
        while self.height > 0 {
            self.instruction(1);
        }
    }

    /// Something unlisted or cut, or a branch that leads elsewhere.
    pub fn slip(&mut self) {
        let at = self.random.pick(&self.places).0;
        let unlisted = self.unlisted();
        let odd = self.random.pick(&[unlisted, unlisted, self.sheet[0], 255]);
        match self.random.below(4) {
            0 => self.code.push(odd),
            1 if at < self.code.len() => self.code[at] = odd,
            // In a CMP_BR this is the comparison.
            2 if at + 1 < self.code.len() => self.code[at + 1] = odd,
            _ => self.code.truncate(self.code.len().saturating_sub(1 + self.random.below(3))),
        }
    }
    /// A byte that is neither opcode nor comparison.
    pub fn unlisted(&self) -> u8 {
        (0..=255).find(|byte| !self.sheet.contains(byte)).unwrap_or(0)
    }
}
