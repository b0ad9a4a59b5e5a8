//! Finished bytes run on values, by 01's sheet and its 'Runs' and by 02's L13. The arithmetic is the processor's own, not the interpreter's, so that
//! either can be at fault.

use ironplc_container::opcode as role;
use oracle::sheet::{instructions, Sheet};

use crate::answer::fields;
use crate::meaning::Outcome;

/// A value of the stack, of a variable or of the pool.
pub type Word = i32;

/// Why a run breaks off, which a run of finished code never does.
pub type Broken = &'static str;

/// What a listing says that a run of its code uses.
pub struct Finished<'s> {
    sheet: &'s Sheet,
    /// The code with roles for opcodes.
    code: Vec<u8>,
    starts: Vec<bool>,
    constants: Vec<Word>,
    depth: usize,
}

impl<'s> Finished<'s> {
    /// The code of a listing without refusal.
    pub fn of(sheet: &'s Sheet, listing: &str) -> Result<Self, Broken> {
        let of = |letter: char| listing.lines().filter(move |line| line.starts_with(letter));
        let [0, length, depth, count, _] = fields(listing.lines().next().unwrap_or(""), 0)[..] else {
            return Err("the listing is a refusal");
        };
        let code: Vec<u8> = of('b').flat_map(|line| fields::<u8>(line, 2)).collect();
        let constants: Vec<Word> = of('k').flat_map(|line| fields(line, 1)).collect();
        if (code.len(), constants.len()) != (length, count) {
            return Err("the listing's lengths are not what it lists");
        }
        let code = sheet.to_roles(&code).map_err(|_| "the code has an instruction that is unlisted or cut")?;
        let mut starts = vec![false; length];
        instructions(&code).for_each(|(start, _)| starts[start] = true);
        Ok(Finished { sheet, code, starts, constants, depth })
    }
}

/// A run: what it has reached, and how many steps and stores it took.
pub struct Machine<'c> {
    finished: &'c Finished<'c>,
    place: usize,
    stack: Vec<Word>,
    pub variables: Vec<Word>,
    pub steps: u64,
    pub stores: u64,
}

impl<'c> Machine<'c> {
    pub fn new(finished: &'c Finished<'c>, variables: Vec<Word>) -> Self {
        Machine { finished, place: 0, stack: Vec::new(), variables, steps: 0, stores: 0 }
    }

    /// Runs on until `steps` or `stores` are made in all.
    pub fn run(&mut self, steps: u64, stores: u64) -> Result<Outcome, Broken> {
        let mut outcome = self.here()?;
        while outcome == Outcome::Running && self.steps < steps && self.stores < stores {
            outcome = self.step()?;
        }
        Ok(outcome)
    }

    /// Whether the run has come to the end, where the stack must be empty.
    fn here(&self) -> Result<Outcome, Broken> {
        match self.finished.starts.get(self.place) {
            Some(true) => Ok(Outcome::Running),
            None if self.place == self.finished.code.len() => self.end(),
            _ => Err("a place that is neither start nor end"),
        }
    }

    fn end(&self) -> Result<Outcome, Broken> {
        match self.stack.is_empty() {
            true => Ok(Outcome::Ended),
            false => Err("the stack is not empty at the end"),
        }
    }

    /// One instruction; the run stands at a start.
    fn step(&mut self) -> Result<Outcome, Broken> {
        let (at, op) = (self.place, self.finished.code[self.place]);
        self.steps += 1;
        self.place += role::instruction_size(op);
        match op {
            role::JMP => self.go(at + 1)?,
            role::JMP_IF_NOT => {
                if self.pop()? == 0 {
                    self.go(at + 1)?;
                }
            }
            role::CMP_BR_I32 => {
                if self.compared(at)? {
                    self.go(at + 6)?;
                }
            }
            role::RET => return self.end(),
            _ => {
                if !self.on_values(op, at)? {
                    return Ok(Outcome::Stopped);
                }
            }
        }
        self.here()
    }

    fn operand(&self, at: usize) -> u16 {
        u16::from_le_bytes([self.finished.code[at], self.finished.code[at + 1]])
    }

    /// Adds the offset whose two bytes end the instruction to the place behind them.
    fn go(&mut self, at: usize) -> Result<(), Broken> {
        let offset = isize::from(self.operand(at) as i16);
        self.place = (at + 2).checked_add_signed(offset).ok_or("a branch to before the code")?;
        Ok(())
    }

    /// Whether a fused comparison holds.
    fn compared(&self, at: usize) -> Result<bool, Broken> {
        let listed = self.finished.sheet.comparisons.iter().position(|byte| *byte == self.finished.code[at + 1]);
        let comparison = listed.ok_or("an unlisted comparison")?;
        Ok(compare(comparison, self.variable(at + 2)?, self.constant(at + 4)?))
    }

    fn variable(&self, at: usize) -> Result<Word, Broken> {
        self.variables.get(usize::from(self.operand(at))).copied().ok_or("a variable that the program lacks")
    }

    fn constant(&self, at: usize) -> Result<Word, Broken> {
        self.finished.constants.get(usize::from(self.operand(at))).copied().ok_or("a constant that the pool lacks")
    }

    fn pop(&mut self) -> Result<Word, Broken> {
        self.stack.pop().ok_or("an empty stack popped")
    }

    fn push(&mut self, value: Word) -> Result<(), Broken> {
        self.stack.push(value);
        match self.stack.len() <= self.finished.depth {
            true => Ok(()),
            false => Err("the stack passes the depth"),
        }
    }

    /// An instruction that goes on behind itself; false at a zero divisor.
    fn on_values(&mut self, op: u8, at: usize) -> Result<bool, Broken> {
        let result = match op {
            role::DUP => *self.stack.last().ok_or("an empty stack doubled")?,
            role::LOAD_VAR_I32 => self.variable(at + 1)?,
            role::LOAD_CONST_I32 => self.constant(at + 1)?,
            role::LOAD_TRUE => 1,
            role::LOAD_FALSE => 0,
            role::NEG_I32 => self.pop()?.wrapping_neg(),
            role::BOOL_NOT => Word::from(self.pop()? == 0),
            role::POP => return self.pop().map(|_| true),
            role::STORE_VAR_I32 => return self.store(at + 1).map(|()| true),
            _ => {
                let (right, left) = (self.pop()?, self.pop()?);
                match operate(op, left, right) {
                    Some(result) => result,
                    None => return Ok(false),
                }
            }
        };
        self.push(result)?;
        Ok(true)
    }

    fn store(&mut self, at: usize) -> Result<(), Broken> {
        let (value, index) = (self.pop()?, usize::from(self.operand(at)));
        *self.variables.get_mut(index).ok_or("a variable that the program lacks")? = value;
        self.stores += 1;
        Ok(())
    }
}

/// The result of an operation on two values; none at a zero divisor.
fn operate(op: u8, left: Word, right: Word) -> Option<Word> {
    let divisor = (right != 0).then_some(right);
    Some(match op {
        role::ADD_I32 => left.wrapping_add(right),
        role::SUB_I32 => left.wrapping_sub(right),
        role::MUL_I32 => left.wrapping_mul(right),
        role::DIV_I32 => left.wrapping_div(divisor?),
        role::MOD_I32 => left.wrapping_rem(divisor?),
        role::BOOL_AND => Word::from(left != 0 && right != 0),
        role::BOOL_OR => Word::from(left != 0 || right != 0),
        role::BOOL_XOR => Word::from((left != 0) ^ (right != 0)),
        _ => Word::from(compare(usize::from(op - role::EQ_I32), left, right)),
    })
}

/// Comparisons by their place in 01's order.
fn compare(comparison: usize, left: Word, right: Word) -> bool {
    [left == right, left != right, left < right, left <= right, left > right, left >= right][comparison]
}
