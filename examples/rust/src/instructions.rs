//! Which instruction starts with a byte, by the opcode sheet, for the examples that go through code.

/// What a way through code must know of an instruction.
#[derive(Clone, Copy, Debug, PartialEq, Eq)]
pub enum Kind {
    /// One byte.
    Plain,
    /// Loads and stores: a 16-bit operand.
    Operand,
    /// JMP.
    Jmp,
    /// JMP_IF_NOT.
    JmpIfNot,
    /// CMP_BR: comparison, variable, constant.
    CmpBr,
}

impl Kind {
    fn of_role(role: usize) -> Kind {
        match role {
            2..=4 => Kind::Operand,
            23 => Kind::Jmp,
            24 => Kind::JmpIfNot,
            25 => Kind::CmpBr,
            _ => Kind::Plain,
        }
    }

    /// How long it is. Of a branch the last two bytes are its offset.
    pub fn size(self) -> usize {
        match self {
            Kind::Plain => 1,
            Kind::Operand | Kind::Jmp | Kind::JmpIfNot => 3,
            Kind::CmpBr => 8,
        }
    }
}

/// The kinds of all bytes, by a sheet that was accepted: its first 27 numbers are the opcodes of the roles.
pub fn kinds(sheet: &[u8]) -> [Kind; 256] {
    const ROLES: usize = 27;
    let mut kinds = [Kind::Plain; 256];
    for (role, opcode) in sheet.split(|byte| *byte == b',').take(ROLES).enumerate() {
        let opcode = opcode.iter().fold(0, |number, digit| number * 10 + usize::from(digit - b'0'));
        kinds[opcode] = Kind::of_role(role);
    }
    kinds
}
