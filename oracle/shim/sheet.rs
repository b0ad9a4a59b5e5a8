//! The opcode sheet, and code told over between its bytes and the roles.

use ironplc_container::opcode;

pub const ROLES: usize = 27;
pub const COMPARISONS: usize = 6;

pub struct Sheet {
    pub opcodes: [u8; ROLES],
    pub comparisons: [u8; COMPARISONS],
}

impl Sheet {
    fn role(&self, byte: u8) -> Option<u8> {
        let role = self.opcodes.iter().position(|opcode| *opcode == byte)?;
        u8::try_from(role).ok()
    }

    /// `code` with roles for opcodes; else the offset of the first instruction that is unlisted or cut.
    pub fn to_roles(&self, code: &[u8]) -> Result<Vec<u8>, usize> {
        let mut roles = code.to_vec();
        let mut at = 0;
        while at < code.len() {
            let role = self.role(code[at]).ok_or(at)?;
            roles[at] = role;
            let end = at + opcode::instruction_size(role);
            if end > code.len() {
                return Err(at);
            }
            at = end;
        }
        Ok(roles)
    }

    /// The bytes of an instruction whose opcode is a role. Its comparison is one of 01's order if `compiled`,
    /// else a byte that was copied.
    pub fn bytes_of(&self, instruction: &[u8], compiled: bool) -> Vec<u8> {
        let mut bytes = instruction.to_vec();
        bytes[0] = self.opcodes[usize::from(instruction[0])];
        if compiled && instruction[0] == opcode::CMP_BR_I32 {
            bytes[1] = self.comparisons[usize::from(instruction[1])];
        }
        bytes
    }
}

/// The instructions of code over roles, each with its offset.
pub fn instructions(code: &[u8]) -> impl Iterator<Item = (usize, &[u8])> {
    let mut at = 0;
    std::iter::from_fn(move || {
        let start = at;
        at += opcode::instruction_size(*code.get(start)?);
        Some((start, &code[start..at]))
    })
}
