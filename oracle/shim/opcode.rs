//! An opcode is its role's number in 01 here; the sheet gives it its byte where code is read or written.

pub const DUP: u8 = 0;
pub const POP: u8 = 1;
pub const LOAD_VAR_I32: u8 = 2;
pub const STORE_VAR_I32: u8 = 3;
pub const LOAD_CONST_I32: u8 = 4;
pub const LOAD_TRUE: u8 = 5;
pub const LOAD_FALSE: u8 = 6;
pub const ADD_I32: u8 = 7;
pub const SUB_I32: u8 = 8;
pub const MUL_I32: u8 = 9;
pub const DIV_I32: u8 = 10;
pub const MOD_I32: u8 = 11;
pub const NEG_I32: u8 = 12;
pub const BOOL_AND: u8 = 13;
pub const BOOL_OR: u8 = 14;
pub const BOOL_XOR: u8 = 15;
pub const BOOL_NOT: u8 = 16;
pub const EQ_I32: u8 = 17;
pub const NE_I32: u8 = 18;
pub const LT_I32: u8 = 19;
pub const LE_I32: u8 = 20;
pub const GT_I32: u8 = 21;
pub const GE_I32: u8 = 22;
pub const JMP: u8 = 23;
pub const JMP_IF_NOT: u8 = 24;
pub const CMP_BR_I32: u8 = 25;
pub const RET: u8 = 26;

/// Bytes of an instruction.
pub fn instruction_size(op: u8) -> usize {
    match op {
        LOAD_VAR_I32 | STORE_VAR_I32 | LOAD_CONST_I32 | JMP | JMP_IF_NOT => 3,
        CMP_BR_I32 => 8,
        _ => 1,
    }
}

/// The comparison of a `CMP_BR`: its place in 01's order.
pub mod cmp_op {
    pub const EQ: u8 = 0;
    pub const NE: u8 = 1;
    pub const LT_S: u8 = 2;
    pub const LE_S: u8 = 3;
    pub const GT_S: u8 = 4;
    pub const GE_S: u8 = 5;

    pub fn is_valid(cmp: u8) -> bool {
        cmp <= GE_S
    }

    /// The comparison that holds where `cmp` does not.
    pub fn negate(cmp: u8) -> Option<u8> {
        [NE, EQ, GE_S, GT_S, LE_S, LT_S].get(usize::from(cmp)).copied()
    }

    /// The comparison with its sides swapped.
    pub fn commute(cmp: u8) -> Option<u8> {
        [EQ, NE, GT_S, GE_S, LT_S, LE_S].get(usize::from(cmp)).copied()
    }
}

/// The functions that 01 leaves out: there are none.
pub mod builtin {
    pub fn arg_count_opt(_function: u16) -> Option<u16> {
        None
    }

    pub fn allocates_temp_buf(_function: u16) -> bool {
        false
    }
}
