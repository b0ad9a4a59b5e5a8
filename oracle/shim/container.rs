//! Stands for the container crate: the numbers that the emitter writes.

pub mod opcode;

macro_rules! number {
    ($name:ident, $of:ty) => {
        #[derive(Clone, Copy, Debug, PartialEq, Eq)]
        pub struct $name(pub $of);

        impl $name {
            pub fn to_le_bytes(self) -> [u8; std::mem::size_of::<$of>()] {
                self.0.to_le_bytes()
            }
        }
    };
}

number!(VarIndex, u16);
number!(SourceFileId, u16);
number!(SourceLine, u16);
number!(SourceColumn, u16);
number!(FunctionId, u16);
number!(FbTypeId, u16);

/// Named by the string instructions, which 01 leaves out.
pub enum CharWidth {}

impl CharWidth {
    pub fn byte_width(&self) -> u8 {
        match *self {}
    }
}
