//! What the examples share.

#![forbid(unsafe_code)]

pub mod image_file;
pub mod instructions;
pub mod numbers;
