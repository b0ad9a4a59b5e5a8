//! A file of images checked through the library, as `examples/c/images.c` does it: what it reads and prints stands there. From the repository's
//! root:
//!
//!     tools/build mezhukan
//!     MEZHUKAN_LIB=$PWD/target/staticlib cargo run --manifest-path examples/rust/Cargo.toml --bin images < examples/images.txt

#![forbid(unsafe_code)]

use std::io::{self, Write};
use std::process::ExitCode;

use mezhukan::{check_image, Refusal};
use shared::image_file::{answer_file, Image};

fn main() -> ExitCode {
    answer_file("images", check)
}

fn check(image: &Image, out: &mut dyn Write) -> io::Result<bool> {
    let answer = check_image(image.sheet, image.code, image.depth);
    let (number, place) = answer.map_or_else(|Refusal { number, place }| (number, place), |()| (0, 0));
    writeln!(out, "{number},{place}")?;
    Ok(answer.is_ok())
}
