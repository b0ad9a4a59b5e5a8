//! Says where the static library is: MEZHUKAN_LIB names the folder of libmezhukan.a.

use std::path::Path;
use std::{env, process};

const VARIABLE: &str = "MEZHUKAN_LIB";
const LIBRARY: &str = "libmezhukan.a";

fn main() {
    println!("cargo:rerun-if-env-changed={VARIABLE}");
    if let Err(message) = link() {
        eprintln!("mezhukan: {message}");
        process::exit(1);
    }
}

fn link() -> Result<(), String> {
    let arch = env::var("CARGO_CFG_TARGET_ARCH").unwrap_or_default();
    if arch != "x86_64" {
        return Err(format!("the library is made for x86_64, and this is for {arch}"));
    }
    let folder = env::var(VARIABLE).map_err(|_| {
        format!("set {VARIABLE} to the folder of {LIBRARY}: `tools/build mezhukan` writes it to target/staticlib of the repository")
    })?;
    if !Path::new(&folder).is_absolute() {
        return Err(format!("{VARIABLE} must be an absolute path, and is {folder}"));
    }
    let library = Path::new(&folder).join(LIBRARY);
    if !library.is_file() {
        return Err(format!("there is no {} ({VARIABLE} is {folder})", library.display()));
    }
    println!("cargo:rerun-if-changed={}", library.display());
    println!("cargo:rustc-link-search=native={folder}");
    println!("cargo:rustc-link-lib=static=mezhukan");
    Ok(())
}
