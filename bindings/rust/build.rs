//! Tells where RULES.md is: a package of this crate has it inside, and a checkout among its documents.
use std::path::Path;

fn main() {
    println!("cargo::rerun-if-changed=build.rs");
    match ["RULES.md", "../../docs/RULES.md"]
        .iter()
        .find_map(|it| Path::new(it).canonicalize().ok())
    {
        Some(path) => println!("cargo::rustc-env=HOJZMATED_RULES={}", path.display()),
        None => println!("cargo::error=there is no RULES.md"),
    }
}
