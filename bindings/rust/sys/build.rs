//! Finds the archive `libhojzmated.a`, and has it linked; and tells where the header is.
//!
//! It is looked for where `HOJZMATED_PREFIX` says, then in this crate's folder `lib/x86_64-linux`, where a
//! package and the crate of a release have it, then where pkg-config says, and then in the checkout that
//! this crate stands in. There `rt lib` in crates/hojzmated_c and then `make -C bindings/c` build it. For
//! documents alone it is not wanted.
use std::env;
use std::path::{Path, PathBuf};
use std::process::{Command, Stdio};

const ARCHIVE: &str = "libhojzmated.a";

fn main() {
    for name in [
        "DOCS_RS",
        "HOJZMATED_PREFIX",
        "PKG_CONFIG",
        "PKG_CONFIG_PATH",
    ] {
        println!("cargo::rerun-if-env-changed={name}");
    }
    tell_sources();
    if env::var_os("DOCS_RS").is_some() {
        return;
    }
    match check_target().and_then(|()| found_folder()) {
        Ok(folder) => {
            println!("cargo::rerun-if-changed={}", folder.join(ARCHIVE).display());
            println!("cargo::rustc-link-search=native={}", folder.display());
            println!("cargo::rustc-link-lib=static=hojzmated");
        }
        Err(why) => println!("cargo::error={why}"),
    }
}

/// The folder of this crate.
fn own() -> PathBuf {
    env::var_os("CARGO_MANIFEST_DIR").map_or(".".into(), PathBuf::from)
}

/// Tells where the header is, and what its layout is to be: a package has them inside, and a checkout where
/// they belong.
fn tell_sources() {
    let found = |inside: &str, beside: &str| {
        let places = [own().join(inside), own().join("../../..").join(beside)];
        places.iter().find_map(|it| it.canonicalize().ok())
    };
    match found("include/hojzmated.h", "include/hojzmated.h") {
        Some(header) => {
            println!("cargo::rustc-env=HOJZMATED_HEADER={}", header.display());
            if let Some(folder) = header.parent() {
                println!("cargo::metadata=include={}", folder.display());
            }
        }
        None => println!("cargo::error=there is no include/hojzmated.h"),
    }
    // The tests alone want it.
    if let Some(layout) = found("tests/layout.c", "peers/c/layout.c") {
        println!("cargo::rustc-env=HOJZMATED_LAYOUT={}", layout.display());
    }
}

/// Refuses a target for which there is no proved library.
fn check_target() -> Result<(), String> {
    let told = |key| env::var(format!("CARGO_CFG_TARGET_{key}")).unwrap_or_default();
    match (told("ARCH").as_str(), told("OS").as_str()) {
        ("x86_64", "linux") => Ok(()),
        (processor, system) => Err(format!(
            "hojzmated is there for x86_64 Linux alone, and not for {processor} {system}: its proved library is built \
             for no other target"
        )),
    }
}

/// The folder of the archive. A prefix that is named and has none is an error: no other archive is
/// taken for it.
fn found_folder() -> Result<PathBuf, String> {
    if let Some(prefix) = env::var_os("HOJZMATED_PREFIX") {
        let prefix = Path::new(&prefix);
        let folder = prefix.join("lib");
        let is_there = folder.join(ARCHIVE).is_file();
        return is_there.then_some(folder).ok_or(format!(
            "HOJZMATED_PREFIX is {}, and there is no lib/{ARCHIVE}",
            prefix.display()
        ));
    }
    within_the_crate()
        .or_else(told_by_pkg_config)
        .or_else(built_in_the_checkout)
        .ok_or(format!(
            "no {ARCHIVE}: install it and set HOJZMATED_PREFIX, or have pkg-config find hojzmated.pc; in a checkout \
             `(cd crates/hojzmated_c && rt lib) && make -C bindings/c` builds it"
        ))
}

fn within_the_crate() -> Option<PathBuf> {
    let folder = own().join("lib").join("x86_64-linux");
    folder.join(ARCHIVE).is_file().then_some(folder)
}

fn told_by_pkg_config() -> Option<PathBuf> {
    let program = env::var_os("PKG_CONFIG").unwrap_or("pkg-config".into());
    let told = Command::new(program)
        .args(["--variable=libdir", "hojzmated"])
        .output()
        .ok()?;
    let folder = PathBuf::from(String::from_utf8(told.stdout).ok()?.trim());
    (told.status.success() && folder.join(ARCHIVE).is_file()).then_some(folder)
}

/// What `make` left in `bindings/c`, made now where it is not there yet.
fn built_in_the_checkout() -> Option<PathBuf> {
    let beside = own().parent()?.parent()?.join("c");
    if !beside.join("Makefile").is_file() {
        return None;
    }
    let folder = beside.join("out").join("lib");
    println!("cargo::rerun-if-changed={}", folder.join(ARCHIVE).display());
    if !folder.join(ARCHIVE).is_file() {
        let mut make = Command::new("make");
        // What it says would be taken for words to cargo.
        make.arg("-C").arg(&beside).stdout(Stdio::null());
        make.status().ok()?;
    }
    folder.join(ARCHIVE).is_file().then_some(folder)
}
