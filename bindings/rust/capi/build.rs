//! Names the shared library as the linker and the loader are to know it.
use std::env;

fn main() {
    println!("cargo::rerun-if-env-changed=SONAME");
    if let Ok(name) = env::var("SONAME") {
        println!("cargo::rustc-cdylib-link-arg=-Wl,-soname,{name}");
    }
}
