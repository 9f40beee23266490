//! The defaults file ships with the command: it is put beside it, where the command looks for it.
use std::path::Path;
use std::{env, fs};

fn main() {
    println!("cargo:rerun-if-changed=sill.defaults");
    // OUT_DIR is PROFILE/build/PACKAGE/out, and the command is PROFILE/sill.
    let out = env::var("OUT_DIR").expect("cargo names the folder");
    let beside = Path::new(&out).ancestors().nth(3).expect("the folder of the profile").join("sill.defaults");
    fs::copy("sill.defaults", &beside).unwrap_or_else(|error| panic!("{}: {error}", beside.display()));
}
