//! Finds the carried Rust and lays out a crate of it: its own files by link, so unchanged; marshal.rs included by a file
//! that adds functions of ours below it; and the two modules that lib.rs names and that are not handed out, empty.
use std::path::{Path, PathBuf};
use std::{env, fs, os::unix};

const FILES: [&str; 7] = [
    "lib.rs",
    "varint.rs",
    "marshal.rs",
    "bytecode.rs",
    "bytecode/instruction.rs",
    "bytecode/oparg.rs",
    "bytecode/opcode_metadata.rs",
];

fn main() {
    println!("cargo::rustc-check-cfg=cfg(carried)");
    println!("cargo::rerun-if-env-changed=SILL_RUST_SOURCE");
    println!("cargo::rerun-if-changed=build.rs");
    println!("cargo::rerun-if-changed=src");
    let folders = candidates();
    match folders.iter().map(|folder| folder.join("src")).find(|src| is_complete(src)) {
        Some(src) => lay_out(&fs::canonicalize(src).unwrap()),
        None => say_absent(&folders),
    }
}

/// Where the Rust may lie: the folder that SILL_RUST_SOURCE names, and only that; else docs/src of the repository; else
/// the same in a folder beside it.
fn candidates() -> Vec<PathBuf> {
    if let Some(named) = env::var_os("SILL_RUST_SOURCE") {
        return vec![PathBuf::from(named)];
    }
    let root = Path::new(env!("CARGO_MANIFEST_DIR")).join("../..");
    vec![root.join("docs/src"), root.join("../shared/docs/src")]
}

fn is_complete(src: &Path) -> bool {
    FILES.iter().all(|file| src.join(file).is_file())
}

fn say_absent(folders: &[PathBuf]) {
    for folder in folders {
        println!("cargo::rerun-if-changed={}", folder.display());
    }
    println!(
        "cargo::warning=the carried Rust is not there (SILL_RUST_SOURCE, docs/src, ../shared/docs/src): the fixed lists stand in"
    );
}

fn lay_out(src: &Path) {
    println!("cargo::rustc-cfg=carried");
    println!("cargo::metadata=present=1");
    println!("cargo::rerun-if-changed={}", src.display());
    let out = PathBuf::from(env::var_os("OUT_DIR").unwrap());
    let tree = out.join("tree");
    if tree.exists() {
        fs::remove_dir_all(&tree).unwrap();
    }
    fs::create_dir_all(tree.join("bytecode")).unwrap();
    for file in FILES.iter().filter(|file| **file != "marshal.rs") {
        unix::fs::symlink(src.join(file), tree.join(file)).unwrap();
    }
    let added = Path::new(env!("CARGO_MANIFEST_DIR")).join("src/within_marshal.rs");
    let marshal = format!("include!({:?});\ninclude!({:?});\n", src.join("marshal.rs"), added);
    fs::write(tree.join("marshal.rs"), marshal).unwrap();
    fs::write(tree.join("frozen.rs"), "").unwrap();
    fs::write(tree.join("mode.rs"), "pub enum Mode {}\n").unwrap();
    let root = "#[allow(unused_attributes, invalid_doc_attributes, dead_code)]\n#[path = \"tree/lib.rs\"]\nmod tree;\npub use tree::*;\n";
    fs::write(out.join("root.rs"), root).unwrap();
}
