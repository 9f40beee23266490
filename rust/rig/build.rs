//! Passes on whether the carried Rust was found: without it the rig is built to replay lists only.
fn main() {
    println!("cargo::rustc-check-cfg=cfg(carried)");
    if std::env::var_os("DEP_CARRIED_PRESENT").is_some() {
        println!("cargo::rustc-cfg=carried");
    }
}
