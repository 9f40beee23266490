//! Links the proved library. `SILL_LIB_DIR` names the folder that has it, `libsillgarland.a` or else `libsillgarland.so`, as `make
//! install` leaves them. Without it, it is the archive of target/native; where there is none yet, `tools/staticlib` proves the port
//! and builds it, which takes a while; so this says on the terminal what is going on.
use std::ffi::OsString;
use std::fs::OpenOptions;
use std::io::{self, Write};
use std::path::Path;
use std::process::{Child, Command, ExitStatus};
use std::time::{Duration, Instant};

const PACE: Duration = Duration::from_secs(30);

fn main() {
    println!("cargo::rerun-if-env-changed=SILL_LIB_DIR");
    match std::env::var_os("SILL_LIB_DIR") {
        Some(folder) => link_installed(folder),
        None => link_built(),
    }
}

/// From a folder that has the archive, or else the shared library alone.
fn link_installed(folder: OsString) {
    let folder = Path::new(&folder);
    let kinds = [("libsillgarland.a", "static"), ("libsillgarland.so", "dylib")];
    match kinds.iter().find(|(file, _)| folder.join(file).is_file()) {
        Some((file, kind)) => {
            println!("cargo::rerun-if-changed={}", folder.join(file).display());
            link(folder, kind);
        }
        None => complain(&format!(
            "SILL_LIB_DIR is {}, and neither libsillgarland.a nor libsillgarland.so is there",
            folder.display()
        )),
    }
}

fn link_built() {
    let root = Path::new(env!("CARGO_MANIFEST_DIR")).join("../..");
    let native = root.join("target/native");
    let archive = native.join("libsillgarland.a");
    println!("cargo::rerun-if-changed={}", archive.display());
    if !archive.is_file() {
        make_archive(&root);
    }
    link(&native, "static");
}

fn link(folder: &Path, kind: &str) {
    println!("cargo::rustc-link-search=native={}", folder.display());
    println!("cargo::rustc-link-lib={kind}=sillgarland");
}

fn make_archive(root: &Path) {
    tell(
        "target/native/libsillgarland.a is not there yet: tools/staticlib proves the port and builds it (some minutes)",
    );
    let made = Command::new("tools/staticlib").current_dir(root).spawn().and_then(wait);
    match made {
        Ok(status) if status.success() => tell("tools/staticlib is done"),
        Ok(status) => complain(&format!("tools/staticlib failed ({status})")),
        Err(error) => complain(&format!("tools/staticlib could not be run: {error}")),
    }
}

fn wait(mut child: Child) -> io::Result<ExitStatus> {
    let begun = Instant::now();
    let mut next = PACE;
    loop {
        if let Some(status) = child.try_wait()? {
            return Ok(status);
        }
        if begun.elapsed() >= next {
            tell(&format!("tools/staticlib is still at work, for {} s now", begun.elapsed().as_secs()));
            next += PACE;
        }
        std::thread::sleep(Duration::from_millis(200));
    }
}

/// Cargo shows nothing of a build script before it ends, so this goes to the terminal itself, if there is one.
fn tell(message: &str) {
    if let Ok(mut terminal) = OpenOptions::new().write(true).open("/dev/tty") {
        let _ = write!(terminal, "\r\x1b[Ksillgarland: {message}\r\n");
    }
}

/// Cargo shows all that was said, by tools/staticlib too, once the script ends badly.
fn complain(message: &str) {
    eprintln!("{message}");
    std::process::exit(1);
}
