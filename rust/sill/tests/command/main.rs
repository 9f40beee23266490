//! The command as people call it: what it prints, where, and how it ends.
mod calling;
mod checking;
mod comparing;
mod formats;
mod lists;
mod repairing;
mod reporting;
mod rows;
mod sentences;
mod showing;
mod side_by_side;
mod taking_bytes;
mod totals;
mod writing;
mod wrong_files;

use std::fs;
use std::os::unix::fs::PermissionsExt;
use std::path::{Path, PathBuf};
use std::process::{Command, Output};

fn root() -> PathBuf {
    Path::new(env!("CARGO_MANIFEST_DIR")).join("../..")
}

fn sill(words: &[&str]) -> Output {
    Command::new(env!("CARGO_BIN_EXE_sill")).args(words).current_dir(root()).output().unwrap()
}

/// Exit status, standard output and standard error.
fn ended(words: &[&str]) -> (i32, String, String) {
    let Output { status, stdout, stderr } = sill(words);
    (status.code().unwrap(), String::from_utf8(stdout).unwrap(), String::from_utf8(stderr).unwrap())
}

/// The same with bytes on standard input.
fn fed(words: &[&str], input: &[u8]) -> (i32, String, String) {
    let Output { status, stdout, stderr } = piped(Command::new(env!("CARGO_BIN_EXE_sill")).args(words), input).unwrap();
    (status.code().unwrap(), String::from_utf8(stdout).unwrap(), String::from_utf8(stderr).unwrap())
}

fn piped(command: &mut Command, input: &[u8]) -> std::io::Result<Output> {
    let piped = std::process::Stdio::piped;
    let mut child = command.current_dir(root()).stdin(piped()).stdout(piped()).stderr(piped()).spawn()?;
    let (mut stdin, input) = (child.stdin.take().unwrap(), input.to_vec());
    let feeder = std::thread::spawn(move || std::io::Write::write_all(&mut stdin, &input));
    let output = child.wait_with_output();
    match feeder.join().unwrap() {
        Err(error) if error.kind() != std::io::ErrorKind::BrokenPipe => Err(error), // it may end without reading
        _ => output,
    }
}

/// What a script of Python prints of its input.
fn python(script: &str, input: &[u8]) -> String {
    let output = piped(Command::new("python3").args(["-c", script]), input).unwrap();
    assert_eq!(String::from_utf8_lossy(&output.stderr), "");
    String::from_utf8(output.stdout).unwrap()
}

/// What jq prints of its input, if it is there.
fn jq(filter: &str, input: &[u8]) -> Option<String> {
    let output = piped(Command::new("jq").args(["-c", filter]), input).ok()?;
    assert_eq!(String::from_utf8_lossy(&output.stderr), "");
    Some(String::from_utf8(output.stdout).unwrap())
}

/// A folder of a test's own, empty.
fn folder(name: &str) -> PathBuf {
    let folder = Path::new(env!("CARGO_TARGET_TMPDIR")).join(name);
    let _ = fs::remove_dir_all(&folder);
    fs::create_dir_all(&folder).unwrap();
    folder
}

fn file(folder: &Path, name: &str, bytes: &[u8]) -> String {
    let path = folder.join(name);
    fs::write(&path, bytes).unwrap();
    path.to_str().unwrap().to_string()
}

/// The bytes of a value that counts its contents in four bytes.
fn counted(letter: u8, contents: &[u8]) -> Vec<u8> {
    [&[letter][..], &(contents.len() as u32).to_le_bytes(), contents].concat()
}

/// A code object named `total`, of so many instructions.
fn code(instructions: usize, first_line: i32, table: &[u8]) -> Vec<u8> {
    code_with(instructions, first_line, &counted(b's', table), &counted(b's', b""))
}

/// The same with what stands for its line table and its exception table.
fn code_with(instructions: usize, first_line: i32, table: &[u8], exceptions: &[u8]) -> Vec<u8> {
    let parts = [
        &[b"c", &[0; 20][..]].concat()[..],
        &counted(b's', &[9, 0].repeat(instructions)),
        b")\0)\0)\0",
        &counted(b's', b""),
        b"z\x08rates.pyz\x05totalz\x05total",
        &first_line.to_le_bytes(),
        table,
        exceptions,
    ];
    parts.concat()
}

/// The same with a name of its own.
fn named_code(name: &str, instructions: usize, first_line: i32, table: &[u8]) -> Vec<u8> {
    let golden = code(instructions, first_line, table);
    let at = golden.windows(14).position(|window| window == b"z\x05totalz\x05total").unwrap();
    let named = [&[b'z', name.len() as u8][..], name.as_bytes()].concat();
    [&golden[..at + 7], &named, &golden[at + 14..]].concat()
}

/// A code object of eight instructions, two of them at row 11, with these bytes for its exception table.
fn guarded(exceptions: &[u8]) -> Vec<u8> {
    code_with(8, 10, &counted(b's', &[0xE9, 0x02, 0xFD]), &counted(b's', exceptions))
}
