//! `sill write`: the canonical form, read back and compared before it is put in place.
use crate::options::Arguments;
use crate::words::{self, Within};
use crate::{Outcome, complaints, files, text};
use sillgarland::{Form, Golden, Reader, first_difference};
use std::fs::{self, File};
use std::io::{self, Write};
use std::os::unix::fs::MetadataExt;
use std::path::{Path, PathBuf};

pub fn run(arguments: &Arguments, out: &mut dyn Write) -> io::Result<Outcome> {
    let path = Path::new(&arguments.operands()[0]);
    let Some(target) = arguments.word_of("output").map(Path::new) else {
        complaints::say("write: -o OUT must be given; sill write --help says how to call it");
        return Ok(Outcome::Trouble);
    };
    if let Err(error) = may_be_replaced(path, target) {
        complaints::about(target, &error);
        return Ok(Outcome::Trouble);
    }
    let Some(input) = files::read(path) else { return Ok(Outcome::Trouble) };
    let written = match canonical(&input) {
        Ok(written) => written,
        Err(reason) => {
            let told = format!("refused  {}: {reason}; nothing is written", text::path(path));
            return beside_output(target, out, &told).map(|()| Outcome::Bad);
        }
    };
    if let Err(error) = put(target, &written, out) {
        complaints::about(target, &error);
        return Ok(Outcome::Trouble);
    }
    let bytes = text::count(written.len(), "byte");
    let told = format!("written  {}: {bytes} (was {})", text::path(target), input.len());
    beside_output(target, out, &told).map(|()| Outcome::Good)
}

/// Whether OUT is standard output.
pub fn is_stdout(target: &Path) -> bool {
    target.as_os_str() == "-"
}

/// What is told: on standard output, unless the bytes themselves go there.
pub fn beside_output(target: &Path, out: &mut dyn Write, told: &str) -> io::Result<()> {
    if is_stdout(target) { writeln!(io::stderr(), "{told}") } else { writeln!(out, "{told}") }
}

/// The bytes, where they are to stand.
pub fn put(target: &Path, written: &[u8], out: &mut dyn Write) -> io::Result<()> {
    if is_stdout(target) { out.write_all(written) } else { put_in_place(target, written) }
}

/// OUT may be a file, but not the one that is read, by whatever name; and no device or folder.
pub fn may_be_replaced(path: &Path, target: &Path) -> io::Result<()> {
    let Some(there) = fs::metadata(target).ok().filter(|_| !is_stdout(target)) else { return Ok(()) };
    if !there.is_file() {
        return Err(io::Error::other("is there, and is no file"));
    }
    match fs::metadata(path) {
        Ok(own) if (own.dev(), own.ino()) == (there.dev(), there.ino()) => {
            Err(io::Error::other("is the file that is read; choose another name for OUT"))
        }
        _ => Ok(()),
    }
}

/// All values of a file in their canonical form, or why there is none.
fn canonical(input: &[u8]) -> Result<Vec<u8>, String> {
    let mut written = Vec::new();
    let ended = files::for_each_value(&mut Reader::new(), input, |start, golden| {
        written.extend(written_and_read_back(golden).map_err(|reason| format!("value at byte {start}: {reason}"))?);
        Ok::<(), String>(())
    })?;
    match ended.refused {
        Some(refused) => Err(words::told(&refused, Within::Value(input), 0)),
        None => in_form_of(input, written),
    }
}

/// A golden's values, back to back, in the form that the file has; or why a field cannot hold them.
pub fn in_form_of(input: &[u8], plain: Vec<u8>) -> Result<Vec<u8>, String> {
    match Form::of(input) {
        Form::Plain => Ok(plain),
        Form::Fields => Reader::new().golden_to_fields(&plain).map_err(|refused| {
            format!("would not go back into fields: {}", words::told(&refused, Within::Value(&plain), 0))
        }),
    }
}

fn written_and_read_back(golden: Golden) -> Result<Vec<u8>, String> {
    let written = golden.written().map_err(|refused| format!("cannot be written: {refused}"))?;
    let mut reader = Reader::new();
    let again =
        reader.read(&written).map_err(|refused| format!("would not read back: {}{refused}", out_of_order(golden)))?;
    match first_difference(golden.root(), again.root()) {
        None => Ok(written),
        Some(difference) => Err(format!(
            "would not read back as the same value: {}different at {}",
            out_of_order(golden),
            difference.path
        )),
    }
}

/// The usual reason.
fn out_of_order(golden: Golden) -> String {
    let code = golden.code_objects().find(|code| code.out_of_name_order().is_some());
    let named = |name| format!("the local names of code object {} are out of order; ", text::name(name));
    code.map_or(String::new(), |code| named(code.qualified_name()))
}

/// Writes beside the place, then renames: OUT is there as a whole or not at all.
pub fn put_in_place(target: &Path, written: &[u8]) -> io::Result<()> {
    let part = beside(target)?;
    let mut file = File::create_new(&part)?;
    let done = file.write_all(written).and_then(|()| file.sync_all()).and_then(|()| fs::rename(&part, target));
    if done.is_err() {
        // What failed is told; that the part stays behind as well would not help anyone.
        let _ = fs::remove_file(&part);
    }
    done
}

fn beside(target: &Path) -> io::Result<PathBuf> {
    let name = target.file_name().ok_or_else(|| io::Error::other("names no file"))?;
    let mut part = std::ffi::OsString::from(".");
    part.push(name);
    part.push(format!(".{}.part", std::process::id()));
    Ok(target.with_file_name(part))
}
