//! What the page has of a file: of a sound one its counts, of another what is damaged.
use super::damage::{Damaged, damaged};
use crate::check::{Findings, Looked, Manner, Verdict, What, line};
use crate::complaints::in_words;
use crate::json::{self, Object};
use crate::text;
use std::path::Path;

/// A file's part of the page.
pub struct Entry {
    pub folder: String,
    pub name: String,
    pub told: Told,
}

pub enum Told {
    /// Numbers and a note, as JSON between commas.
    Sound(String),
    /// Fields; of a path that could not be read there is nothing damaged.
    NotAccepted(Object, Damaged),
}

pub fn entry(file: Looked, manner: &Manner) -> Entry {
    let Looked { path, input, verdict, checked } = file;
    let (folder, name) = split(path);
    let told = match &checked {
        Ok(findings) if verdict == Verdict::Accepted => Told::Sound(sound(findings)),
        Ok(findings) => Told::NotAccepted(fields(path, verdict, &line(findings)), damaged(findings, input, manner)),
        Err(error) => Told::NotAccepted(fields(path, verdict, &in_words(error)), Damaged::default()),
    };
    Entry { folder, name, told }
}

/// Folder and name as people read them.
fn split(path: &Path) -> (String, String) {
    let folder = path.parent().filter(|folder| !folder.as_os_str().is_empty()).unwrap_or(Path::new("."));
    match path.file_name() {
        Some(name) => (text::path(folder), text::path(Path::new(name))),
        None => (".".to_string(), text::path(path)),
    }
}

/// Values, code objects, instructions and how many of these have no sure row; and what is told of local names out of order.
fn sound(findings: &Findings) -> String {
    let out_of_order = findings.found.iter().any(|finding| matches!(finding.what, What::NameOrder { .. }));
    let note = if out_of_order { format!(",{}", json::string(&line(findings))) } else { String::new() };
    let [values, code_objects, instructions, not_sure] = findings.counts();
    format!("{values},{code_objects},{instructions},{not_sure}{note}")
}

fn fields(path: &Path, verdict: Verdict, text: &str) -> Object {
    let object = Object::new().with("verdict", verdict as usize).text("text", text);
    match path.to_str() {
        Some(_) => object,
        None => object.text("path_bytes", &json::hex(path.as_os_str().as_encoded_bytes())),
    }
}
