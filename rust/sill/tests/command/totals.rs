//! `sill totals`.
use super::*;
use std::io::Write;
use std::process::Stdio;

/// The lines of the counters that are not 0.
fn some(text: &str) -> Vec<&str> {
    assert_eq!((text.lines().count(), text.ends_with('\n')), (29, true));
    text.lines().filter(|line| !line.ends_with(" 0")).collect()
}

/// A whole value, two back to back, one that is cut, an unknown letter behind a whole value, and an empty file.
fn samples(name: &str) -> (PathBuf, Vec<String>) {
    let folder = folder(name);
    let samples: [(&str, &[u8]); 5] = [("a", b"N"), ("b", b"NT"), ("c", b"i\0"), ("d", b"N\n"), ("e", b"")];
    let files = samples.iter().map(|(name, bytes)| file(&folder, name, bytes)).collect();
    (folder, files)
}

#[test]
fn files_are_counted_by_their_first_refusal() {
    let (folder, _) = samples("totals-counted");
    let (status, text, told) = ended(&["totals", folder.to_str().unwrap()]);
    assert_eq!((status, told.as_str()), (0, ""));
    assert_eq!(some(&text)[..3], ["inputs 5", "accepted 2", "refused 3"]);
    assert_eq!(some(&text).len(), 3 + 3, "{text}");
}

#[test]
fn however_they_are_split_the_sum_is_the_same() {
    let (folder, files) = samples("totals-split");
    let (_, whole, _) = ended(&["totals", folder.to_str().unwrap()]);
    for at in 1..files.len() {
        let parts = [&files[..at], &files[at..]].map(|part| {
            let words: Vec<&str> = ["totals"].into_iter().chain(part.iter().map(String::as_str)).collect();
            ended(&words).1
        });
        let outside = super::folder("totals-parts");
        let [one, other] =
            [("one", &parts[0]), ("other", &parts[1])].map(|(name, text)| file(&outside, name, text.as_bytes()));
        assert_eq!(ended(&["totals", "--add", &one, &other]), (0, whole.clone(), String::new()));
    }
}

#[test]
fn a_list_on_standard_input() {
    let (folder, files) = samples("totals-listed");
    let mut child = Command::new(env!("CARGO_BIN_EXE_sill"))
        .args(["totals", "-"])
        .stdin(Stdio::piped())
        .stdout(Stdio::piped())
        .spawn()
        .unwrap();
    child.stdin.take().unwrap().write_all(files.join("\n").as_bytes()).unwrap();
    let listed = String::from_utf8(child.wait_with_output().unwrap().stdout).unwrap();
    assert_eq!(listed, ended(&["totals", folder.to_str().unwrap()]).1);
}

#[test]
fn a_file_that_is_not_there_is_in_no_count() {
    let (folder, files) = samples("totals-missing");
    let missing = folder.join("missing");
    let (status, text, told) = ended(&["totals", &files[0], missing.to_str().unwrap()]);
    assert_eq!((status, some(&text)), (2, vec!["inputs 1", "accepted 1"]));
    assert!(told.contains("missing"), "{told}");
}

#[test]
fn what_is_no_printed_totals_is_not_added() {
    let (_, files) = samples("totals-no-sum");
    let (status, text, told) = ended(&["totals", "--add", &files[0]]);
    assert_eq!((status, text.as_str()), (2, ""));
    assert!(told.contains("no printed totals"), "{told}");
}
