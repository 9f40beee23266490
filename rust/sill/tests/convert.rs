//! `sill convert`, `check --shape`, and the other commands over goldens in fields, as people call them.
use std::fs;
use std::path::{Path, PathBuf};
use std::process::{Command, Output};

/// Exit status, standard output and standard error.
fn ended(words: &[&str]) -> (i32, String, String) {
    let Output { status, stdout, stderr } = Command::new(env!("CARGO_BIN_EXE_sill")).args(words).output().unwrap();
    (status.code().unwrap(), String::from_utf8(stdout).unwrap(), String::from_utf8(stderr).unwrap())
}

/// A folder of a test's own, empty.
fn folder(name: &str) -> PathBuf {
    let folder = Path::new(env!("CARGO_TARGET_TMPDIR")).join("convert").join(name);
    let _ = fs::remove_dir_all(&folder);
    fs::create_dir_all(&folder).unwrap();
    folder
}

fn path(folder: &Path, name: &str) -> String {
    folder.join(name).to_str().unwrap().to_string()
}

fn golden(name: &str) -> String {
    format!("{}/../../goldens/{name}.golden", env!("CARGO_MANIFEST_DIR"))
}

fn field(tag: u8, contents: &[u8]) -> Vec<u8> {
    [&[tag][..], &(contents.len() as u16).to_le_bytes(), contents].concat()
}

/// A code object of so many instructions, with a line table.
fn code(instructions: usize, table: &[u8]) -> Vec<u8> {
    let counted = |bytes: &[u8]| [b"s", &(bytes.len() as u32).to_le_bytes()[..], bytes].concat();
    let parts = [
        &[b"c", &[0; 20][..]].concat()[..],
        &counted(&[9, 0].repeat(instructions)),
        b")\0)\0)\0",
        &counted(b""),
        b"z\x08rates.pyz\x01fz\x01f",
        &1_i32.to_le_bytes(),
        &counted(table),
        &counted(b""),
    ];
    parts.concat()
}

fn in_fields(code: &[u8], result: &[u8]) -> Vec<u8> {
    [field(1, &[1]), field(2, code), field(3, result)].concat()
}

const WHOLE: &[u8] = &[0xF8];

#[test]
fn there_and_back_byte_for_byte() {
    let folder = folder("there");
    let (new, old) = (path(&folder, "new"), path(&folder, "old"));
    let fees = golden("fees");
    let (status, told, said) = ended(&["convert", &fees, "-o", &new]);
    assert_eq!((status, &*told, &*said), (0, &*format!("written  {new}: 884 bytes (was 874), in fields\n"), ""));
    assert_eq!(fs::read(&new).unwrap(), fs::read(golden("in-fields")).unwrap());
    let (status, told, _) = ended(&["convert", "--to", "plain", &new, "-o", &old]);
    assert_eq!((status, &*told), (0, &*format!("written  {old}: 874 bytes (was 884), plain\n")));
    assert_eq!(fs::read(&old).unwrap(), fs::read(&fees).unwrap());
    let (status, ..) = ended(&["convert", "--to", "plain", &old, "-o", &new]);
    assert_eq!(
        (status, fs::read(&new).unwrap()),
        (0, fs::read(&fees).unwrap()),
        "one that has the form stays as it is"
    );
}

#[test]
fn folders_go_file_by_file() {
    let (from, to) = (folder("from"), folder("to").join("new"));
    fs::create_dir_all(from.join("inner")).unwrap();
    fs::copy(golden("fees"), from.join("fees.golden")).unwrap();
    fs::copy(golden("rates"), from.join("inner/rates.golden")).unwrap();
    fs::copy(golden("result"), from.join("result.golden")).unwrap();
    let (status, told, said) = ended(&["convert", from.to_str().unwrap(), "-o", to.to_str().unwrap()]);
    assert_eq!((status, &*said), (1, ""));
    assert_eq!(told.lines().last(), Some("3 files: 2 written, 1 refused"));
    assert!(told.contains("refused  ") && told.contains("result.golden: 1 EofObject at byte 246"), "{told}");
    assert!(!to.join("result.golden").exists(), "all or none of a file");
    let (status, told, _) = ended(&["check", "--shape", "-q", to.to_str().unwrap()]);
    assert_eq!((status, &*told), (0, "2 files: 2 accepted, 0 not whole, 0 refused\n"));
    let names = ["fees.golden", "inner/rates.golden"].map(|name| path(&from, name));
    let (status, told, _) = ended(&["convert", &names[0], &names[1], "-o", to.to_str().unwrap()]);
    assert_eq!((status, told.lines().last()), (0, Some("2 files: 2 written, 0 refused")));
    assert!(to.join("rates.golden").exists(), "a file goes to its own name");
}

#[test]
fn what_cannot_be_converted_is_told() {
    let folder = folder("refused");
    let (file, out) = (path(&folder, "file"), path(&folder, "out"));
    let refused = |bytes: &[u8], to: &str, expected: &str| {
        fs::write(&file, bytes).unwrap();
        let (status, told, _) = ended(&["convert", "--to", to, &file, "-o", &out]);
        assert!(status == 1 && told.contains(expected), "{status} {told}");
        assert!(!Path::new(&out).exists());
    };
    let code = code(1, WHOLE);
    let long = [&b"s"[..], &65_531_u32.to_le_bytes(), &[7; 65_531]].concat();
    refused(b"NN", "fields", "7 BadType at byte 0: the first value of a golden is a code object");
    refused(b"N", "fields", "1 EofObject at byte 1");
    refused(&[&code[..], b"NN"].concat(), "fields", &format!("25 TrailingBytes at byte {}", code.len() + 1));
    refused(&[&code[..], &long].concat(), "fields", &format!("26 ValueTooLong at byte {}", code.len()));
    let other = [field(1, &[1]), field(3, b"N"), field(2, &code)].concat();
    refused(&other, "plain", "23 NoSuchField at byte 0: a golden in fields has edition 1 (tag 1)");
    refused(
        &in_fields(&[&code[..], b"N"].concat(), b"N"),
        "plain",
        &format!("25 TrailingBytes at byte {}", 7 + code.len()),
    );
    refused(&in_fields(b"N", b"N"), "plain", "7 BadType at byte 7");
    let (status, _, said) = ended(&["convert", &file]);
    assert_eq!((status, said.contains("-o OUT must be given")), (2, true));
    let (status, _, said) = ended(&["convert", &file, "-o", &file]);
    assert_eq!((status, said.contains("is the file that is read")), (2, true));
}

#[test]
fn a_lost_or_doubled_result_is_found_by_shape() {
    let folder = folder("shape");
    let code = code(1, WHOLE);
    let (lost, doubled, whole) = (path(&folder, "1-lost"), path(&folder, "2-doubled"), path(&folder, "3-whole"));
    fs::write(&lost, &code).unwrap();
    fs::write(&doubled, [&code[..], b"NN"].concat()).unwrap();
    fs::write(&whole, [&code[..], b"N"].concat()).unwrap();
    assert_eq!(ended(&["check", &lost, &doubled, &whole]).0, 0, "any values back to back");
    let (status, told, _) = ended(&["check", "--shape", &lost, &doubled, &whole]);
    let at = code.len();
    let expected = [
        format!(
            "refused    {lost}: 1 EofObject at byte {at}: a golden is a code object and the result expected of it, and there is no result"
        ),
        format!(
            "refused    {doubled}: 25 TrailingBytes at byte {}: a golden is a code object and one result, and more follows",
            at + 1
        ),
        format!("accepted   {whole}: 2 values, 1 code object, 1 instruction, 1 of them without a sure row"),
    ];
    assert_eq!(status, 1);
    expected.iter().for_each(|line| assert!(told.contains(line), "{line}\n{told}"));
    let (_, told, _) = ended(&["check", "--shape", "--json", &doubled]);
    assert!(told.contains("\"kind\":\"shape\"") && told.contains("\"number\":25"), "{told}");
}

#[test]
fn every_command_takes_both_forms() {
    let (plain, fields) = (golden("fees"), golden("in-fields"));
    let (status, told, _) = ended(&["diff", &plain, &fields]);
    assert_eq!((status, told.ends_with("2 values, written as the same bytes\n")), (0, true), "{told}");
    let rows = |file: &str| ended(&["lines", file]).1.replace("at byte 8,", "at byte 1,");
    let count = |file: &str| rows(file).lines().filter(|line| line.contains(" to ")).count();
    assert_eq!(count(&plain), count(&fields));
    let (status, told, _) = ended(&["show", "--depth", "0", &fields]);
    assert!(
        status == 0 && told.starts_with("value 1, bytes 7 to 852\n") && told.contains("value 2, bytes 856 to 883"),
        "{told}"
    );
    let damaged = folder("both").join("damaged");
    let mut bytes = fs::read(&fields).unwrap();
    let at = bytes.len() - 1;
    bytes.truncate(at);
    fs::write(&damaged, &bytes).unwrap();
    let (status, told, _) = ended(&["check", damaged.to_str().unwrap()]);
    assert!(status == 1 && told.contains("2 DataTooShort at byte 853"), "{told}");
}

#[test]
fn a_canonical_form_goes_back_into_fields() {
    let out = path(&folder("write"), "out");
    let (status, ..) = ended(&["write", &golden("in-fields"), "-o", &out]);
    assert_eq!(status, 0);
    let (status, told, _) = ended(&["check", "--shape", "-q", &out]);
    assert_eq!((status, &*told), (0, "1 file: 1 accepted, 0 not whole, 0 refused\n"));
    assert_eq!(fs::read(&out).unwrap()[0], 1);
}

#[test]
fn a_repair_mends_the_field_too() {
    let folder = folder("repair");
    let (mended, plain, same) = (path(&folder, "mended"), path(&folder, "plain"), path(&folder, "same"));
    let (status, told, _) = ended(&["repair", &golden("in-fields-cut"), "-o", &mended]);
    assert!(status == 0 && told.contains(": 323 bytes (was 321): 1 code object mended"), "{told}");
    assert_eq!(ended(&["check", "--shape", "-q", &mended]).0, 0);
    ended(&["repair", &golden("cut-line-table"), "-o", &plain]);
    ended(&["convert", "--to", "plain", &mended, "-o", &same]);
    assert_eq!(fs::read(&plain).unwrap(), fs::read(&same).unwrap());
}

/// A code whose line table is cut to nothing: repaired, it has an entry for every eight instructions, and no field holds it.
#[test]
fn a_repair_that_no_field_holds_is_told() {
    let folder = folder("long");
    let (file, out) = (path(&folder, "file"), path(&folder, "out"));
    let instructions = (65_535 - code(0, b"").len()) / 2;
    fs::write(&file, in_fields(&code(instructions, b""), b"N")).unwrap();
    assert!(ended(&["check", &file]).1.starts_with("NOT WHOLE"));
    let (status, told, _) = ended(&["repair", &file, "-o", &out]);
    assert!(status == 1 && told.contains("26 ValueTooLong at byte 0") && told.contains("nothing is written"), "{told}");
    assert!(!Path::new(&out).exists());
}
