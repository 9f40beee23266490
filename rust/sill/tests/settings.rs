//! `sill settings`, and what `check` and `diff` take from settings, as people call them.
use std::fs;
use std::path::{Path, PathBuf};
use std::process::{Command, Output};

/// Exit status, standard output and standard error.
fn ended(words: &[&str]) -> (i32, String, String) {
    let Output { status, stdout, stderr } = Command::new(env!("CARGO_BIN_EXE_sill")).args(words).output().unwrap();
    (status.code().unwrap(), String::from_utf8(stdout).unwrap(), String::from_utf8(stderr).unwrap())
}

/// A folder of a test's own, empty.
fn folder(name: &str) -> PathBuf {
    let folder = Path::new(env!("CARGO_TARGET_TMPDIR")).join("settings").join(name);
    let _ = fs::remove_dir_all(&folder);
    fs::create_dir_all(&folder).unwrap();
    folder
}

fn path(folder: &Path, name: &str) -> String {
    folder.join(name).to_str().unwrap().to_string()
}

fn field(tag: u8, contents: &[u8]) -> Vec<u8> {
    [&[tag][..], &(contents.len() as u16).to_le_bytes(), contents].concat()
}

/// A code object of this qualified name, with one constant and a line table.
fn code(name: &str, constant: &[u8], table: &[u8]) -> Vec<u8> {
    let counted = |bytes: &[u8]| [b"s", &(bytes.len() as u32).to_le_bytes()[..], bytes].concat();
    let named = |text: &str| [b"z", &[text.len() as u8][..], text.as_bytes()].concat();
    let parts = [
        &[b"c", &[0; 20][..]].concat()[..],
        &counted(&[9, 0]),
        b")\x01",
        constant,
        b")\0)\0",
        &counted(b""),
        &named("rates.py"),
        &named("f"),
        &named(name),
        &1_i32.to_le_bytes(),
        &counted(table),
        &counted(b""),
    ];
    parts.concat()
}

const WHOLE: &[u8] = &[0xF8];

#[test]
fn the_defaults_ship_beside_the_command() {
    let own = path(&folder("shipped"), "own");
    fs::write(&own, "").unwrap();
    let (status, shown, said) = ended(&["settings", "get", &own]);
    assert_eq!((status, &*said), (0, ""));
    let beside = Path::new(env!("CARGO_BIN_EXE_sill")).with_file_name("sill.defaults");
    let from = beside.display();
    let expected = format!(
        "edition   1  ({from})\nnesting   2000  ({from})\nprefix    \"\"  ({from})\nmode      values  ({from})\n"
    );
    assert_eq!(shown, expected);
    assert_eq!(fs::read(beside).unwrap(), fs::read(concat!(env!("CARGO_MANIFEST_DIR"), "/sill.defaults")).unwrap());
}

#[test]
fn a_change_keeps_what_is_not_known() {
    let own = path(&folder("change"), "own");
    let before = [field(200, b"new in the next harness"), field(4, &[0])].concat();
    fs::write(&own, &before).unwrap();
    assert_eq!(ended(&["settings", "set", &own, "mode", "bytes", "prefix", "app."]).0, 0);
    let after = [field(200, b"new in the next harness"), field(4, &[1]), field(3, b"app.")].concat();
    assert_eq!(fs::read(&own).unwrap(), after);
    assert_eq!(ended(&["settings", "get", &own, "prefix"]), (0, "\"app.\"\n".to_string(), String::new()));
    assert_eq!(
        ended(&["settings", "get", &own, "200"]).1,
        format!("{}\n", "new in the next harness".bytes().map(|byte| format!("{byte:02x}")).collect::<String>())
    );
    for wrong in
        [&["mode", "both"][..], &["depth", "3"], &["nesting", "deep"], &["mode", "bytes", "mode", "values"], &["mode"]]
    {
        assert_eq!(ended(&[&["settings", "set", &own][..], wrong].concat()).0, 2, "{wrong:?}");
        assert_eq!(fs::read(&own).unwrap(), after);
    }
}

#[test]
fn editions_are_saved_and_rolled_back_to() {
    let folder = folder("editions");
    let (own, archive) = (path(&folder, "own"), path(&folder, "archive"));
    assert_eq!(ended(&["settings", "set", &own, "nesting", "10"]).0, 0);
    let (status, shown, _) = ended(&["settings", "save", &own, &archive]);
    assert_eq!(
        (status, shown.contains("23 NoSuchField"), shown.contains("has no edition")),
        (1, true, true),
        "{shown}"
    );
    assert!(!Path::new(&archive).exists());
    let mut saved = Vec::new();
    for edition in ["a", "b"] {
        assert_eq!(ended(&["settings", "set", &own, "edition", edition, "9", "ff"]).0, 0);
        assert_eq!(ended(&["settings", "save", &own, &archive]).0, 0);
        saved.push(fs::read(&own).unwrap());
    }
    let kept = fs::read(&archive).unwrap();
    let (status, shown, _) = ended(&["settings", "save", &own, &archive]);
    assert_eq!((status, shown.contains("edition b is saved already")), (1, true), "{shown}");
    assert_eq!(fs::read(&archive).unwrap(), kept);
    for (edition, file) in ["a", "b"].into_iter().zip(saved) {
        assert_eq!(ended(&["settings", "rollback", &own, &archive, edition]).0, 0);
        assert_eq!(fs::read(&own).unwrap(), file);
    }
    let before = fs::read(&own).unwrap();
    assert_eq!(ended(&["settings", "rollback", &own, &archive, "c"]).0, 1);
    assert_eq!(fs::read(&own).unwrap(), before);
    let listed = "edition a: 3 fields, 15 bytes\nedition b: 3 fields, 15 bytes\n2 editions\n";
    assert_eq!(ended(&["settings", "list", &archive]), (0, listed.to_string(), String::new()));
    fs::write(&archive, &kept[..kept.len() - 1]).unwrap();
    let (status, shown, _) = ended(&["settings", "list", &archive]);
    assert_eq!((status, shown.contains("2 DataTooShort at byte 19")), (1, true), "{shown}");
    assert_eq!(fs::read_dir(&folder).unwrap().count(), 2, "nothing stays behind");
}

#[test]
fn damaged_files_are_told_with_their_place() {
    let folder = folder("damaged");
    let (own, defaults) = (path(&folder, "own"), path(&folder, "defaults"));
    fs::write(&own, [field(4, &[1]), vec![4, 9]].concat()).unwrap();
    fs::write(&defaults, [2]).unwrap();
    let get = ["settings", "get", &own, "mode", "--defaults", &defaults];
    let (status, shown, _) = ended(&get);
    assert_eq!((status, shown.contains(&format!("{own}: 22 RepeatedTag at byte 4"))), (1, true), "{shown}");
    fs::write(&own, "").unwrap();
    let (status, shown, _) = ended(&get);
    assert_eq!((status, shown.contains(&format!("{defaults}: 2 DataTooShort at byte 0"))), (1, true), "{shown}");
    fs::write(&defaults, "").unwrap();
    let (status, shown, _) = ended(&get);
    assert_eq!((status, shown.contains("it has no mode")), (1, true), "{shown}");
}

#[test]
fn a_field_of_the_wrong_length_is_told() {
    let folder = folder("lengths");
    let (own, golden) = (path(&folder, "own"), path(&folder, "golden"));
    fs::write(&golden, "N").unwrap();
    for (file, told) in [
        (field(2, &[1, 2, 3]), "the nesting (tag 2) has 3 bytes, and 4 are wanted"),
        (field(4, &[]), "the mode (tag 4) has 0 bytes, and 1 is wanted"),
        (field(4, &[7]), "the mode (tag 4) is 7, and 0 (values) or 1 (bytes) is wanted"),
        (field(3, &[0xFF]), "the prefix (tag 3) is not UTF-8 from its byte 0 on"),
    ] {
        fs::write(&own, file).unwrap();
        for words in [&["check", &golden, "--settings", &own][..], &["diff", &golden, &golden, "--settings", &own]] {
            let (status, shown, said) = ended(words);
            assert_eq!((status, &*shown), (2, ""));
            assert_eq!(said, format!("sill: {own}: {told}\n"));
        }
    }
}

#[test]
fn check_takes_nesting_and_prefix() {
    let folder = folder("check");
    let (own, golden) = (path(&folder, "own"), path(&folder, "golden"));
    fs::write(&golden, [code("app.f", b"N", WHOLE), code("lib.g", b"N", &[0xF8, 0x80])].concat()).unwrap();
    let check = |words: &[&str]| {
        assert_eq!(ended(&[&["settings", "set", &own][..], words].concat()).0, 0);
        ended(&["check", &golden, "--settings", &own])
    };
    assert_eq!(ended(&["check", &golden]).0, 1);
    let (status, shown, _) = check(&["prefix", "app."]);
    assert_eq!((status, shown.contains("2 values, 1 code object, 1 instruction")), (0, true), "{shown}");
    assert_eq!(check(&["prefix", "lib."]).0, 1);
    let (status, shown, _) = check(&["prefix", "app.", "nesting", "1"]);
    assert_eq!((status, shown.contains("10 TooDeep")), (1, true), "{shown}");
}

#[test]
fn diff_takes_prefix_and_mode() {
    let folder = folder("diff");
    let (own, one, other) = (path(&folder, "own"), path(&folder, "one"), path(&folder, "other"));
    let file = |f: &[u8], g: &[u8]| [code("app.f", f, WHOLE), code("lib.g", g, WHOLE)].concat();
    let diff = |words: &[&str]| {
        assert_eq!(ended(&[&["settings", "set", &own][..], words].concat()).0, 0);
        let (status, shown, said) = ended(&["diff", &one, &other, "--settings", &own]);
        assert_eq!(said, "");
        (status, shown)
    };
    fs::write(&one, file(b"i\x05\0\0\0", b"T")).unwrap();
    fs::write(&other, file(b"\xE9\x05\0\0\0", b"F")).unwrap();
    for mode in ["values", "bytes"] {
        let (status, shown) = diff(&["prefix", "app.", "mode", mode]);
        assert_eq!((status, shown.contains("1 code object whose names begin with \"app.\"")), (0, true), "{shown}");
        assert_eq!(shown.contains("by written bytes"), mode == "bytes");
        let (status, shown) = diff(&["prefix", "lib."]);
        assert_eq!((status, shown.starts_with("different in value 2, code object lib.g, ")), (1, true), "{shown}");
        let (status, shown) = diff(&["prefix", ""]);
        assert_eq!((status, shown.starts_with("different in value 2, ")), (1, true), "{shown}");
        let (status, shown) = diff(&["prefix", "none."]);
        assert_eq!((status, shown.starts_with("nothing compared: ")), (1, true), "{shown}");
    }
    fs::write(&other, [code("app.f", b"i\x05\0\0\0", WHOLE), code("app.g", b"T", WHOLE)].concat()).unwrap();
    let (status, shown) = diff(&["prefix", "app."]);
    assert_eq!((status, shown.contains("0 code objects whose names begin with \"app.\", and 1")), (1, true), "{shown}");
}
