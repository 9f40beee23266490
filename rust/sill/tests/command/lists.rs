//! Paths alone, which files of a folder are taken, and standard input and output.
use super::*;
use std::ffi::OsStr;
use std::os::unix::ffi::OsStrExt;

/// A folder with a file of each verdict, one with an odd name, and a link that leads nowhere.
fn samples(name: &str) -> PathBuf {
    let folder = folder(name);
    file(&folder, "accepted.golden", b"N");
    file(&folder, "no-place.golden", &code(2, 10, &[0xE8, 0x02, 0xF8]));
    file(&folder, "not-whole.golden", &code(2, 10, &[0xE8, 0x02]));
    fs::write(folder.join(OsStr::from_bytes(b"re\nfused\xFF.bin")), b"?").unwrap();
    std::os::unix::fs::symlink("nowhere", folder.join("trouble.golden")).unwrap();
    folder
}

fn listed(folder: &Path, words: &[&str]) -> Vec<u8> {
    sill(&[&["check"], words, &[folder.to_str().unwrap()]].concat()).stdout
}

#[test]
fn paths_by_verdict() {
    let folder = samples("lists");
    let path = |name: &str| format!("{}/{name}\n", folder.to_str().unwrap()).into_bytes();
    assert_eq!(listed(&folder, &["-l", "accepted"]), [path("accepted.golden"), path("no-place.golden")].concat());
    assert_eq!(listed(&folder, &["--strict", "-laccepted"]), path("accepted.golden"));
    assert_eq!(listed(&folder, &["-l", "no-place"]), path("no-place.golden"));
    assert_eq!(listed(&folder, &["-l", "not-whole"]), path("not-whole.golden"));
    assert_eq!(listed(&folder, &["--list=trouble"]), path("trouble.golden"));
    let both = [path("not-whole.golden"), path("trouble.golden")].concat();
    assert_eq!(listed(&folder, &["-l", "not-whole", "-l", "trouble"]), both);
    let raw = [folder.as_os_str().as_bytes(), b"/re\nfused\xFF.bin"].concat();
    assert_eq!(listed(&folder, &["-l", "refused"]), [&raw[..], b"\n"].concat());
    assert_eq!(listed(&folder, &["-0", "-l", "refused"]), [&raw[..], b"\0"].concat());
}

#[test]
fn lists_called_wrongly() {
    let complaint = |words: &[&str]| {
        let (status, shown, complaints) = ended(&[&["check", "goldens"], words].concat());
        assert_eq!((status, shown.as_str()), (2, ""));
        complaints
    };
    let told = "sill: --list wants one of refused, not-whole, no-place, accepted, trouble, and not 'refuse'; \
                did you mean refused? sill check --help says how to call it\n";
    assert_eq!(complaint(&["-l", "refuse"]), told);
    assert_eq!(complaint(&["-0"]), "sill: check: -0 goes with --list; sill check --help says how to call it\n");
    let told = "sill: check: --list prints paths alone, in no other format; sill check --help says how to call it\n";
    assert_eq!(complaint(&["--json", "-l", "refused"]), told);
}

#[test]
fn only_some_files_of_a_folder() {
    let folder = folder("some");
    fs::create_dir_all(folder.join("deep/er")).unwrap();
    for name in ["a.golden", "b.bin", "deep/c.golden", "deep/er/d.golden"] {
        file(&folder, name, b"N");
    }
    let named = |words: &[&str]| {
        let shown = String::from_utf8(listed(&folder, &[&["-l", "accepted"], words].concat())).unwrap();
        shown.replace(&format!("{}/", folder.to_str().unwrap()), "").lines().map(String::from).collect::<Vec<_>>()
    };
    assert_eq!(named(&["--ext", "golden"]), ["a.golden", "deep/c.golden", "deep/er/d.golden"]);
    assert_eq!(named(&["--ext=.bin", "--ext=txt"]), ["b.bin"]);
    assert_eq!(named(&["--glob", "[ab].*"]), ["a.golden", "b.bin"]);
    assert_eq!(named(&["--glob", "deep/*.golden"]), ["deep/c.golden"]);
    assert_eq!(named(&["--glob", "deep/**", "--ext", "golden"]), ["deep/c.golden", "deep/er/d.golden"]);
    let top = folder.to_str().unwrap();
    let (status, _, complaints) = ended(&["check", "--ext", "none", top]);
    let told = format!("sill: {top}: no files in this folder that --ext and --glob let through\n");
    assert_eq!((status, complaints), (2, told));
    let named = folder.join("b.bin");
    assert_eq!(ended(&["check", "--ext", "golden", named.to_str().unwrap()]).0, 0);
    assert!(ended(&["totals", "--ext", "golden", top]).1.starts_with("inputs 3\n"));
    assert_eq!(ended(&["lines", "--ext", "bin", top]), (0, String::new(), String::new()));
}

#[test]
fn standard_input_everywhere() {
    let golden = fs::read(root().join("goldens/cut-line-table.golden")).unwrap();
    let (status, shown, _) = fed(&["check", "-"], &golden);
    assert!(status == 1 && shown.starts_with("NOT WHOLE  -: code object <module>: "), "{shown}");
    assert!(fed(&["show", "-"], &golden).1.starts_with("value 1, bytes 0 to "));
    assert!(fed(&["lines", "-"], &golden).1.starts_with("code object <module> at byte 1"));
    assert_eq!(fed(&["row", "-", "57"], &golden).0, 0);
    assert_eq!(fed(&["diff", "-", "goldens/cut-line-table.golden"], &golden).0, 0);
    assert_eq!(fed(&["diff", "goldens/cut-line-table.golden", "-"], &golden).0, 0);
    assert_eq!(fed(&["diff", "-", "-"], &golden).0, 2);
    let (status, shown, complaints) = fed(&["check", "-", "-"], b"N");
    assert!(status == 2 && shown.ends_with("; 1 trouble\n"), "{shown}");
    assert_eq!(complaints, "sill: -: standard input is read only once\n");
}

#[test]
fn standard_output() {
    let golden = fs::read(root().join("goldens/cut-line-table.golden")).unwrap();
    let out = folder("stdout").join("out");
    let out = out.to_str().unwrap();
    for (command, status) in [("write", 0), ("repair", 0)] {
        assert_eq!(ended(&[command, "-o", out, "goldens/cut-line-table.golden"]).0, status);
        let output = piped(Command::new(env!("CARGO_BIN_EXE_sill")).args([command, "-o", "-", "-"]), &golden).unwrap();
        assert_eq!(output.stdout, fs::read(out).unwrap());
        let told = String::from_utf8(output.stderr).unwrap();
        assert!(told.contains("written  -: "), "{told}");
    }
    let output = piped(Command::new(env!("CARGO_BIN_EXE_sill")).args(["write", "-o", "-", "-"]), b"?").unwrap();
    assert_eq!((output.status.code(), output.stdout.len()), (Some(1), 0));
    assert!(!root().join("-").exists());
}

#[test]
fn lines_of_many_files() {
    let folder = samples("many-lines");
    let top = folder.to_str().unwrap();
    let (status, shown, _) = ended(&["lines", top]);
    assert_eq!(status, 2);
    let heads: Vec<&str> = shown.lines().filter(|line| line.starts_with(top)).collect();
    let path = |name: &str| format!("{top}/{name}:");
    assert_eq!(heads, [path("no-place.golden"), path("not-whole.golden"), path("re\\nfused\u{FFFD}.bin")]);
    let (_, shown, _) = ended(&["lines", "--not-whole", "--ext", "golden", top]);
    let heads: Vec<&str> = shown.lines().filter(|line| line.starts_with(top)).collect();
    assert_eq!((heads, shown.lines().count()), (vec![&*path("not-whole.golden")], 4));
    assert_eq!(ended(&["lines", "--not-whole", "goldens/rates.golden"]), (0, String::new(), String::new()));
}
