//! Files that are no goldens: the refusal stays, and a hint follows.
use super::*;

/// The header of a .pyc of CPython 3.11, and a code object behind it.
fn pyc() -> Vec<u8> {
    [&[0xA7, 0x0D, 0x0D, 0x0A][..], &[0; 12], &code(2, 10, &[0xE9, 0x02])].concat()
}

#[test]
fn each_gets_its_hint() {
    let folder = folder("wrong");
    let hinted = |name: &str, bytes: &[u8], place: usize, hint: &str| {
        let path = file(&folder, name, bytes);
        let (status, shown, _) = ended(&["check", &path]);
        assert_eq!(status, 1);
        assert!(shown.starts_with(&format!("refused    {path}: 3 UnknownType at byte {place}: ")), "{shown}");
        assert!(shown.contains(&format!("; hint: {hint}\n")), "{shown}");
        for words in [&["show", &path][..], &["lines", &path], &["row", &path, "1"], &["diff", &path, &path]] {
            assert!(ended(words).1.contains(&format!("; hint: {hint}\n")), "{words:?}");
        }
        for command in ["show", "lines"] {
            assert!(ended(&[command, "--json", &path]).1.contains(&format!(",\"hint\":\"{hint}\"}}")), "{command}");
        }
    };
    let header = "this looks like a .pyc: its first 16 bytes are no value; --pyc skips them";
    hinted("a.pyc", &pyc(), 0, header);
    hinted("zip", b"PK\x03\x04\x14\0\0\0", 0, "this looks like a zip archive: goldens may be in it");
    hinted("gzip", b"\x1F\x8B\x08\0\0\0\0\0", 0, "this looks like a gzip file: gunzip it first");
    let elf = "this looks like an ELF file, a program or library, and no golden";
    hinted("elf", b"\x7FELF\x02\x01\x01\0", 0, elf);
    hinted("text", b"def fee(amount):\n    return 5\n", 0, "this looks like text, and no golden");
    hinted("notes", b"Nothing is here, na\xC3\xAFvely\n", 1, "this looks like text, and no golden");
    let golden = file(&folder, "golden", b")\x01N\n");
    assert!(!ended(&["check", &golden]).1.contains("hint"));
}

/// Places still count from the file's start.
#[test]
fn a_pyc_without_its_header() {
    let folder = folder("pyc");
    let path = file(&folder, "a.pyc", &pyc());
    let golden = file(&folder, "a.golden", &pyc()[16..]);
    let (status, shown, _) = ended(&["check", "--pyc", folder.to_str().unwrap()]);
    assert_eq!((status, shown.matches("1 value, 1 code object, 2 instructions").count()), (0, 2), "{shown}");
    assert!(ended(&["show", "--pyc", &path]).1.starts_with("value 1, bytes 16 to "));
    assert!(ended(&["lines", "--pyc", &path]).1.starts_with("code object total at byte 17, "));
    assert!(ended(&["row", "--pyc", &path, "11"]).1.starts_with("code object total at byte 17, "));
    assert_eq!(ended(&["diff", "--pyc", &path, &golden]).0, 0);
    assert_eq!(ended(&["diff", &path, &golden]).0, 1);
    let damaged = file(&folder, "b.pyc", &[&pyc()[..], b"?"].concat());
    assert!(ended(&["check", "--pyc", &damaged]).1.contains(&format!(": 3 UnknownType at byte {}: ", pyc().len())));
}
