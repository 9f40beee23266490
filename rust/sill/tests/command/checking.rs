//! `sill check`.
use super::*;

/// Document 02, K1: behind a whole entry one without its marker, then a table that ends before its last number.
#[test]
fn a_damaged_exception_table() {
    let table = [0x84, 0x03, 0x0A, 0x03, 0x04];
    let golden = [b"N", &guarded(&table)[..]].concat();
    let path = file(&folder("handlers"), "damaged.golden", &golden);
    let (status, shown, _) = ended(&["check", &path]);
    assert_eq!(status, 1);
    let at = golden.len() - 1;
    let told = format!("refused    {path}: exception table of code object total: 19 NoMarker at byte {at}: ");
    assert!(shown.starts_with(&told), "{shown}");
    let golden = guarded(&table[..3]);
    let path = file(&folder("handlers"), "cut.golden", &golden);
    let (status, shown, _) = ended(&["check", &path]);
    assert_eq!(status, 1);
    assert!(shown.contains(&format!("code object total: 2 DataTooShort at byte {}: ", golden.len())), "{shown}");
    let path = file(&folder("handlers"), "sound.golden", &guarded(&table[..4]));
    assert_eq!(ended(&["check", "--quiet", &path]).0, 0);
}

/// Document 02, K2: a line step of 2^32 or more, behind an entry that places two instructions at row 11.
#[test]
fn a_number_too_large_for_a_line_table() {
    let table = [0xE9, 0x02, 0xE8, 0x40, 0x40, 0x40, 0x40, 0x40, 0x3F];
    let golden = [b"N", &code(4, 10, &table)[..]].concat();
    let at = golden.windows(9).position(|window| window == table).unwrap() + 2;
    let path = file(&folder("large-number"), "large.golden", &golden);
    let (status, shown, _) = ended(&["check", &path]);
    assert_eq!(status, 1);
    let told = format!("refused    {path}: line table of code object total: 18 NumberRange at byte {at}: ");
    assert!(shown.starts_with(&told), "{shown}");
    let last = "; before it 2 of 4 instructions are placed; the last row placed is 11\n";
    assert!(shown.contains(last), "{shown}");
    let first = file(&folder("large-number"), "first.golden", &code(1, 10, &table[2..]));
    assert!(ended(&["check", &first]).1.contains("; before it no instruction is placed\n"));
}

#[test]
fn the_sample_goldens_as_readme_shows_them() {
    let shown = fs::read_to_string(root().join("tests/sill/check-goldens.txt")).unwrap();
    let readme = fs::read_to_string(root().join("README.md")).unwrap();
    assert!(readme.contains(&shown) || !readme.contains("check goldens"), "README.md shows another output");
    assert_eq!(ended(&["check", "goldens"]), (1, shown, String::new()));
}

#[test]
fn whole_files_only_end_well() {
    let (status, shown, complaints) = ended(&["check", "goldens/rates.golden", "goldens/deep.golden"]);
    assert_eq!((status, complaints.as_str()), (0, ""));
    assert!(shown.ends_with("\n2 files: 2 accepted, 0 not whole, 0 refused\n"), "{shown}");
}

#[test]
fn quiet_leaves_out_what_is_accepted() {
    let (status, shown, _) = ended(&["check", "--quiet", "goldens"]);
    assert_eq!((status, shown.lines().count()), (1, 6));
    assert!(!shown.contains("accepted   "), "{shown}");
}

#[test]
fn one_bad_path_does_not_stop_the_others() {
    let (status, shown, complaints) = ended(&["check", "nowhere", "goldens/rates.golden"]);
    assert_eq!((status, complaints.as_str()), (2, "sill: nowhere: No such file or directory\n"));
    assert!(shown.starts_with("accepted   goldens/rates.golden: "), "{shown}");
}

#[test]
fn a_file_without_permission_is_told() {
    let folder = folder("permission");
    let closed = file(&folder, "closed.golden", b"N");
    file(&folder, "open.golden", b"N");
    fs::set_permissions(&closed, fs::Permissions::from_mode(0o000)).unwrap();
    if fs::read(&closed).is_ok() {
        return; // whoever runs this may read everything
    }
    let (status, shown, complaints) = ended(&["check", folder.to_str().unwrap()]);
    assert_eq!((status, complaints), (2, format!("sill: {closed}: Permission denied\n")));
    assert!(shown.ends_with("1 file: 1 accepted, 0 not whole, 0 refused; 1 trouble\n"), "{shown}");
}

#[test]
fn an_empty_file_and_an_empty_folder() {
    let folder = folder("empty");
    let path = folder.to_str().unwrap();
    let shown = "0 files: 0 accepted, 0 not whole, 0 refused; 1 trouble\n".to_string();
    assert_eq!(ended(&["check", path]), (2, shown, format!("sill: {path}: no files in this folder\n")));
    let empty = file(&folder, "empty.golden", b"");
    let told = "1 EofObject at byte 0: a value is expected here, and the input ends";
    let shown = format!("refused    {empty}: {told}\n1 file: 0 accepted, 0 not whole, 1 refused\n");
    assert_eq!(ended(&["check", path]), (1, shown, String::new()));
}

#[test]
fn bytes_after_the_last_whole_value() {
    let left = file(&folder("left"), "left.golden", b")\x01NT\n");
    let (status, shown, _) = ended(&["check", &left]);
    assert_eq!(status, 1);
    assert!(shown.contains(": 3 UnknownType at byte 4: "), "{shown}");
    assert!(shown.contains("; the last whole value ends at byte 4, with 1 byte after it\n"), "{shown}");
}

/// A bytes value of so many bytes in all.
fn bytes_of(all: usize) -> Vec<u8> {
    counted(b's', &vec![0; all - 5])
}

#[test]
fn sixteen_mebibytes_and_one_byte_more() {
    let folder = folder("large");
    let most = bytes_of(16 << 20);
    assert_eq!(ended(&["check", &file(&folder, "most.golden", &most)]).0, 0);
    let more = [b"N", &bytes_of((16 << 20) + 1)[..]].concat();
    let (status, shown, _) = ended(&["check", &file(&folder, "more.golden", &more)]);
    assert_eq!(status, 1);
    let told = ": 14 InputTooLong at byte 1: the value that starts here is longer than 16,777,216 bytes; \
                the last whole value ends at byte 1, with 16777217 bytes after it\n";
    assert!(shown.contains(told), "{shown}");
}

/// A file with a hole takes no room on the disk.
#[test]
fn a_file_of_more_than_is_read() {
    let path = file(&folder("longest"), "long.golden", b"N");
    fs::OpenOptions::new().write(true).open(&path).unwrap().set_len((1 << 30) + 1).unwrap();
    let (status, shown, complaints) = ended(&["check", &path]);
    assert_eq!((status, shown.as_str()), (2, "0 files: 0 accepted, 0 not whole, 0 refused; 1 trouble\n"));
    assert_eq!(complaints, format!("sill: {path}: longer than 1 GiB, the most that is read of a file\n"));
}

/// The 16 MiB are of a value, not of a file.
#[test]
fn two_values_of_ten_megabytes() {
    let folder = folder("two-large");
    let path = file(&folder, "two.golden", &bytes_of(10_000_000).repeat(2));
    let (status, shown, _) = ended(&["check", &path]);
    assert_eq!(status, 0);
    assert!(shown.starts_with(&format!("accepted   {path}: 2 values, ")), "{shown}");
    let out = folder.join("out").to_str().unwrap().to_string();
    for words in [&["show", "-d0", &path][..], &["lines", &path], &["write", "-o", &out, &path], &["diff", &path, &out]]
    {
        assert_eq!(ended(words).0, 0, "{words:?}");
    }
    assert_eq!(ended(&["repair", "-o", &out, &path]).0, 0);
    assert_eq!(fs::read(&path).unwrap(), fs::read(&out).unwrap());
    assert!(ended(&["totals", &path]).1.contains("\naccepted 1\n"));
}

#[test]
fn many_files_in_order_of_their_names() {
    let folder = folder("many");
    for at in 0..400 {
        file(&folder, &format!("{at:03}.golden"), if at % 10 == 3 { b"?" } else { b"N" });
    }
    let (status, shown, _) = ended(&["check", folder.to_str().unwrap()]);
    let lines: Vec<&str> = shown.lines().collect();
    assert_eq!((status, lines.len(), lines[400]), (1, 401, "400 files: 360 accepted, 0 not whole, 40 refused"));
    for (at, line) in lines[..400].iter().enumerate() {
        assert!(line.contains(&format!("/{at:03}.golden: ")), "{line}");
    }
}

#[test]
fn folders_below_and_links() {
    let folder = folder("below");
    fs::create_dir_all(folder.join("b/c")).unwrap();
    file(&folder, "b/c/one.golden", b"N");
    file(&folder, "b/.hidden", b"?");
    std::os::unix::fs::symlink(&folder, folder.join("b/round")).unwrap();
    std::os::unix::fs::symlink("c/one.golden", folder.join("b/two.golden")).unwrap();
    let (status, shown, complaints) = ended(&["check", folder.to_str().unwrap()]);
    assert_eq!((status, complaints.as_str()), (0, ""));
    assert!(shown.ends_with("\n2 files: 2 accepted, 0 not whole, 0 refused\n"), "{shown}");
    std::os::unix::fs::symlink("nowhere", folder.join("b/three.golden")).unwrap();
    let queue = folder.join("b/queue");
    assert!(Command::new("mkfifo").arg(&queue).status().unwrap().success());
    let (status, shown, complaints) = ended(&["check", folder.to_str().unwrap()]);
    assert!(shown.ends_with("\n2 files: 2 accepted, 0 not whole, 0 refused; 2 troubles\n"), "{shown}");
    let told = format!("sill: {}: neither a file nor a folder\n", queue.to_str().unwrap());
    assert!(status == 2 && complaints.starts_with(&told), "{complaints}");
    assert!(complaints.ends_with("b/three.golden: No such file or directory\n"), "{complaints}");
}
