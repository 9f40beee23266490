//! `sill repair`.
use super::*;

/// Where a file's bytes are those of another, with some taken out of the middle of each.
fn differs_only_between(a: &[u8], b: &[u8]) -> (usize, usize) {
    let front = a.iter().zip(b).take_while(|(a, b)| a == b).count();
    let most = a.len().min(b.len()) - front;
    let back = a.iter().rev().zip(b.iter().rev()).take(most).take_while(|(a, b)| a == b).count();
    (front, a.len() - back)
}

fn repaired(name: &str, golden: &[u8]) -> (i32, String, Vec<u8>) {
    let folder = folder(name);
    let (path, out) = (file(&folder, "cut.golden", golden), folder.join("out.golden"));
    let (status, shown, complaints) = ended(&["repair", "-o", out.to_str().unwrap(), &path]);
    assert_eq!(complaints, "");
    (status, shown.replace(folder.to_str().unwrap(), ""), fs::read(out).unwrap_or_default())
}

#[test]
fn the_cut_sample() {
    let folder = folder("repair-sample");
    let out = folder.join("mended.golden");
    let out = out.to_str().unwrap();
    let (status, shown, _) = ended(&["repair", "-o", out, "goldens/cut-line-table.golden"]);
    assert_eq!(status, 0, "{shown}");
    assert!(shown.starts_with("mended   code object <module>: "), "{shown}");
    assert!(shown.contains("instruction 33 is the first without a line; the last row placed is 57\n"), "{shown}");
    assert!(shown.contains("1 code object mended, 0 left as they are\n"), "{shown}");
    let (status, checked, _) = ended(&["check", out]);
    assert_eq!(status, 0, "{checked}");
    assert!(checked.contains(" without a sure row ("), "{checked}");
    assert!(checked.contains("12 no place"), "{checked}");
    assert!(checked.contains("); the last row placed is 57\n"), "{checked}");
    assert_eq!(ended(&["check", "--strict", out]).0, 1);
    let (status, shown, _) = ended(&["repair", "--dry-run", out]);
    assert_eq!(
        (status, shown.as_str()),
        (0, "dry run  0 code objects mended, 0 left as they are; nothing is written\n")
    );
}

#[test]
fn only_the_tables_bytes_change() {
    let golden = [b"N", &code(3, 10, &[0xE9, 0x02, 0xD8, 0x04])[..], b"T"].concat();
    let (status, shown, mended) = repaired("repair-bytes", &golden);
    assert_eq!(status, 0, "{shown}");
    let told = "mended   code object total: 1 entry kept, 2 bytes dropped, none shortened, 1 instruction covered; \
                instruction 2 is the first without a line; the last row placed is 11\n";
    assert!(shown.starts_with(told), "{shown}");
    assert_eq!(mended, [b"N", &code(3, 10, &[0xE9, 0x02, 0xF8])[..], b"T"].concat());
    let table = golden.windows(4).position(|window| window == [0xE9, 0x02, 0xD8, 0x04]).unwrap();
    let (front, back) = differs_only_between(&golden, &mended);
    assert!(front >= table - 4 && back <= table + 4, "{front} to {back}, and the table at {table}");
}

#[test]
fn a_whole_file_comes_back_as_it_is() {
    let golden = code(2, 10, &[0xE9, 0x02]);
    let (status, shown, mended) = repaired("repair-whole", &golden);
    assert_eq!((status, mended), (0, golden), "{shown}");
}

/// Two code objects in a tuple, of which the second names the first's line table.
fn sharing(second: (usize, i32), table: &[u8]) -> Vec<u8> {
    let flagged = [&[0xF3][..], &counted(b's', table)[1..]].concat();
    let none = counted(b's', b"");
    let first = code_with(2, 1, &flagged, &none);
    let second = code_with(second.0, second.1, b"r\0\0\0\0", &none);
    [b")\x02", &first[..], &second].concat()
}

/// From line 1 this table is whole for two instructions; from the last line its first entry is refused.
#[test]
fn a_shared_table_that_another_would_mend_otherwise_is_left() {
    for other in [(2, i32::MAX), (5, 1)] {
        let golden = sharing(other, &[0xD8, 0x00, 0x00, 0x80, 0x00]);
        let (status, shown, mended) = repaired("repair-shared", &golden);
        assert_eq!((status, &mended), (1, &golden), "{shown}");
        let told = "left     code object total: its line table is shared with another code object, whose repair would give \
                    other bytes\n";
        assert!(shown.starts_with(told), "{shown}");
        assert!(shown.ends_with("0 code objects mended, 1 left as they are\n"), "{shown}");
    }
}

#[test]
fn a_shared_table_that_all_would_mend_alike_is_mended_once() {
    let (status, shown, mended) = repaired("repair-alike", &sharing((2, 1), &[0xE8, 0x02]));
    assert_eq!((status, mended), (0, sharing((2, 1), &[0xE8, 0x02, 0xF8])), "{shown}");
}

#[test]
fn what_is_also_something_else_is_left_and_the_others_are_mended() {
    let flagged = [&[0xF3][..], &counted(b's', &[0xE8, 0x02])[1..]].concat();
    let shared = code_with(2, 1, &flagged, b"r\0\0\0\0");
    let golden = [&shared[..], &code(2, 1, &[0xE8, 0x02])].concat();
    let (status, shown, mended) = repaired("repair-else", &golden);
    assert_eq!(status, 1, "{shown}");
    assert!(shown.contains(": its line table is shared with something that is no line table\n"), "{shown}");
    assert_eq!(mended, [&shared[..], &code(2, 1, &[0xE8, 0x02, 0xF8])].concat());
}

#[test]
fn as_json_and_nothing_written() {
    let path = file(&folder("repair-json"), "cut.golden", &code(3, 10, &[0xE9, 0x02]));
    let (status, shown, _) = ended(&["repair", "--dry-run", "--json", &path]);
    let told = "{\"written\": null, \"code_objects\": [{\"name\": \"total\", \"mended\": true, \"kept\": 1, \"dropped\": 0, \
                \"shortened\": false, \"covered\": 1, \"first_without_line\": 2, \"last_row\": 11}]}\n";
    assert_eq!((status, shown.as_str()), (0, told));
}

#[test]
fn called_wrongly_and_refused() {
    assert_eq!(ended(&["repair", "goldens/rates.golden"]).0, 2);
    assert_eq!(ended(&["repair", "-o", "goldens/rates.golden", "goldens/rates.golden"]).0, 2);
    let (status, shown, out) = repaired("repair-refused", b"?");
    assert_eq!((status, out), (1, Vec::new()));
    assert!(shown.starts_with("refused  /cut.golden: 3 UnknownType at byte 0: "), "{shown}");
}
