//! `sill diff`.
use super::*;

#[test]
fn the_same_value_in_other_letters() {
    let folder = folder("same");
    let one = file(&folder, "one.golden", b")\x02\xE9\x05\0\0\0r\0\0\0\0N");
    let other = file(&folder, "other.golden", b"(\x02\0\0\0i\x05\0\0\0i\x05\0\0\0N");
    assert_eq!(
        ended(&["diff", &one, &other]),
        (0, format!("the same: {one} and {other}, 2 values, written as the same bytes\n"), String::new())
    );
}

#[test]
fn the_first_difference_by_path_and_place() {
    let folder = folder("different");
    let one = file(&folder, "one.golden", b"N)\x02T)\x01z\x01a");
    let other = file(&folder, "other.golden", b"N)\x02T)\x01u\x01\0\0\0b");
    let shown = format!(
        "different in value 2, at [1][0]\n  {one} at byte 8, bytes 6 to 8: \"a\"\n  {other} at byte 11, bytes 6 to 11: \"b\"\n  \
         their contents differ from their byte 0 on\n"
    );
    assert_eq!(ended(&["diff", &one, &other]), (1, shown, String::new()));
}

#[test]
fn one_file_goes_on() {
    let folder = folder("longer");
    let (one, other) = (file(&folder, "one.golden", b"N"), file(&folder, "other.golden", b"NN"));
    let shown = format!("different: alike up to value 1, and {other} goes on at byte 1\n");
    assert_eq!(ended(&["diff", &one, &other]), (1, shown, String::new()));
}

#[test]
fn a_cut_line_table_is_a_difference() {
    let (status, shown, _) = ended(&["diff", "goldens/rates.golden", "goldens/cut-line-table.golden"]);
    assert_eq!(status, 1);
    assert!(shown.starts_with("different in value 1, at .line_table\n"), "{shown}");
}

#[test]
fn refused_files_are_told() {
    let folder = folder("refused");
    let (one, other) = (file(&folder, "one.golden", b""), file(&folder, "other.golden", b"0"));
    let (status, shown, _) = ended(&["diff", &one, &other]);
    assert_eq!((status, shown.lines().count()), (1, 2));
    assert_eq!(ended(&["diff", &one, "nowhere"]).0, 2);
}

/// Keys are named by what they are.
#[test]
fn the_way_to_a_value_by_its_keys() {
    let folder = folder("keys");
    let dict = |last: u8| {
        [b"{z\x04rows)\x03TT", &[last][..], b"i\x05\0\0\0)\x01", &[last], b")\x02z\x01ai\x01\0\0\0", &[last], b"0"]
            .concat()
    };
    let (one, other) = (file(&folder, "one", &dict(b'T')), file(&folder, "other", &dict(b'F')));
    let at = |shown: &str| {
        let lines = shown.lines().filter_map(|line| line.strip_prefix("different in value 1, at "));
        lines.map(String::from).collect::<Vec<_>>()
    };
    let (status, shown, _) = ended(&["diff", &one, &other]);
    assert_eq!((status, at(&shown)), (1, vec!["[\"rows\"][2]".to_string()]), "{shown}");
    let (status, shown, _) = ended(&["diff", "--all", &one, &other]);
    assert_eq!(
        (status, at(&shown)),
        (1, vec!["[\"rows\"][2]".into(), "[5][0]".into(), "[(\"a\", 1)]".into()]),
        "{shown}"
    );
}

/// Differences in later values are found too, and where one file goes on.
#[test]
fn every_difference_of_every_value() {
    let folder = folder("all");
    let one = file(&folder, "one", b")\x02TN)\x01NT");
    let other = file(&folder, "other", b")\x02FF)\x01N");
    let (status, shown, _) = ended(&["diff", "-a", &one, &other]);
    assert_eq!(status, 1);
    let heads: Vec<&str> = shown.lines().filter(|line| line.starts_with("different")).collect();
    let goes_on = format!("different: compared up to value 2, and {one} goes on at byte 7");
    assert_eq!(heads, ["different in value 1, at [0]", "different in value 1, at [1]", &goes_on]);
    assert_eq!(ended(&["diff", &one, &other]).1.matches("different").count(), 1);
}

#[test]
fn one_value_of_a_file() {
    let folder = folder("hash");
    let one = file(&folder, "one", b"NT)\x01N");
    let other = file(&folder, "other", b"T");
    assert_eq!(ended(&["diff", &format!("{one}#2"), &other]).0, 0);
    assert_eq!(ended(&["diff", &format!("{one}#2"), &format!("{one}#2")]).0, 0);
    let (status, shown, _) = ended(&["diff", &format!("{one}#1"), &other]);
    assert_eq!(status, 1);
    assert!(shown.starts_with("different in value 1, at the value itself\n"), "{shown}");
    let (_, shown, _) = ended(&["diff", &format!("{one}#3"), &format!("{one}#1")]);
    assert!(shown.starts_with("different in values 3 and 1, at the value itself\n"), "{shown}");
    assert!(shown.contains(&format!("  {one}#3 at byte 3, bytes 2 to 4: tuple of 1\n")), "{shown}");
    let (status, _, complaints) = ended(&["diff", &format!("{one}#4"), &other]);
    assert_eq!((status, complaints), (2, format!("sill: {one}#4: has no value 4\n")));
    file(&folder, "one#2", b"N");
    assert_eq!(ended(&["diff", &format!("{one}#2"), &other]).0, 1);
}

/// Two line tables as the rows that they give, not as hexadecimal.
#[test]
fn line_tables_as_rows() {
    let (_, shown, _) = ended(&["diff", "goldens/cut-line-table.golden", "goldens/rates.golden"]);
    let told = "different in value 1, at .line_table\n  goldens/cut-line-table.golden at byte 225, bytes 220 to 278: line table of 45 \
                instructions, NOT WHOLE: it places 33 of them\n  goldens/rates.golden at byte 225, bytes 220 to 303: line table of 45 \
                instructions, whole\n  instruction 33: no row / 211\n";
    assert!(shown.starts_with(told), "{shown}");
    assert!(shown.ends_with("  instruction 40: no row / 212\n  and 4 instructions more\n"), "{shown}");
    let (_, shown, _) = ended(&["diff", "--all", "goldens/cut-line-table.golden", "goldens/rates.golden"]);
    assert!(shown.contains("  instruction 44: no row / 212\n"), "{shown}");
    let folder = folder("row-tables");
    let table = |name: &str, instructions, table: &[u8]| file(&folder, name, &code(instructions, 10, table));
    let (one, other) = (table("a", 1, &[0xD8, 0x05, 0x07]), table("b", 1, &[0xD8, 0x05, 0x09]));
    let (_, shown, _) = ended(&["diff", &one, &other]);
    assert!(shown.ends_with("  instruction 0: 11:6 to 11:8 / 11:6 to 11:10\n"), "{shown}");
    let (one, other) = (table("c", 2, &[0xE9, 0x02]), table("d", 2, &[0xE8, 0x02, 0xE8, 0x00]));
    let (_, shown, _) = ended(&["diff", &one, &other]);
    assert!(shown.ends_with("  their contents differ from their byte 0 on\n"), "{shown}");
    let refused = table("e", 2, &[0xE8, 0x40, 0x40, 0x40, 0x40, 0x40, 0x3F]);
    let (_, shown, _) = ended(&["diff", &one, &refused]);
    assert!(shown.contains(": line table refused: 18 NumberRange at byte "), "{shown}");
}

#[test]
fn folders() {
    let folder = folder("folders");
    for side in ["a/deep", "b/deep"] {
        fs::create_dir_all(folder.join(side)).unwrap();
    }
    let one = |name: &str, bytes: &[u8]| file(&folder, name, bytes);
    for (name, bytes) in [("a/same.golden", b"N"), ("b/same.golden", b"N"), ("a/deep/x.golden", b"T")] {
        one(name, bytes);
    }
    one("b/deep/x.golden", b"F");
    one("a/left.golden", b"N");
    one("b/right.bin", b"N");
    let side = |name: &str| folder.join(name).to_str().unwrap().to_string();
    let (status, shown, complaints) = ended(&["diff", &side("a"), &side("b")]);
    let told = format!(
        "different in value 1, at the value itself\n  {}/deep/x.golden at byte 1, bytes 0 to 0: True\n  {}/deep/x.golden at byte 1, bytes 0 to 0: False\n\
         only on one side: {}/left.golden\nonly on one side: {}/right.bin\n2 pairs: 1 the same, 1 different, 2 on one side only\n",
        side("a"),
        side("b"),
        side("a"),
        side("b")
    );
    assert_eq!((status, shown, complaints.as_str()), (1, told, ""));
    assert_eq!(
        ended(&["diff", "--glob", "same*", &side("a"), &side("b")]),
        (0, "1 pair: 1 the same, 0 different, 0 on one side only\n".to_string(), String::new())
    );
    assert_eq!(ended(&["diff", &side("a"), &side("b/same.golden")]).0, 0);
    assert_eq!(ended(&["diff", &side("a/same.golden"), &side("b")]).0, 0);
    std::os::unix::fs::symlink("nowhere", folder.join("b/none.golden")).unwrap();
    let (status, shown, _) = ended(&["diff", &side("a"), &side("b")]);
    assert!(status == 2 && shown.ends_with("on one side only; 1 trouble\n"), "{shown}");
}

#[test]
fn a_set_in_another_order_is_another_value() {
    let folder = folder("set-order");
    let one = file(&folder, "one.golden", b"<\x02\0\0\0NT");
    let other = file(&folder, "other.golden", b"<\x02\0\0\0TN");
    let (status, shown, _) = ended(&["diff", &one, &other]);
    assert_eq!(status, 1);
    assert!(shown.starts_with("different in value 1, at [0]\n"), "{shown}");
}

/// The local names of a code object with a Local and two Cells.
fn with_local_names(folder: &Path, name: &str, locals: [&str; 3]) -> String {
    let locals: String = locals.iter().map(|name| format!("z\x01{name}")).collect();
    let code = [
        b"c\0\0\0\0\0\0\0\0\0\0\0\0\0\0\0\0\0\0\0\0s\0\0\0\0)\0)\0)\x03".as_slice(),
        locals.as_bytes(),
        b"s\x03\0\0\0\x20\x40\x40z\0z\0z\x01f\x01\0\0\0s\0\0\0\0s\0\0\0\0",
    ];
    file(folder, name, &code.concat())
}

/// A Cell that has a Local's name is not written, so that equal bytes do not show where it stood.
#[test]
fn names_out_of_order_are_compared_part_by_part() {
    let folder = folder("diff-order");
    let one = with_local_names(&folder, "one.golden", ["a", "a", "b"]);
    let alike = with_local_names(&folder, "alike.golden", ["a", "a", "b"]);
    let other = with_local_names(&folder, "other.golden", ["a", "b", "a"]);
    let why = "value 1 is compared part by part, not by its written bytes: \
               the local names of code object f are out of order\n";
    let same = format!("{why}the same: {one} and {alike}, 1 value\n");
    assert_eq!(ended(&["diff", &one, &alike]), (0, same, String::new()));
    let (status, shown, _) = ended(&["diff", &one, &other]);
    assert_eq!(status, 1);
    assert!(shown.starts_with(&format!("{why}different in value 1, at .local_names[1]\n")), "{shown}");
}

/// 200 times 128 KiB, once sharing is written out.
#[test]
fn a_value_too_long_to_write_is_compared_part_by_part() {
    let folder = folder("diff-long");
    let long = [b")\xC8".as_slice(), &counted(b'u' | 0x80, &vec![b'x'; 1 << 17]), &b"r\0\0\0\0".repeat(199)].concat();
    let (one, other) = (file(&folder, "one.golden", &long), file(&folder, "other.golden", &long));
    let (status, shown, _) = ended(&["diff", &one, &other]);
    assert_eq!(status, 0);
    assert!(shown.contains("not by its written bytes: it cannot be written: 17 NoRoom"), "{shown}");
    assert!(shown.ends_with(&format!("the same: {one} and {other}, 1 value\n")), "{shown}");
}
