//! `sill show` and `sill lines`.
use super::*;

#[test]
fn a_tree_with_places() {
    let path = file(&folder("tree"), "tree.golden", b")\x03\xA9\x01i\x05\0\0\0r\0\0\0\0z\x01a");
    let line = |place: u32, bytes: &str, rest: &str| format!("{place:>9}  {bytes:<17}  {rest}\n");
    let shown = [
        "value 1, bytes 0 to 16\n".to_string(),
        line(1, "0 to 16", ")  tuple of 3"),
        line(3, "2 to 8", ")    [0]: tuple of 1"),
        line(5, "4 to 8", "i      [0]: 5"),
        line(3, "2 to 8", ")    [1]: the same as at byte 3: tuple of 1"),
        line(16, "14 to 16", "z    [2]: \"a\""),
    ]
    .concat();
    assert_eq!(ended(&["show", &path]), (0, shown, String::new()));
    let shown = format!("value 1, bytes 0 to 16\n{}", line(1, "0 to 16", ")  tuple of 3 …"));
    assert_eq!(ended(&["show", "--depth", "0", &path]).1, shown);
    let (_, shown, _) = ended(&["show", "--depth", "1", &path]);
    assert_eq!(shown.matches("tuple of 1 …").count(), 2, "{shown}");
}

#[test]
fn json() {
    let path = file(&folder("json"), "json.golden", b")\x02z\x03\"\n\xC3\0".get(..7).unwrap());
    let (status, shown, _) = ended(&["show", "--json", &path]);
    assert_eq!(status, 1);
    assert!(shown.starts_with("[\n{\"refused\":{\"number\":9,\"name\":\"InvalidUtf8\",\"byte\":4,"), "{shown}");
    let path = file(&folder("json"), "json.golden", b")\x02z\x02\"\n{0");
    let shown = "[\n{\"from\":0,\"to\":7,\"size\":8,\"nodes\":[\n\
                 {\"node\":0,\"letter\":\")\",\"place\":1,\"size\":1,\"from\":0,\"to\":7,\"type\":\"tuple\",\"children\":[1,2]},\n\
                 {\"node\":1,\"letter\":\"z\",\"place\":4,\"size\":2,\"from\":2,\"to\":5,\"type\":\"text\",\"value\":\"\\\"\\u000a\"},\n\
                 {\"node\":2,\"letter\":\"{\",\"place\":7,\"size\":0,\"from\":6,\"to\":7,\"type\":\"dict\",\"children\":[]}\n]}\n]\n";
    assert_eq!(ended(&["show", "--json", &path]), (0, shown.to_string(), String::new()));
    let path = file(&folder("json"), "json.golden", b"z\x06\xED\xA0\xB4\xED\xB4\xA0");
    let (_, shown, _) = ended(&["show", "--json", &path]);
    assert!(shown.contains("\"value\":\"\\ud834\\udd20\",\"bytes\":\"eda0b4edb4a0\""), "{shown}");
}

#[test]
fn every_sample_is_shown_in_both_ways() {
    for entry in fs::read_dir(root().join("goldens")).unwrap() {
        let path = entry.unwrap().path();
        let status = if path.ends_with("damaged-text.golden") { 1 } else { 0 };
        assert_eq!(ended(&["show", path.to_str().unwrap()]).0, status, "{path:?}");
        assert_eq!(ended(&["show", "--json", path.to_str().unwrap()]).0, status, "{path:?}");
    }
}

#[test]
fn lines_of_a_cut_table_are_marked() {
    let (status, shown, _) = ended(&["lines", "goldens/cut-line-table.golden"]);
    let lines: Vec<&str> = shown.lines().collect();
    assert_eq!((status, lines.len()), (1, 46));
    assert!(lines[0].ends_with("45 instructions, NOT WHOLE: the line table places 33 of them"), "{}", lines[0]);
    assert_eq!(lines[33], "      32  5a 05  57:1 to 57:4");
    assert_eq!(lines[34], "      33  65 05  -  ! left over; document 01 shows 1:1 to 1:1");
}

#[test]
fn a_row_that_no_entry_gave_is_not_shown_as_one() {
    let folder = folder("rows");
    for (name, table, shown) in [
        ("filled", &[0xE8, 0x02, 0xF8][..], "no place; document 01 shows 11:1 to 11:1"),
        ("damaged", &[0xE8, 0x02, 0xE8, 0x1D], "line -3 shown as 1; document 01 shows 1:1 to 1:1"),
        ("zero", &[0xE8, 0x02, 0xE8, 0x17], "line 0 shown as 1; document 01 shows 1:1 to 1:1"),
        ("cut", &[0xE8, 0x02, 0xE8], "cut entry; document 01 shows 11:1 to 11:1"),
        ("left", &[0xE8, 0x02], "left over; document 01 shows 10:1 to 10:1"),
    ] {
        let path = file(&folder, name, &code(2, 10, table));
        let (_, told, _) = ended(&["lines", &path]);
        assert_eq!(told.lines().nth(1), Some("       0  09 00  11:1 to 11:1"), "{name}");
        assert_eq!(told.lines().nth(2), Some(&format!("       1  09 00  -  ! {shown}")[..]), "{name}");
    }
}

/// An end line below 1 behind a line that is not; and lines so far apart that no first line shows them all.
#[test]
fn lines_below_one() {
    let folder = folder("below-one");
    let end = [0xF0, 0x02, 0x7D, 0x7F, 0x7F, 0x7F, 0x7F, 0x03, 0x01, 0x01];
    let path = file(&folder, "end", &code(1, 1, &end));
    let told = ended(&["lines", &path]).1;
    assert!(told.ends_with("-  ! end line -1 shown as 1; document 01 shows 2:1 to 1:1\n"), "{told}");
    let most = [0xE8, 0x7E, 0x7F, 0x7F, 0x7F, 0x7F, 0x03];
    let path = file(&folder, "apart", &code(3, i32::MIN, &[&[0xE8, 0x00][..], &most, &most].concat()));
    let told = ended(&["lines", &path]).1;
    assert!(told.contains("       0  09 00  -  ! line below 1 shown as 1; document 01 shows 1:1 to 1:1\n"), "{told}");
    assert!(told.ends_with("       2  09 00  2147483646:1 to 2147483646:1\n"), "{told}");
}

#[test]
fn a_table_filled_up_is_a_fault_where_it_is_asked_for() {
    let path = file(&folder("strict"), "filled", &code(3, 10, &[0xE8, 0x02, 0xF9]));
    let rows = "           code object total: 2 of 3 instructions without a sure row (2 no place); the last row placed is 11\n";
    let held = "1 value, 1 code object, 3 instructions, 2 of them without a sure row";
    let accepted = format!("accepted   {path}: {held}\n{rows}1 file: 1 accepted, 0 not whole, 0 refused\n");
    assert_eq!(ended(&["check", &path]), (0, accepted, String::new()));
    let fault = "code object total: its last 2 of 3 instructions have no line; the last row placed is 11";
    let totals = "1 file: 0 accepted, 0 not whole, 0 refused, 1 without a place at the end\n";
    let strict = format!("NO PLACE   {path}: {fault}\n{rows}{totals}");
    assert_eq!(ended(&["check", "--strict", &path]), (1, strict.clone(), String::new()));
    assert_eq!(ended(&["check", "--strict", "--quiet", &path]).1, strict);
    let path = file(&folder("strict"), "left", &code(3, 10, &[0xE8, 0x02]));
    assert!(ended(&["check", "--strict", &path]).1.starts_with("NOT WHOLE "));
    let path = file(&folder("strict"), "placed", &code(3, 10, &[0xF9, 0xE8, 0x02]));
    let (status, told, _) = ended(&["check", "--strict", &path]);
    assert!(status == 0 && told.contains(" (2 no place); the last row placed is 11\n"), "{told}");
}

/// JSON has the counts of every code object: those of the line table, and the last row.
#[test]
fn counts_of_rows_in_json() {
    let folder = folder("counts");
    let path = file(&folder, "counts", &code(5, 10, &[0xE8, 0x02, 0xD8, 0x05, 0x07, 0xE8, 0x1D, 0xF8]));
    let told = ended(&["show", "--json", &path]).1;
    let counts = "\"lines\":{\"whole\":false,\"instructions\":5,\"from_entries\":4,\"with_line\":3,\"with_columns\":1,\
                  \"sure\":2,\"last_row\":12,\"without_line_at_the_end\":2}";
    assert!(told.contains(counts), "{told}");
    let path = file(&folder, "none", &code(1, 10, &[0xF8]));
    assert!(
        ended(&["show", "--json", &path]).1.contains("\"sure\":0,\"last_row\":null,\"without_line_at_the_end\":1}")
    );
    let path = file(&folder, "refused", &code(1, 10, &[0xE8, 0x7F, 0x7F, 0x7F, 0x7F, 0x7F, 0x3F]));
    let told = ended(&["show", "--json", &path]).1;
    assert!(told.contains("\"lines\":null,\"lines_refused\":{\"number\":18,"), "{told}");
}

#[test]
fn lines_of_a_whole_table_are_not() {
    let (status, shown, _) = ended(&["lines", "goldens/rates.golden"]);
    assert_eq!(status, 0);
    assert!(shown.contains("      40  7a 0b  212:8 to 212:17\n"), "{shown}");
    let marked: Vec<&str> = shown.lines().filter(|line| line.contains('!')).collect();
    assert_eq!(marked, ["       0  97 00  -  ! line 0 shown as 1; document 01 shows 1:1 to 1:1"]);
}

/// The first guards instructions 0 to 2, of which two come from row 11 and one has no place; the other one that has none.
#[test]
fn handlers_and_their_rows() {
    let golden = guarded(&[0x80, 0x03, 0x06, 0x03, 0x87, 0x01, 0x06, 0x04]);
    let path = file(&folder("guards"), "sound.golden", &golden);
    let (status, shown, _) = ended(&["lines", &path]);
    let lines: Vec<&str> = shown.lines().collect();
    assert_eq!((status, lines.len()), (0, 11), "{shown}");
    let first = "handler at instruction 6 for instructions 0 to 2, depth 1, the last instruction pushed, row 11";
    assert_eq!(lines[9..], [first, "handler at instruction 6 for instruction 7, depth 2, no row known"]);
    let (status, shown, _) = ended(&["show", "--depth", "0", &path]);
    assert_eq!(status, 0);
    assert!(shown.contains("; handler at instruction 6 for instruction 7, depth 2 …\n"), "{shown}");
    let (_, shown, _) = ended(&["show", "--json", &path]);
    let listed = "\"handlers\":[{\"start\":0,\"length\":3,\"target\":6,\"depth\":1,\"lasti\":true},\
                  {\"start\":7,\"length\":1,\"target\":6,\"depth\":2,\"lasti\":false}]";
    assert!(shown.contains(listed), "{shown}");
}

#[test]
fn a_damaged_exception_table_is_told() {
    let golden = [b"N", &guarded(&[0x80, 0x44, 0x40, 0x40, 0x40, 0x40, 0x00, 0x06, 0x03])[..]].concat();
    let path = file(&folder("guards"), "damaged.golden", &golden);
    let (status, shown, _) = ended(&["lines", &path]);
    assert_eq!(status, 1);
    let told = format!("exception table refused: 18 NumberRange at byte {}: ", golden.len() - 8);
    assert!(shown.lines().last().unwrap().starts_with(&told), "{shown}");
    let (status, shown, _) = ended(&["show", &path]);
    assert_eq!((status, shown.contains(&told)), (0, true), "{shown}");
    let (_, shown, _) = ended(&["show", "--json", &path]);
    let told = format!(
        "\"handlers\":null,\"handlers_refused\":{{\"number\":18,\"name\":\"NumberRange\",\"byte\":{},",
        golden.len() - 8
    );
    assert!(shown.contains(&told), "{shown}");
}

#[test]
fn a_reader_who_leaves_is_no_fault_to_tell() {
    let mut child = Command::new(env!("CARGO_BIN_EXE_sill"))
        .args(["show", "goldens/deep.golden"])
        .current_dir(root())
        .stdout(std::process::Stdio::piped())
        .stderr(std::process::Stdio::piped())
        .spawn()
        .unwrap();
    drop(child.stdout.take());
    assert_eq!(child.wait_with_output().unwrap().stderr, b"");
}

/// However deep values nest, JSON does not: `show` and its JSON name the same last byte, and nodes are numbered once.
#[test]
fn json_of_a_deep_value_is_flat() {
    let (status, shown, _) = ended(&["show", "--json", "goldens/deep.golden"]);
    assert_eq!(status, 0);
    let (mut depth, mut deepest) = (0, 0);
    for byte in shown.bytes() {
        depth += i32::from(b"[{".contains(&byte)) - i32::from(b"]}".contains(&byte));
        deepest = deepest.max(depth);
    }
    assert_eq!((depth, deepest), (0, 5));
    let told = "import json, sys; [value] = json.load(sys.stdin); nodes = value['nodes']; \
                print(value['from'], value['to'], len(nodes), all(n['node'] == at for at, n in enumerate(nodes)))";
    assert_eq!(python(told, shown.as_bytes()), "0 2008 1001 True\n");
    assert_eq!(jq(".[0].nodes | length", shown.as_bytes()).unwrap_or("1001\n".to_string()), "1001\n");
    assert!(ended(&["show", "-d0", "goldens/deep.golden"]).1.starts_with("value 1, bytes 0 to 2008\n"));
}

/// Shared values are one node; with --depth, a node has the least depth at which it stands.
#[test]
fn json_of_shared_values_and_of_some_levels() {
    let path = file(&folder("levels"), "shared.golden", b")\x03\xA9\x01)\x01Nr\0\0\0\0)\x01r\0\0\0\0");
    let nodes = |words: &[&str]| {
        let shown = ended(&[&["show", "--json", &path], words].concat()).1;
        let told = "import json, sys; [value] = json.load(sys.stdin); \
                    print([(n['node'], n.get('children', n.get('cut'))) for n in value['nodes']])";
        python(told, shown.as_bytes())
    };
    assert_eq!(nodes(&[]), "[(0, [1, 1, 4]), (1, [2]), (2, [3]), (3, None), (4, [1])]\n");
    assert_eq!(nodes(&["-d0"]), "[(0, True)]\n");
    assert_eq!(nodes(&["-d1"]), "[(0, [1, 1, 4]), (1, True), (4, True)]\n");
    assert_eq!(nodes(&["-d3"]), nodes(&[]));
}
