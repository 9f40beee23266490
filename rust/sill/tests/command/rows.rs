//! `sill row`.
use super::*;

/// Two instructions of row 11, one of row 12, three of row 11, the last of them without a place of its own.
fn golden(name: &str) -> String {
    file(&folder(name), "rows.golden", &code(6, 10, &[0xE9, 2, 0xE8, 2, 0xE9, 3, 0xF8]))
}

#[test]
fn starts_of_a_row_are_listed_with_what_is_not_sure_apart() {
    let path = golden("row-starts");
    let (status, shown, complaints) = ended(&["row", &path, "11"]);
    assert_eq!((status, complaints.as_str()), (0, ""));
    let told = "code object total at byte 1, file rates.py:\n  instruction 0 starts it, 2 instructions of it\n  \
                instruction 3 starts it, 2 instructions of it\n  without a sure row, and not counted: 1 instruction\n";
    assert_eq!(shown, told);
    let (status, shown, _) = ended(&["row", &path, "12"]);
    assert_eq!((status, shown.lines().count()), (0, 2), "{shown}");
}

#[test]
fn a_row_that_nothing_starts_is_said() {
    let (status, shown, _) = ended(&["row", &golden("row-none"), "13"]);
    assert_eq!((status, shown.as_str()), (1, "row 13: no instruction starts it\n"));
}

#[test]
fn a_left_over_instruction_starts_no_row() {
    let path = file(&folder("row-left-over"), "rows.golden", &code(3, 10, &[0xE9, 2]));
    let (status, shown, _) = ended(&["row", &path, "10"]);
    assert_eq!(status, 1);
    assert!(shown.contains("1 instruction") && !shown.contains("starts it,"), "{shown}");
}

#[test]
fn what_is_no_row_is_called_wrongly() {
    for word in ["0", "-1", "x"] {
        let (status, shown, complaints) = ended(&["row", "goldens/rates.golden", word]);
        assert_eq!((status, shown.as_str()), (2, ""), "{complaints}");
    }
}
