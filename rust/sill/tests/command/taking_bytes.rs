//! `sill bytes`.
use super::*;

/// A number that is shared, and two pairs: one that names only itself, and one that names the number.
const SHARED: &[u8] = b"N)\x03\xE9\x05\0\0\0\xA9\x02\xCEr\x02\0\0\0)\x02Tr\0\0\0\0";

#[test]
fn alone_with_lower_indices() {
    let folder = folder("alone");
    let path = file(&folder, "shared.golden", SHARED);
    let target = folder.join("pair").to_str().unwrap().to_string();
    let told = format!("written  {target}: 8 bytes: tuple of 2, bytes 8 to 15; indices lowered by 1\n");
    assert_eq!(ended(&["bytes", &path, "8", "-o", &target]), (0, told, String::new()));
    assert_eq!(fs::read(&target).unwrap(), b"\xA9\x02\xCEr\x01\0\0\0");
    assert_eq!(ended(&["bytes", &path, "15", "-o", &target]).0, 0, "a reference's bytes are its container's");
    assert_eq!(fs::read(&target).unwrap().len(), 8);
    let Output { status, stdout, stderr } = sill(&["bytes", &path, "3"]);
    assert_eq!((status.code(), &stdout[..]), (Some(0), &b"\xE9\x05\0\0\0"[..]));
    assert_eq!(String::from_utf8(stderr).unwrap(), "written  -: 5 bytes: 5, bytes 3 to 7\n");
}

#[test]
fn what_names_a_value_outside_is_told() {
    let path = file(&folder("not-alone"), "shared.golden", SHARED);
    let Output { status, stdout, stderr } = sill(&["bytes", &path, "16"]);
    let told = format!(
        "not alone  {path}: tuple of 2, bytes 16 to 23: the reference at byte 19 names the value at byte 3, outside; \
         nothing is written\n"
    );
    assert_eq!((status.code(), stdout.len(), String::from_utf8(stderr).unwrap()), (Some(1), 0, told));
    let Output { status, stdout, .. } = sill(&["bytes", "--as-is", &path, "16"]);
    assert_eq!((status.code(), &stdout[..]), (Some(0), &SHARED[16..]));
}

#[test]
fn places_without_a_value() {
    let path = file(&folder("no-place"), "one.golden", b"NN");
    let (status, shown, complaints) = ended(&["bytes", &path, "2"]);
    assert_eq!((status, shown.as_str()), (1, ""));
    assert!(complaints.contains("there is no value at byte 2"), "{complaints}");
    assert_eq!(ended(&["bytes", &path, "x"]).0, 2);
    assert_eq!(ended(&["bytes", &path, "0", "-o", &path]).0, 2);
    let path = file(&folder("no-place"), "cut.golden", b"Nz\x05a");
    assert!(ended(&["bytes", &path, "3"]).2.contains("2 DataTooShort at byte 3"));
    assert_eq!(ended(&["bytes", &path, "0"]).0, 0);
}
