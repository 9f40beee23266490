//! `sill write`.
use super::*;

#[test]
fn the_canonical_form_holds_the_same_value() {
    let folder = folder("written");
    for name in ["rates", "fees", "result", "shared", "deep", "cut-line-table"] {
        let (from, to) = (format!("goldens/{name}.golden"), folder.join(name).to_str().unwrap().to_string());
        assert_eq!(ended(&["write", &from, "-o", &to]).0, 0, "{name}");
        assert_eq!(ended(&["diff", &from, &to]).0, 0, "{name}");
        let again = format!("{to}.again");
        assert_eq!(ended(&["write", "-o", &again, &to]).0, 0, "{name}");
        assert_eq!(fs::read(&to).unwrap(), fs::read(&again).unwrap());
    }
    assert_eq!(fs::read_dir(&folder).unwrap().count(), 12);
}

#[test]
fn the_file_that_is_read_is_never_replaced() {
    let folder = folder("itself");
    let path = file(&folder, "one.golden", b")\x01N");
    let link = folder.join("link.golden");
    fs::hard_link(&path, &link).unwrap();
    for target in [path.as_str(), link.to_str().unwrap()] {
        let (status, shown, complaints) = ended(&["write", &path, "-o", target]);
        assert_eq!((status, shown.as_str()), (2, ""));
        assert!(complaints.contains("is the file that is read"), "{complaints}");
    }
    assert_eq!(fs::read(&path).unwrap(), b")\x01N");
}

#[test]
fn an_older_file_is_replaced_and_a_folder_is_not() {
    let folder = folder("older");
    let path = file(&folder, "one.golden", b")\x01N");
    let older = file(&folder, "older", b"older");
    let shown = format!("written  {older}: 6 bytes (was 3)\n");
    assert_eq!(ended(&["write", &path, "-o", &older]), (0, shown, String::new()));
    assert_eq!(fs::read(&older).unwrap(), b"(\x01\0\0\0N");
    let told = format!("sill: {}: is there, and is no file\n", folder.to_str().unwrap());
    assert_eq!(ended(&["write", &path, "-o", folder.to_str().unwrap()]), (2, String::new(), told));
}

#[test]
fn what_cannot_be_read_is_not_written() {
    let folder = folder("unwritten");
    let to = folder.join("out").to_str().unwrap().to_string();
    let (status, shown, _) = ended(&["write", "goldens/damaged-text.golden", "-o", &to]);
    assert_eq!(status, 1);
    assert!(shown.ends_with("; nothing is written\n"), "{shown}");
    assert_eq!(ended(&["write", "nowhere", "-o", &to]).0, 2);
    assert_eq!(ended(&["write", "goldens/rates.golden"]).0, 2);
    assert_eq!(fs::read_dir(&folder).unwrap().count(), 0);
}

/// A Cell that has a Local's name is not written, and then there are more kinds than names.
#[test]
fn names_out_of_order_may_not_read_back() {
    let folder = folder("order");
    let code = b"c\0\0\0\0\0\0\0\0\0\0\0\0\0\0\0\0\0\0\0\0s\0\0\0\0)\0)\0)\x02z\x01az\x01as\x02\0\0\0\x20\x40\
                 z\0z\0z\x01f\x01\0\0\0s\0\0\0\0s\0\0\0\0";
    let path = file(&folder, "order.golden", code);
    let (status, shown, _) = ended(&["check", &path]);
    assert_eq!(status, 0);
    assert!(shown.contains("; code object f: name order is not kept from local name 1 (a) on\n"), "{shown}");
    let (status, shown, _) = ended(&["write", &path, "-o", folder.join("out").to_str().unwrap()]);
    assert_eq!(status, 1);
    assert!(shown.contains("the local names of code object f are out of order"), "{shown}");
    assert_eq!(fs::read_dir(&folder).unwrap().count(), 1);
}

/// A limit on the size of files stands in for a full disk: writing fails half way.
#[test]
fn a_full_disk_loses_nothing() {
    let folder = folder("full");
    let older = file(&folder, "older", b"older");
    let call = format!("trap '' XFSZ; ulimit -f 0; exec \"$0\" write goldens/rates.golden -o '{older}'");
    let output =
        Command::new("sh").args(["-c", &call, env!("CARGO_BIN_EXE_sill")]).current_dir(root()).output().unwrap();
    assert_eq!(output.status.code(), Some(2));
    assert_eq!(String::from_utf8(output.stderr).unwrap(), format!("sill: {older}: File too large\n"));
    assert_eq!(fs::read(&older).unwrap(), b"older");
    assert_eq!(fs::read_dir(&folder).unwrap().count(), 1);
}
