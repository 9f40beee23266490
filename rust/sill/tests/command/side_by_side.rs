//! `sill diff --html`: the trees tell the differences that `diff --all` tells, with spans that CPython reads, and stay small.
use super::*;

const PAGE: &str = "import json, marshal, re, sys\ndata = json.loads(re.search(r'id=\"data\">(.*?)</script>', sys.stdin.read(), re.S).group(1))\n\
                    lines = [line for value in data['values'] for line in value.get('lines', [])]\n";

/// What a script prints of the page of two files.
fn page(script: &str, paths: [&str; 2]) -> (i32, String) {
    let (status, page, told) = ended(&["diff", "--html", paths[0], paths[1]]);
    assert_eq!(told, "");
    (status, python(&format!("{PAGE}{script}"), page.as_bytes()))
}

/// Pairs of files, from alike to quite different.
fn pairs(name: &str) -> Vec<[String; 2]> {
    let folder = folder(name);
    let write = |name: &str, bytes: &[u8]| file(&folder, name, bytes);
    let list = |numbers: &[u8]| {
        let all = [b"[".as_slice(), &(numbers.len() as u32).to_le_bytes()].concat();
        numbers.iter().fold(all, |all, number| [&all[..], &[b'i', *number, 0, 0, 0]].concat())
    };
    let shared = |leaf: &[u8]| [b")\x03\xA9\x01", leaf, b"r\0\0\0\0)\x01r\0\0\0\0"].concat();
    let mut pairs = vec![
        ["goldens/rates.golden".to_string(), "goldens/cut-line-table.golden".to_string()],
        ["goldens/fees.golden".to_string(), "goldens/rates.golden".to_string()],
        ["goldens/fees.golden#1".to_string(), "goldens/fees.golden#2".to_string()],
        ["goldens/result.golden".to_string(), "goldens/shared.golden".to_string()],
        ["goldens/deep.golden".to_string(), "goldens/deep.golden".to_string()],
    ];
    let made: [(&str, Vec<u8>, Vec<u8>); 8] = [
        ("members", list(&[1, 2, 3, 4]), list(&[1, 9, 3, 8, 5])),
        ("longer", list(&[1; 100]), list(&[1; 3])),
        ("kinds", b")\x03N)\0z\x01a".to_vec(), b")\x03N[\0\0\0\0s\x01\0\0\0a".to_vec()),
        ("shared", shared(b"T"), shared(b"F")),
        ("dicts", b"{z\x01ai\x01\0\0\0z\x01bNT)\x01N0".to_vec(), b"{z\x01ai\x02\0\0\0z\x01bNF)\x01T0".to_vec()),
        ("codes", code(4, 10, &[0xEB, 0x02]), named_code("other", 4, 11, &[0xEB, 0x02])),
        ("tables", code(9, 10, &[0xE9, 0x02, 0xE8, 0x02]), code(9, 10, &[0xE9, 0x02, 0xE8, 0x04])),
        ("values", [list(&[1]), list(&[2])].concat(), list(&[1])),
    ];
    pairs.extend(
        made.map(|(name, one, other)| [write(&format!("{name}-a"), &one), write(&format!("{name}-b"), &other)]),
    );
    pairs
}

#[test]
fn the_page_tells_what_diff_tells() {
    let script = "print(data['differences'], sum(row[0] for v in data['values'] for line in v.get('lines', []) if len(line) > 9 and 'rows' in line[9] \
                  for row in [line[9]['rows'][at:at + 2] for at in range(0, len(line[9]['rows']), 12)] if row[1] == 1), data['longer'] is not None)";
    let (mut differ, mut rows) = (0, 0);
    for [one, other] in pairs("html-pairs") {
        let (status, told, _) = ended(&["diff", "--all", &one, &other]);
        let count = |beginning: &str| told.lines().filter(|line| line.starts_with(beginning)).count();
        let longer = if told.contains("goes on at byte") { "True" } else { "False" };
        let expected = format!("{} {} {longer}\n", count("different in "), count("  instruction "));
        assert_eq!(page(script, [&one, &other]), (status, expected), "{one} {other}\n{told}");
        (differ, rows) = (differ + count("different in "), rows + count("  instruction "));
    }
    assert!(differ > 30 && rows > 12, "{differ} {rows}");
}

/// Each span is the bytes of its value: CPython reads what stands there as what the line says.
#[test]
fn spans_are_the_bytes() {
    let script = "read = 0\nfor line in lines:\n\
        \x20   for at, path in ((3, data['paths'][0]), (6, data['paths'][1])):\n\
        \x20       if line[1] == 6 or line[at + 2] == 0: continue\n\
        \x20       told = line[at] or line[3]\n\
        \x20       span = open(path.split('#')[0], 'rb').read()[line[at + 1]:line[at + 2]]\n\
        \x20       if re.fullmatch(r'-?[0-9]+', told): assert marshal.loads(span) == int(told), line\n\
        \x20       elif re.fullmatch(r'\"[a-z<>A-Z0-9.]*\"', told): assert marshal.loads(span) == told[1:-1], line\n\
        \x20       elif told in ('None', 'True', 'False'): assert str(marshal.loads(span)) == told\n\
        \x20       elif told.startswith('code object <module>'): assert marshal.loads(span).co_name == '<module>'\n\
        \x20       else: continue\n\
        \x20       read += 1\nprint(read > 2)";
    let told = pairs("html-spans").into_iter().filter(|[one, other]| one != other);
    let read = told.filter(|[one, other]| page(script, [one, other]).1 == "True\n").count();
    assert!(read >= 9, "{read}");
}

/// A row that is not known for one reason differs from one that is not known for another.
#[test]
fn reasons_differ_too() {
    let folder = folder("html-reasons");
    let (one, other) =
        (file(&folder, "a", &code(3, 10, &[0xE9, 0x02])), file(&folder, "b", &code(3, 10, &[0xE9, 0x02, 0xF8])));
    let script = "print([line[9]['rows'] for line in lines if len(line) > 9 and 'rows' in line[9]])";
    let told = "[[2, 0, 1, 11, 1, 0, 1, 1, 11, 1, 0, 1, 1, 1, 5, 10, 1, 0, 1, 3, 11, 1, 0, 1]]\n";
    assert_eq!(page(script, [&one, &other]), (1, told.to_string()));
}

/// What is the same is folded: told once, below what it belongs to, and as far as there is room.
#[test]
fn the_same_is_folded() {
    let folder = folder("html-folded");
    let list = |last: u8| [b"[\x65\0\0\0".as_slice(), &b")\x01N".repeat(100), &[b'i', last, 0, 0, 0]].concat();
    let (one, other) = (file(&folder, "a", &list(1)), file(&folder, "b", &list(2)));
    let script = "print([line[:3] for line in lines[:5]], [line[:3] for line in lines[-2:]], len(lines))\nprint(lines[1][9], lines[2][3:9])";
    let told = "[[0, 1, ''], [1, 0, '[0] to [99]'], [2, 0, '[0]'], [3, 0, '[0]'], [2, 0, '[1]']] [[2, 6, 'and 76 more, the same'], [1, 2, '[100]']] 52\n\
                {'held': '100 parts'} ['tuple of 1', 5, 8, None, 5, 8]\n";
    assert_eq!(page(script, [&one, &other]), (1, told.to_string()));
}

#[test]
fn what_is_told_is_bounded() {
    let folder = folder("html-bounded");
    let list = |number: u8| [b"[\x20\x4E\0\0".as_slice(), &[b'i', number, 0, 0, 0].repeat(20_000)].concat();
    let (one, other) = (file(&folder, "a", &list(1)), file(&folder, "b", &list(2)));
    let script = "print(len(lines), lines[-1][2], data['differences'])";
    let told = "3001 the page has room for no more; sill diff --all tells every difference 2999\n";
    assert_eq!(page(script, [&one, &other]), (1, told.to_string()));
    // Forty tuples, each of the one before twice, that differ in the first: 2^40 ways to one difference.
    let shared = |leaf: u8| {
        (0..40_u8).fold([b"(\x29\0\0\0\xA9\x01".as_slice(), &[leaf]].concat(), |input, slot| {
            [&input[..], &[0xA9, 2, b'r', slot, 0, 0, 0, b'r', slot, 0, 0, 0]].concat()
        })
    };
    let (one, other) = (file(&folder, "c", &shared(b'T')), file(&folder, "d", &shared(b'F')));
    let script = "print(data['differences'], [line[1] for line in lines].count(5), len(lines) < 200)";
    assert_eq!(page(script, [&one, &other]), (1, "1 80 True\n".to_string()));
}

/// A side that is refused, files of several values, values that are the same.
#[test]
fn other_ends() {
    let folder = folder("html-ends");
    let (whole, cut) = (file(&folder, "whole", b")\x02NTN"), file(&folder, "cut", b")\x02NT)\x01?"));
    let script = "print([(v['title'], v.get('same')) for v in data['values']], [(r['side'], r['number'], r['byte'], r['way']) for r in data['refused']])";
    let told = "[('value 1', True)] [(1, 3, 6, 'value 2 [0]')]\n";
    assert_eq!(page(script, [&whole, &cut]), (1, told.to_string()));
    assert_eq!(page(script, [&whole, &whole]), (0, "[('values 1 to 2', True)] []\n".to_string()));
    let (many, other) = (
        file(&folder, "many", &b"N".repeat(9_000)),
        file(&folder, "other", &[&b"N".repeat(8_998)[..], b"TN"].concat()),
    );
    let script = "print([(v['title'], v['spans'], v.get('differences')) for v in data['values']])";
    let told = "[('values 1 to 8998', [[0, 8998], [0, 8998]], None), ('value 8999', [[8998, 8999], [8998, 8999]], 1), \
                ('value 9000', [[8999, 9000], [8999, 9000]], None)]\n";
    assert_eq!(page(script, [&many, &other]), (1, told.to_string()));
    let (status, shown, told) = ended(&["diff", "--html", &format!("{whole}#3"), &whole]);
    assert_eq!((status, shown.as_str()), (2, ""));
    assert!(told.ends_with("has no value 3\n"), "{told}");
    let complaint =
        "sill: diff: --html is of two files, and takes no --settings; sill diff --help says how to call it\n";
    assert_eq!(ended(&["diff", "--html", "goldens", "goldens"]), (2, String::new(), complaint.to_string()));
    assert_eq!(
        ended(&["diff", "--html", "--settings", &whole, &whole, &cut]),
        (2, String::new(), complaint.to_string())
    );
}
