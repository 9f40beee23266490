//! Every sentence that `sill check` can print, each with a file that makes it true.
use super::*;

/// What `check` says of a file with these bytes, behind its verdict and path.
fn told(name: &str, words: &[&str], golden: &[u8]) -> String {
    let path = file(&folder(&format!("sentence-{name}")), "x", golden);
    let (_, shown, complaints) = ended(&[&["check"], words, &[&path]].concat());
    assert_eq!(complaints, "");
    shown.replace(&format!("{path}: "), "")
}

/// A value with these bytes is refused with this sentence, and nothing else is said.
fn refused_as(sentence: &str, golden: &[u8]) {
    let name: String = sentence.chars().take_while(|letter| *letter != ':').collect();
    let shown = format!("refused    {sentence}\n1 file: 0 accepted, 0 not whole, 1 refused\n");
    assert_eq!(told(&name.replace(' ', "-"), &[], golden), shown);
}

#[test]
fn refusals_of_values() {
    refused_as("1 EofObject at byte 2: a value is expected here, and the input ends", b")\x01");
    refused_as("2 DataTooShort at byte 1: the field that starts here is cut: the input ends inside it", b"i\0");
    refused_as("3 UnknownType at byte 0: a type letter is expected here, and this byte is none", b"?");
    let null = "a value is expected here, and a null stands here (it may only end a dict)";
    refused_as(&format!("4 NullObject at byte 0: {null}"), b"0");
    let none = "a reference to a value that is already complete is expected here, and this one names none";
    refused_as(&format!("5 InvalidRef at byte 1: {none}"), b"r\0\0\0\0");
    refused_as("6 BadSize at byte 1: a length is expected here, and this one is negative", b"(\xFF\xFF\xFF\xFF");
    let text = "the text that starts here is not UTF-8 (surrogates would be allowed)";
    refused_as(&format!("9 InvalidUtf8 at byte 2: {text}"), b"z\x01\xFF");
    let decimal = "a float written as decimal digits (letter f or x) stands here; these are not read";
    refused_as(&format!("15 NotCarried at byte 0: {decimal}"), b"f\x03\x30\x2E\x31");
    let left = "a type letter is expected here, and this byte is none; the last whole value ends at byte 2, with 1 byte after it";
    refused_as(&format!("3 UnknownType at byte 2: {left}"), b"NT\n");
}

/// One number for digits and code objects: the case at hand is told, and both where the bytes may be either.
#[test]
fn refusals_of_digits_and_code_objects() {
    let code = code(1, 1, &[0xF8]);
    let odd = |start: &[u8]| [start, &code[start.len()..22], b"\x01\0\0\0\t", &code[28..]].concat();
    let digit = "a digit of a whole number is below 32,768, and the one here is not";
    refused_as(&format!("8 InvalidBytecode at byte 5: {digit}"), b"l\x01\0\0\0\0\x80");
    let zero = "the last digit of a whole number is not 0, and the one here is";
    refused_as(&format!("8 InvalidBytecode at byte 5: {zero}"), b"l\x01\0\0\0\0\0");
    let even = "a code object has as many kinds as local names and an even number of code bytes";
    refused_as(&format!("8 InvalidBytecode at byte 0: {even}, and the one that starts here has not"), &odd(b"c"));
    let either = "a sound digit or code object is expected here: a digit is below 32,768 and the last one not 0";
    refused_as(&format!("8 InvalidBytecode at byte 0: {either}; {even}"), &odd(b"c\x80"));
    let part = "this part of a code object is not of the type that belongs here (bytes, tuple, names, string)";
    refused_as(&format!("7 BadType at byte 21: {part}"), &[&code[..21], b"N", &code[22..]].concat());
    let sum = "the argument counts of the code object that starts here add up to 2^32 or more";
    let counts = b"\xFF\xFF\xFF\xFF\0\0\0\0\x01\0\0\0";
    refused_as(&format!("18 NumberRange at byte 0: {sum}"), &[b"c", &counts[..], &code[13..]].concat());
}

/// One more than a reading takes, of each thing.
#[test]
fn refusals_at_the_limits() {
    let list = |letter: u8, count: u32| [&[letter][..], &count.to_le_bytes()].concat();
    let fit = "is one too many: 1,048,576 fit in one reading";
    let deep = "the value here is nested more than 2,000 levels deep";
    refused_as(&format!("10 TooDeep at byte 4000: {deep}"), &b")\x01".repeat(2001));
    let nodes = [&list(b'[', 1 << 20)[..], &[b'N'; 1 << 20]].concat();
    refused_as(&format!("11 NoNode at byte 1048580: the value that starts here {fit}"), &nodes);
    let entries = [&list(b'[', (1 << 20) + 2)[..], &[b'N' | 0x80], &b"r\0\0\0\0".repeat(1 << 20), b"N"].concat();
    refused_as(&format!("12 NoEntry at byte 5242881: the child that starts here {fit}"), &entries);
    let slots = [&list(b'[' | 0x80, 1 << 20)[..], &[b'N' | 0x80; 1 << 20]].concat();
    refused_as(&format!("13 NoSlot at byte 1048580: the shared value that starts here {fit}"), &slots);
    let long = "the value that starts here is longer than 16,777,216 bytes";
    refused_as(&format!("14 InputTooLong at byte 0: {long}"), &counted(b's', &[0; 1 << 24]));
}

/// A line table's entry that is refused, and how far it is read before.
#[test]
fn refusals_of_line_tables() {
    let refused = |name: &str, golden: &[u8], meaning: &str, before: &str| {
        let shown = told(&format!("line-{name}"), &[], golden);
        assert!(shown.starts_with("refused    line table of code object total: 18 NumberRange at byte "), "{shown}");
        assert!(shown.contains(&format!(": {meaning}; before it {before}\n")), "{shown}");
    };
    let large = [0xE8, 0x40, 0x40, 0x40, 0x40, 0x40, 0x3F];
    let behind = |first: &[u8]| [first, &large].concat();
    let number = "a number of the line table's entry that starts here is 2^32 or more";
    let two = "2 of 4 instructions are placed; the last row placed is 11";
    refused("large", &code(4, 10, &behind(&[0xE9, 0x02])), number, two);
    refused("first", &code(1, 10, &large), number, "no instruction is placed");
    refused("no-row", &code(2, 10, &behind(&[0xF8])), number, "1 of 2 instructions are placed; no row is placed");
    let fourth = [0xF0, 0x00, 0x00, 0x01, 0x40, 0x40, 0x40, 0x40, 0x40, 0x04];
    refused("fourth", &code(1, 10, &fourth), number, "no instruction is placed");
    let long = "a number of the line table's entry that starts here has more than six bytes";
    let seven = [0xE8, 0x40, 0x40, 0x40, 0x40, 0x40, 0x40, 0x00];
    refused("long", &code(1, 10, &seven), long, "no instruction is placed");
    let line = "the line table's entry that starts here leads to a line that 32 bits do not hold";
    refused("line", &code(1, i32::MAX, &[0xE8, 0x02]), line, "no instruction is placed");
    refused("one-line", &code(1, i32::MAX, &[0xD8, 0x00, 0x00]), line, "no instruction is placed");
}

#[test]
fn refusals_of_exception_tables() {
    let cut = "a number of an entry is expected here, and the exception table ends before it is whole";
    let cases: [(&str, &[u8], &str); 4] = [
        (
            "marker",
            &[0x04],
            "19 NoMarker at byte {at}: an entry of an exception table is expected here, and this byte has no start marker",
        ),
        ("missing", &[0x84], &format!("2 DataTooShort at byte {{at}}: {cut}")),
        ("cut", &[0x84, 0x03, 0x4A], &format!("2 DataTooShort at byte {{at}}: {cut}")),
        (
            "large",
            &[0x84, 0x44, 0x40, 0x40, 0x40, 0x40, 0x00, 0x00, 0x00],
            "18 NumberRange at byte {at}: the number of the exception table that starts here is 2^32 or more",
        ),
    ];
    for ((name, table, sentence), place) in cases.into_iter().zip([0, 1, 2, 1]) {
        let golden = guarded(table);
        let at = (golden.len() - table.len() + place).to_string();
        let shown = told(&format!("exception-{name}"), &[], &golden);
        let sentence = sentence.replace("{at}", &at);
        assert!(
            shown.starts_with(&format!("refused    exception table of code object total: {sentence}\n")),
            "{shown}"
        );
    }
}

/// What is wrong with the end of a table that is not whole.
#[test]
fn tables_that_are_not_whole() {
    let cases: [(&str, usize, &[u8], &str); 7] = [
        (
            "early",
            3,
            &[0xE9, 0x02],
            "2 of 3 instructions; instruction 2 is the first whose line (10) is not from the table",
        ),
        ("cut", 2, &[0xE9], "2 of 2 instructions, but its last entry is cut"),
        ("far", 1, &[0xE9, 0x02], "1 of 1 instruction, but its last entry is for more than there are"),
        (
            "far-and-more",
            1,
            &[0xE9, 0x02, 0xF8],
            "1 of 1 instruction, but its last entry is for more than there are, with 1 byte after it",
        ),
        ("left", 2, &[0xE9, 0x02, 0xF8], "2 of 2 instructions, but 1 byte of it is left over"),
        ("left-two", 2, &[0xE9, 0x02, 0x00, 0x00], "2 of 2 instructions, but 2 bytes of it are left over"),
        ("none", 0, &[0xF8], "0 of 0 instructions, but 1 byte of it is left over"),
    ];
    for (name, instructions, table, sentence) in cases {
        let shown = told(&format!("table-{name}"), &[], &code(instructions, 10, table));
        assert!(
            shown.starts_with(&format!("NOT WHOLE  code object total: the line table places {sentence}\n")),
            "{shown}"
        );
        assert!(shown.ends_with("1 file: 0 accepted, 1 not whole, 0 refused\n"), "{shown}");
    }
}

/// Why rows are not sure, and the last that is.
#[test]
fn rows_that_are_not_sure() {
    let reasons = |name: &str, instructions, table: &[u8]| {
        let shown = told(&format!("rows-{name}"), &[], &code(instructions, 10, table));
        shown.lines().nth(1).unwrap().trim().to_string()
    };
    let told = |sentence: &str| format!("code object total: {sentence}");
    assert_eq!(
        reasons("each", 5, &[0xE8, 0x02, 0xE8, 0x1D, 0xF8, 0xE8]),
        told(
            "4 of 5 instructions without a sure row (1 left over, 1 no place, 1 of a cut entry, 1 below line 1); the last row placed is 11"
        )
    );
    assert_eq!(
        reasons("none", 1, &[0xF8]),
        told("1 of 1 instruction without a sure row (1 no place); no row is placed")
    );
}

/// One code object with a damaged table, and a newline behind it: both are told, and no code object is made up.
#[test]
fn a_second_refusal_is_not_hidden() {
    let golden = [&guarded(&[0x04])[..], b"\n"].concat();
    let shown = told("second", &[], &golden);
    let (end, line) = (golden.len() - 1, shown.lines().next().unwrap());
    assert!(line.starts_with(&format!("refused    3 UnknownType at byte {end}: ")), "{line}");
    assert!(
        line.contains(&format!("; the last whole value ends at byte {end}, with 1 byte after it; exception table of ")),
        "{line}"
    );
    assert!(!line.contains("more)"), "{line}");
}

/// Code objects are counted where there are more, each sort of damage by itself.
#[test]
fn more_code_objects() {
    let cut = |name| named_code(name, 2, 10, &[0xE8, 0x02]);
    let shown = told("more", &[], &[b")\x03", &cut("one")[..], &cut("two"), &cut("three")].concat());
    assert!(shown.starts_with("NOT WHOLE  code object one: the line table places 1 of 2 instructions; "), "{shown}");
    assert!(shown.lines().next().unwrap().ends_with(" is not from the table (and 2 code objects more)"), "{shown}");
    let both = [b")\x02", &cut("one")[..], &guarded(&[0x04])].concat();
    let shown = told("both", &[], &both);
    let line = shown.lines().next().unwrap();
    assert!(line.starts_with("refused    exception table of code object total: 19 NoMarker "), "{line}");
    assert!(line.contains("; NOT WHOLE: code object one: the line table places 1 of 2 "), "{line}");
}

/// With --all each has its line.
#[test]
fn every_damaged_code_object() {
    let cut = |name| named_code(name, 2, 10, &[0xE8, 0x02]);
    let golden = [b")\x03", &cut("one")[..], &guarded(&[0x04]), &cut("two"), b"?"].concat();
    let shown = told("all", &["--all", "--strict"], &golden);
    let lines: Vec<&str> = shown.lines().collect();
    assert_eq!(lines[0], "refused    1 value, 3 code objects, 12 instructions, 8 of them without a sure row");
    let starts = [
        "NOT WHOLE: code object one: ",
        "NO PLACE: code object one: its last 1 of 2 instructions have no line; the last row placed is 11",
        "code object one: 1 of 2 instructions without a sure row",
        "NO PLACE: code object total: its last 6 of 8 instructions have no line; the last row placed is 11",
        "code object total: 6 of 8 instructions without a sure row",
        "refused: exception table of code object total: 19 NoMarker",
        "NOT WHOLE: code object two: ",
        "NO PLACE: code object two: ",
        "code object two: ",
        "refused: 3 UnknownType at byte ",
    ];
    assert_eq!(lines.len(), starts.len() + 2, "{shown}");
    for (line, start) in lines[1..].iter().zip(starts) {
        assert!(line.starts_with(&format!("           {start}")), "{line}");
    }
}

/// The totals: what is counted only where there is some, and one of a thing.
#[test]
fn totals() {
    let shown = told("no-place", &["--strict"], &code(3, 10, &[0xF9, 0xF8]));
    let line = "NO PLACE   code object total: its last 3 of 3 instructions have no line; no row is placed\n";
    assert!(shown.starts_with(line), "{shown}");
    assert!(shown.ends_with("1 file: 0 accepted, 0 not whole, 0 refused, 1 without a place at the end\n"), "{shown}");
    let (status, shown, _) = ended(&["check", "nowhere", "nowhere-else"]);
    assert_eq!((status, shown.as_str()), (2, "0 files: 0 accepted, 0 not whole, 0 refused; 2 troubles\n"));
}
