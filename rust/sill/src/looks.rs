//! What a file that is refused looks like: people hand over the wrong file more often than a damaged one.

/// What is said of a file that does not look like a golden; nothing where it may be one.
pub fn hint(input: &[u8]) -> Option<&'static str> {
    if is_pyc(input) {
        return Some("this looks like a .pyc: its first 16 bytes are no value; --pyc skips them");
    }
    match input {
        [b'P', b'K', 3 | 5 | 7, 4 | 6 | 8, ..] => Some("this looks like a zip archive: goldens may be in it"),
        [0x1F, 0x8B, 8, ..] => Some("this looks like a gzip file: gunzip it first"),
        [0x7F, b'E', b'L', b'F', ..] => Some("this looks like an ELF file, a program or library, and no golden"),
        _ if is_text(input) => Some("this looks like text, and no golden"),
        _ => None,
    }
}

/// The hint as it follows a refusal.
pub fn hinted(hint: Option<&str>) -> String {
    hint.map_or(String::new(), |hint| format!("; hint: {hint}"))
}

/// How many bytes stand before the first value: 16 of a .pyc where they are to be skipped.
pub fn skipped(input: &[u8], pyc: bool) -> usize {
    if pyc && is_pyc(input) { HEADER } else { 0 }
}

/// The header of a .pyc: a number of the version that ends in a line break, flags, and time and size or a hash of the source.
const HEADER: usize = 16;

fn is_pyc(input: &[u8]) -> bool {
    input.len() > HEADER && input[2..4] == *b"\r\n" && (3000..5000).contains(&u16::from_le_bytes([input[0], input[1]]))
}

/// How much of a file is looked at, and how little is too little to tell.
const MOST_LOOKED_AT: usize = 4096;
const FEWEST: usize = 8;

fn is_text(input: &[u8]) -> bool {
    let head = &input[..input.len().min(MOST_LOOKED_AT)];
    let sound = match std::str::from_utf8(head) {
        Ok(text) => text,
        Err(error) if error.error_len().is_none() => {
            std::str::from_utf8(&head[..error.valid_up_to()]).unwrap_or_default()
        }
        Err(_) => return false,
    };
    sound.len() >= FEWEST && !sound.chars().any(|letter| letter.is_control() && !matches!(letter, '\n' | '\r' | '\t'))
}

#[cfg(test)]
mod tests {
    use super::*;

    #[test]
    fn goldens_get_no_hint() {
        for golden in [&b"N\n"[..], b")\x01N", b"", b"?", b"\xE3\0\0\0\0\0\0\0\0\0", b"(\x01\0\0\0text that"] {
            assert_eq!(hint(golden), None, "{golden:?}");
        }
    }

    #[test]
    fn only_a_header_is_skipped() {
        let pyc = [&[0xA7, 0x0D, 0x0D, 0x0A][..], &[0; 12], b"N"].concat();
        assert_eq!(
            (skipped(&pyc, true), skipped(&pyc, false), skipped(b"N", true), skipped(&pyc[..16], true)),
            (16, 0, 0, 0)
        );
    }
}
