//! The settings that the command knows: their names, their tags, and what their contents stand for.
use sillgarland::{EDITION, MOST_CONTENTS};

/// A setting by its name, or any field by its tag.
#[derive(Clone, Copy, Debug, PartialEq, Eq)]
pub enum Name {
    Edition,
    Nesting,
    Prefix,
    Mode,
    Tag(u8),
}

/// Those that have a name, in the order of their tags.
pub const KNOWN: [Name; 4] = [Name::Edition, Name::Nesting, Name::Prefix, Name::Mode];

impl Name {
    /// The setting of a word: its name, or a tag from 0 to 255.
    pub fn of_word(word: &str) -> Option<Self> {
        let known = KNOWN.into_iter().find(|name| name.to_string() == word);
        known.or_else(|| word.parse().ok().map(Self::of_tag))
    }

    pub fn of_tag(tag: u8) -> Self {
        KNOWN.into_iter().find(|name| name.tag() == tag).unwrap_or(Name::Tag(tag))
    }

    pub fn tag(self) -> u8 {
        match self {
            Name::Edition => EDITION,
            Name::Nesting => 2,
            Name::Prefix => 3,
            Name::Mode => 4,
            Name::Tag(tag) => tag,
        }
    }

    /// The contents that a word of the command line stands for.
    pub fn contents_of(self, word: &str) -> Result<Vec<u8>, String> {
        let contents = match self {
            Name::Edition => edition_of(word),
            Name::Prefix => word.as_bytes().to_vec(),
            Name::Nesting => match word.parse::<u32>() {
                Ok(nesting) => nesting.to_le_bytes().to_vec(),
                Err(_) => return Err(format!("nesting: '{word}' is no number from 0 to 4,294,967,295")),
            },
            Name::Mode => match word {
                "values" => vec![0],
                "bytes" => vec![1],
                _ => return Err(format!("mode: '{word}' is neither values nor bytes")),
            },
            Name::Tag(_) => of_hex(word).ok_or_else(|| format!("{self}: '{word}' is not bytes in hexadecimal"))?,
        };
        if contents.len() > MOST_CONTENTS {
            return Err(format!("{self}: longer than {MOST_CONTENTS} bytes"));
        }
        Ok(contents)
    }

    /// Contents in words, or what is wrong with them.
    pub fn shown(self, contents: &[u8]) -> Result<String, String> {
        match self {
            Name::Edition => Ok(text_or_hex(contents)),
            Name::Nesting => nesting(contents).map(|nesting| nesting.to_string()),
            Name::Prefix => prefix(contents).map(|prefix| format!("{prefix:?}")),
            Name::Mode => by_bytes(contents).map(|bytes| if bytes { "bytes" } else { "values" }.to_string()),
            Name::Tag(_) => Ok(hex(contents)),
        }
    }
}

impl std::fmt::Display for Name {
    fn fmt(&self, f: &mut std::fmt::Formatter) -> std::fmt::Result {
        match self {
            Name::Edition => f.write_str("edition"),
            Name::Nesting => f.write_str("nesting"),
            Name::Prefix => f.write_str("prefix"),
            Name::Mode => f.write_str("mode"),
            Name::Tag(tag) => write!(f, "tag {tag}"),
        }
    }
}

fn wrong_length(name: Name, contents: &[u8], wanted: &str) -> String {
    format!("the {name} (tag {}) has {}, and {wanted}", name.tag(), crate::text::count(contents.len(), "byte"))
}

/// Four bytes, little-endian.
pub fn nesting(contents: &[u8]) -> Result<u32, String> {
    let four = contents.try_into().map_err(|_| wrong_length(Name::Nesting, contents, "4 are wanted"))?;
    Ok(u32::from_le_bytes(four))
}

/// UTF-8.
pub fn prefix(contents: &[u8]) -> Result<&str, String> {
    std::str::from_utf8(contents)
        .map_err(|error| format!("the prefix (tag 3) is not UTF-8 from its byte {} on", error.valid_up_to()))
}

/// One byte: 0 values, 1 written bytes.
pub fn by_bytes(contents: &[u8]) -> Result<bool, String> {
    match contents {
        [0] => Ok(false),
        [1] => Ok(true),
        [other] => Err(format!("the mode (tag 4) is {other}, and 0 (values) or 1 (bytes) is wanted")),
        _ => Err(wrong_length(Name::Mode, contents, "1 is wanted")),
    }
}

fn hex(bytes: &[u8]) -> String {
    bytes.iter().map(|byte| format!("{byte:02x}")).collect()
}

fn of_hex(word: &str) -> Option<Vec<u8>> {
    let digit = |letter: u8| char::from(letter).to_digit(16).map(|digit| digit as u8);
    let pairs = word.as_bytes().chunks(2).map(|pair| match pair {
        [high, low] => Some(16 * digit(*high)? + digit(*low)?),
        _ => None,
    });
    pairs.collect()
}

/// An edition as it was given; one that is no plain text, or would be taken for hexadecimal digits, in these.
pub fn text_or_hex(contents: &[u8]) -> String {
    let is_plain = |text: &&str| {
        !text.is_empty()
            && !text.starts_with("0x")
            && !text.chars().any(|letter| letter.is_control() || letter.is_whitespace())
    };
    let text = std::str::from_utf8(contents).ok().filter(is_plain);
    text.map_or_else(|| format!("0x{}", hex(contents)), str::to_string)
}

/// The edition that a word stands for, as [`text_or_hex`] shows it.
pub fn edition_of(word: &str) -> Vec<u8> {
    word.strip_prefix("0x").and_then(of_hex).unwrap_or_else(|| word.as_bytes().to_vec())
}

#[cfg(test)]
mod tests {
    use super::*;

    #[test]
    fn contents_of_words_and_back() {
        for (name, word, contents) in [
            (Name::Nesting, "2000", &[0xD0, 7, 0, 0][..]),
            (Name::Prefix, "app.", b"app."),
            (Name::Mode, "bytes", &[1]),
            (Name::Mode, "values", &[0]),
            (Name::Tag(200), "00ff", &[0, 0xFF]),
        ] {
            assert_eq!(name.contents_of(word), Ok(contents.to_vec()));
            assert_eq!(name.shown(contents).unwrap().trim_matches('"'), word);
        }
        assert!(Name::Nesting.contents_of("-1").is_err());
        assert!(Name::Mode.contents_of("2").is_err());
        assert!(Name::Tag(9).contents_of("0g").is_err());
        assert!(Name::Tag(9).contents_of("000").is_err());
    }

    #[test]
    fn wrong_lengths() {
        assert_eq!(nesting(&[1, 2, 3]).unwrap_err(), "the nesting (tag 2) has 3 bytes, and 4 are wanted");
        assert_eq!(by_bytes(&[]).unwrap_err(), "the mode (tag 4) has 0 bytes, and 1 is wanted");
        assert_eq!(by_bytes(&[2]).unwrap_err(), "the mode (tag 4) is 2, and 0 (values) or 1 (bytes) is wanted");
        assert_eq!(prefix(&[b'a', 0xFF]).unwrap_err(), "the prefix (tag 3) is not UTF-8 from its byte 1 on");
    }

    #[test]
    fn editions_that_are_no_text() {
        for edition in [&b"2026-1"[..], b"", b"a b", b"0x12", &[0xFF]] {
            assert_eq!(edition_of(&text_or_hex(edition)), edition);
        }
    }
}
