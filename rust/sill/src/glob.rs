//! Which files of a folder are taken: by the end of their names, or by a pattern.
use crate::options::Arguments;
use std::os::unix::ffi::OsStrExt;
use std::path::Path;

/// What `--ext` and `--glob` let through; with neither, every file. A file must pass one of each that is given.
#[derive(Debug, Default)]
pub struct Filter {
    endings: Vec<Vec<u8>>,
    patterns: Vec<Vec<u8>>,
}

impl Filter {
    pub fn of(arguments: &Arguments) -> Self {
        let ending = |word: &std::ffi::OsStr| {
            let word = word.as_bytes();
            [b".", word.strip_prefix(b".").unwrap_or(word)].concat()
        };
        let endings = arguments.words_of("ext").map(ending).collect();
        Self { endings, patterns: arguments.words_of("glob").map(|word| word.as_bytes().to_vec()).collect() }
    }

    pub fn is_empty(&self) -> bool {
        self.endings.is_empty() && self.patterns.is_empty()
    }

    /// Of a path below the folder. A pattern without a slash is held to the last part alone.
    pub fn lets_through(&self, path: &Path) -> bool {
        let whole = path.as_os_str().as_bytes();
        let name = path.file_name().map_or(whole, OsStrExt::as_bytes);
        let ends = |ending: &Vec<u8>| name.ends_with(ending);
        let matches = |pattern: &Vec<u8>| matches(pattern, if pattern.contains(&b'/') { whole } else { name });
        (self.endings.is_empty() || self.endings.iter().any(ends))
            && (self.patterns.is_empty() || self.patterns.iter().any(matches))
    }
}

/// `?` is any byte and `*` any row of bytes, but for slashes; `**` is any row at all, and `**/` may be nothing; `[a-z]` is one of
/// these, and `[!a-z]` none of them. A star that fails takes one byte more; of two, only the last need be tried again.
fn matches(pattern: &[u8], text: &[u8]) -> bool {
    let (mut p, mut t) = (0, 0);
    let mut again: [Option<(usize, usize)>; 2] = [None, None]; // behind `*` and behind `**`: where in pattern and text
    loop {
        if pattern[p..].starts_with(b"**") {
            p += if pattern[p..].starts_with(b"**/") { 3 } else { 2 };
            again = [None, Some((p, t))];
        } else if pattern.get(p) == Some(&b'*') {
            p += 1;
            again[0] = Some((p, t));
        } else if p == pattern.len() && t == text.len() {
            return true;
        } else if let Some(length) = text.get(t).and_then(|byte| one(&pattern[p..], *byte)) {
            (p, t) = (p + length, t + 1);
        } else if let Some((behind, from)) =
            again[0].filter(|(_, from)| text.get(*from).is_some_and(|byte| *byte != b'/'))
        {
            again[0] = Some((behind, from + 1));
            (p, t) = (behind, from + 1);
        } else if let Some((behind, from)) = again[1].filter(|(_, from)| *from < text.len()) {
            again = [None, Some((behind, from + 1))];
            (p, t) = (behind, from + 1);
        } else {
            return false;
        }
    }
}

/// How much of the pattern one byte takes, if it does.
fn one(pattern: &[u8], byte: u8) -> Option<usize> {
    match pattern.first()? {
        b'?' => (byte != b'/').then_some(1),
        b'[' => match pattern.iter().skip(2).position(|end| *end == b']') {
            Some(end) => (among(&pattern[1..end + 2], byte) && byte != b'/').then_some(end + 3),
            None => (byte == b'[').then_some(1),
        },
        own => (*own == byte).then_some(1),
    }
}

/// Whether a byte is one of a class: `a-z_`, or with `!` or `^` before it none of them.
fn among(class: &[u8], byte: u8) -> bool {
    let (negated, mut left) = match class {
        [b'!' | b'^', rest @ ..] if !rest.is_empty() => (true, rest),
        all => (false, all),
    };
    let mut found = false;
    while let [first, rest @ ..] = left {
        let (last, behind) = match rest {
            [b'-', last, behind @ ..] => (last, behind),
            _ => (first, rest),
        };
        found |= (*first..=*last).contains(&byte);
        left = behind;
    }
    found != negated
}

#[cfg(test)]
mod tests {
    use super::*;

    #[test]
    fn patterns() {
        for (pattern, text) in [
            ("*.golden", "rates.golden"),
            ("r?tes*", "rates.golden"),
            ("[a-r]*.gol*n", "rates.golden"),
            ("[!x]ates", "rates"),
            ("**/x.golden", "a/b/x.golden"),
            ("**/x.golden", "x.golden"),
            ("a/*/x", "a/b/x"),
            ("a/**", "a/b/c"),
            ("a*b*c", "a-b-b-c"),
            ("[", "["),
            ("[]]", "]"),
            ("**a*b", "x/a/xa-b"),
        ] {
            assert!(matches(pattern.as_bytes(), text.as_bytes()), "{pattern} {text}");
        }
        for (pattern, text) in [
            ("*.golden", "a/b.golden"),
            ("a/*/x", "a/b/c/x"),
            ("r?", "r"),
            ("[!r]ates", "rates"),
            ("", "a"),
            ("a*", "ba"),
        ] {
            assert!(!matches(pattern.as_bytes(), text.as_bytes()), "{pattern} {text}");
        }
    }

    #[test]
    fn endings_and_patterns_are_both_asked() {
        let filter = |endings: &[&str], patterns: &[&str]| {
            let bytes = |words: &[&str]| words.iter().map(|word| word.as_bytes().to_vec()).collect();
            Filter { endings: bytes(endings), patterns: bytes(patterns) }
        };
        assert!(filter(&[], &[]).lets_through(Path::new("x")));
        assert!(filter(&[".a", ".b"], &[]).lets_through(Path::new("x.b")));
        assert!(!filter(&[".a"], &["y*"]).lets_through(Path::new("x.a")));
        assert!(filter(&[".a"], &["**/x*"]).lets_through(Path::new("deep/x.a")));
    }
}
