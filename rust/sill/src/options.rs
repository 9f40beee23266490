//! The words of a command line, by the options that a command's page of help lists.
use crate::help::{Known, Page};
use std::ffi::{OsStr, OsString};
use std::os::unix::ffi::OsStrExt;

/// What a command was called with.
#[derive(Debug, Default)]
pub struct Arguments {
    given: Vec<(&'static str, Option<OsString>)>,
    operands: Vec<OsString>,
}

impl Arguments {
    /// Whether an option was given, by its long name.
    pub fn has(&self, long: &str) -> bool {
        self.given.iter().any(|(name, _)| *name == long)
    }

    /// The word after an option; the last one counts.
    pub fn word_of(&self, long: &str) -> Option<&OsStr> {
        self.given.iter().rfind(|(name, _)| *name == long)?.1.as_deref()
    }

    /// The words after an option that may be given more than once.
    pub fn words_of(&self, long: &'static str) -> impl Iterator<Item = &OsStr> {
        self.given.iter().filter(move |(name, _)| *name == long).filter_map(|(_, word)| word.as_deref())
    }

    /// All that is no option.
    pub fn operands(&self) -> &[OsString] {
        &self.operands
    }
}

/// Options may stand anywhere; after `--` nothing is an option. A word may follow its option, stand after `=`, or right behind
/// the letter of a short one; letters of options without a word may stand together.
pub fn parse(words: &[OsString], page: &Page) -> Result<Arguments, String> {
    let mut arguments = Arguments::default();
    let mut words = words.iter();
    while let Some(word) = words.next() {
        let bytes = word.as_bytes();
        if word == "--" {
            arguments.operands.extend(words.by_ref().cloned());
        } else if bytes.len() < 2 || bytes[0] != b'-' {
            arguments.operands.push(word.clone());
        } else if bytes[1] == b'-' {
            arguments.given.push(long(page, word, || words.next().cloned())?);
        } else {
            short(page, &bytes[1..], &mut arguments.given, || words.next().cloned())?;
        }
    }
    Ok(arguments)
}

type Given = (&'static str, Option<OsString>);

/// `--name`, `--name WORD` or `--name=WORD`.
fn long(page: &Page, word: &OsStr, next: impl FnOnce() -> Option<OsString>) -> Result<Given, String> {
    let mut halves = word.as_bytes().splitn(2, |byte| *byte == b'=').map(OsStr::from_bytes);
    let name = halves.next().map_or(String::new(), |name| name.to_string_lossy().into_owned());
    let known = page.option(&name).ok_or_else(|| unknown(page, &name))?;
    match (known.word, halves.next()) {
        (None, None) => Ok((known.long, None)),
        (None, Some(_)) => Err(format!("--{} takes no word", known.long)),
        (Some(_), joined) => with_word(known, joined.map(OsString::from).or_else(next)),
    }
}

/// `-q`, `-q0`, `-d2`, `-d 2` or `-d=2`, without the dash.
fn short(
    page: &Page,
    letters: &[u8],
    given: &mut Vec<Given>,
    next: impl FnOnce() -> Option<OsString>,
) -> Result<(), String> {
    for (at, letter) in letters.iter().enumerate() {
        let name = format!("-{}", *letter as char);
        let known = page.option(&name).ok_or_else(|| unknown(page, &name))?;
        if known.word.is_some() {
            let behind = &letters[at + 1..];
            let joined = behind.strip_prefix(b"=").unwrap_or(behind);
            let joined = (!behind.is_empty()).then(|| OsStr::from_bytes(joined).to_os_string());
            given.push(with_word(known, joined.or_else(next))?);
            return Ok(());
        }
        given.push((known.long, None));
    }
    Ok(())
}

fn with_word(known: &'static Known, word: Option<OsString>) -> Result<Given, String> {
    let wanted = known.word.unwrap_or_default();
    let word = word.ok_or_else(|| format!("--{} wants {wanted} after it", known.long))?;
    let choices = known.choices();
    if choices.is_empty() || choices.iter().any(|choice| *choice == word) {
        return Ok((known.long, Some(word)));
    }
    let word = word.to_string_lossy();
    let told = format!("--{} wants one of {}, and not '{word}'", known.long, choices.join(", "));
    Err(told + &did_you_mean(&word, choices.into_iter().map(String::from)))
}

fn unknown(page: &Page, name: &str) -> String {
    let names = page.options.iter().map(|known| format!("--{}", known.long));
    format!("unknown option '{name}'{}", did_you_mean(name, names))
}

/// `; did you mean check?`, where one of the names is near.
pub fn did_you_mean(word: &str, names: impl Iterator<Item = String>) -> String {
    let word: Vec<char> = word.chars().take(MOST_LETTERS).collect();
    let near = names.map(|name| (distance(&word, &name), name)).min();
    let most = if word.iter().filter(|letter| **letter != '-').count() < 5 { 1 } else { 2 };
    near.filter(|(far, _)| *far <= most).map_or(String::new(), |(_, name)| format!("; did you mean {name}?"))
}

const MOST_LETTERS: usize = 64;

/// How many letters must be put in, taken out, changed or swapped with the next to make one word of another.
fn distance(word: &[char], name: &str) -> usize {
    let name: Vec<char> = name.chars().collect();
    let mut rows: Vec<Vec<usize>> = vec![(0..=name.len()).collect()];
    for at in 1..=word.len() {
        let mut row = vec![at];
        for to in 1..=name.len() {
            let changed = rows[at - 1][to - 1] + usize::from(word[at - 1] != name[to - 1]);
            let swapped = at > 1 && to > 1 && word[at - 1] == name[to - 2] && word[at - 2] == name[to - 1];
            let swapped = if swapped { rows[at - 2][to - 2] + 1 } else { usize::MAX };
            row.push(changed.min(swapped).min(row[to - 1] + 1).min(rows[at - 1][to] + 1));
        }
        rows.push(row);
    }
    rows[word.len()][name.len()]
}

#[cfg(test)]
mod tests {
    use super::*;
    use crate::help::{CHECK, SHOW};

    fn parsed(words: &[&str], page: &Page) -> Result<Arguments, String> {
        parse(&words.iter().map(OsString::from).collect::<Vec<_>>(), page)
    }

    #[test]
    fn options_stand_anywhere() {
        let arguments = parsed(&["--json", "file", "--depth", "3"], &SHOW).unwrap();
        assert!(arguments.has("json"));
        assert_eq!(arguments.word_of("depth"), Some(OsStr::new("3")));
        assert_eq!(arguments.operands(), ["file"]);
    }

    #[test]
    fn a_word_in_each_of_its_places() {
        for words in [&["--depth=4"][..], &["-d4"], &["-d", "4"], &["-d=4"], &["--depth", "4"]] {
            assert_eq!(parsed(words, &SHOW).unwrap().word_of("depth"), Some(OsStr::new("4")), "{words:?}");
        }
        let arguments = parsed(&["-q0lrefused", "--list=accepted", "a"], &CHECK).unwrap();
        assert!(arguments.has("quiet") && arguments.has("null"));
        assert_eq!(arguments.words_of("list").collect::<Vec<_>>(), ["refused", "accepted"]);
    }

    #[test]
    fn nothing_is_an_option_after_two_dashes() {
        let arguments = parsed(&["-q", "--", "-q", "--", "-"], &CHECK).unwrap();
        assert!(arguments.has("quiet"));
        assert_eq!(arguments.operands(), ["-q", "--", "-"]);
    }

    #[test]
    fn what_is_wrong_is_said() {
        assert_eq!(parsed(&["--dept"], &SHOW).unwrap_err(), "unknown option '--dept'; did you mean --depth?");
        assert_eq!(parsed(&["--deep"], &SHOW).unwrap_err(), "unknown option '--deep'");
        assert_eq!(parsed(&["-x"], &SHOW).unwrap_err(), "unknown option '-x'");
        assert_eq!(parsed(&["--depth"], &SHOW).unwrap_err(), "--depth wants N after it");
        assert_eq!(parsed(&["--json=yes"], &SHOW).unwrap_err(), "--json takes no word");
        let told = "--color wants one of auto, always, never, and not 'allways'; did you mean always?";
        assert_eq!(parsed(&["--color=allways"], &CHECK).unwrap_err(), told);
    }

    #[test]
    fn near_words() {
        let far = |word: &str, name| distance(&word.chars().collect::<Vec<_>>(), name);
        assert_eq!((far("chek", "check"), far("cehck", "check"), far("", "row")), (1, 1, 3));
        assert_eq!((far("lines", "lines"), far("show", "row")), (0, 2));
    }
}
