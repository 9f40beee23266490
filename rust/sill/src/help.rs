//! One description of every command and option: the words of a command line are read by it, and `--help`, `sill help`, the manual
//! (docs/sill.md), the man page and the completions are made from it.
mod completions;
mod making;
mod manual;
mod pages;
mod report;
mod settings;

pub use completions::completions;
pub use making::{BYTES, COMPLETIONS, CONVERT, MANUAL, REPAIR, WRITE};
pub use manual::{man, manual};
pub use pages::{CHECK, DIFF, LINES, ROW, SHOW, TOTALS};
pub use report::REPORT;
pub use settings::SETTINGS;

/// A command's page.
pub struct Page {
    pub name: &'static str,
    /// What follows the command's name and options.
    pub operands: &'static str,
    /// How few and how many operands it takes.
    pub takes: std::ops::RangeInclusive<usize>,
    /// In half a line.
    pub summary: &'static str,
    /// Paragraphs.
    pub text: &'static str,
    pub options: &'static [Known],
}

/// An option.
pub struct Known {
    pub short: Option<char>,
    pub long: &'static str,
    /// The word that follows it, as help names it; where only some words will do, these, with `|` between them.
    pub word: Option<&'static str>,
    pub text: &'static str,
}

pub const HELP: Known = Known { short: Some('h'), long: "help", word: None, text: "show this page" };

const INTRODUCTION: &str = "\
sill reads golden files: marshalled Python values, a code object and the result expected of it, back to back (the old form) or
in tagged fields (the new form, told by its first byte), or single values. Every answer comes from the proved port: a damaged
file is refused with a number, a name and a place, and a line table that is cut is called NOT WHOLE instead of naming the
wrong row.";

const EXIT_STATUS: &str = "\
Exit status: 0 all is well; 1 a file is refused, not whole or different; 2 called wrongly, or a file that cannot be read or
written (one line on standard error each; the other files are still done).";

/// Every page, in the order in which they are listed.
pub const PAGES: &[&Page] = &[
    &CHECK,
    &REPORT,
    &SHOW,
    &LINES,
    &ROW,
    &BYTES,
    &WRITE,
    &REPAIR,
    &CONVERT,
    &DIFF,
    &TOTALS,
    &SETTINGS,
    &MANUAL,
    &COMPLETIONS,
];

/// The longest line of a usage.
const WIDTH: usize = 110;

impl Page {
    /// The page that a word names.
    pub fn named(name: &str) -> Option<&'static Page> {
        PAGES.iter().copied().find(|page| page.name == name)
    }

    /// The option that goes by this name, dashes included.
    pub fn option(&self, name: &str) -> Option<&'static Known> {
        self.options.iter().find(|known| known.names().any(|known| known == name))
    }

    /// What is wrong with so many operands.
    pub fn complaint_about(&self, operands: usize) -> Option<String> {
        let wrong = if operands < *self.takes.start() { "too few" } else { "too many" };
        (!self.takes.contains(&operands)).then(|| format!("{wrong} names: wants {}", self.operands))
    }

    /// The page as `--help` shows it.
    pub fn plain(&self) -> String {
        format!("{}\n\n{}\n\n{}\n\n{}\n{EXIT_STATUS}", self.usage(), self.sentence(), self.text, self.listed())
    }

    fn usage(&self) -> String {
        let options = self.options.iter().filter(|known| known.long != "help").map(Known::in_usage);
        let operands = (!self.operands.is_empty()).then(|| self.operands.to_string());
        let (mut shown, mut line) = (String::new(), format!("usage: sill {}", self.name));
        for word in options.chain(operands) {
            if line.len() + word.len() > WIDTH {
                shown += &line;
                line = "\n           ".to_string();
            }
            line = format!("{line} {word}");
        }
        shown + &line
    }

    /// The summary as a sentence.
    fn sentence(&self) -> String {
        let mut letters = self.summary.chars();
        let first = letters.next().map(|letter| letter.to_ascii_uppercase());
        first.into_iter().chain(letters).chain(['.']).collect()
    }

    fn listed(&self) -> String {
        self.options.iter().map(Known::listed).collect()
    }
}

impl Known {
    /// The words that may follow, where only some will do.
    pub fn choices(&self) -> Vec<&'static str> {
        self.word.filter(|word| word.contains('|')).map_or(Vec::new(), |word| word.split('|').collect())
    }

    fn names(&self) -> impl Iterator<Item = String> {
        self.short.map(|short| format!("-{short}")).into_iter().chain([format!("--{}", self.long)])
    }

    fn label(&self) -> String {
        let names: Vec<String> = self.names().collect();
        format!("{}{}", names.join(", "), self.word.map_or(String::new(), |word| format!(" {word}")))
    }

    fn listed(&self) -> String {
        match self.label() {
            label if label.len() > 20 => format!("  {label}\n{:23}{}\n", "", self.text),
            label => format!("  {label:<20} {}\n", self.text),
        }
    }

    fn in_usage(&self) -> String {
        match (self.long, self.word) {
            ("output", Some(word)) if self.text.ends_with("not given") => format!("[-o {word}]"),
            ("output", Some(word)) => format!("-o {word}"),
            (long, Some(word)) => format!("[--{long} {word}]"),
            (long, None) => format!("[--{long}]"),
        }
    }
}

/// What `sill --help` shows.
pub fn overview() -> String {
    let commands: String = PAGES.iter().map(|page| format!("  sill {:<11} {}\n", page.name, page.summary)).collect();
    format!(
        "{INTRODUCTION}\n\n{commands}\n\
         sill help COMMAND and sill COMMAND --help say more of each. sill --version shows the version.\n\n{EXIT_STATUS}"
    )
}

#[cfg(test)]
mod tests {
    use super::*;

    #[test]
    fn lines_fit_a_page() {
        for line in overview().lines().chain(manual().lines()) {
            assert!(line.chars().count() <= 128, "{line}");
        }
    }

    #[test]
    fn usage_names_the_options() {
        assert_eq!(SHOW.usage(), "usage: sill show [--depth N] [--json] [--pyc] FILE");
        assert_eq!(WRITE.usage(), "usage: sill write -o OUT FILE");
        for page in PAGES {
            let usage = page.usage();
            assert!(
                page.options.iter().all(|known| known.long == "help" || usage.contains(&known.in_usage())),
                "{usage}"
            );
        }
    }

    #[test]
    fn operands_are_counted() {
        assert_eq!(CHECK.complaint_about(0).as_deref(), Some("too few names: wants PATH.."));
        assert_eq!(CHECK.complaint_about(10_000), None);
        assert_eq!(DIFF.complaint_about(3).as_deref(), Some("too many names: wants A B"));
    }

    #[test]
    fn no_option_stands_twice_on_a_page() {
        for page in PAGES {
            let mut names: Vec<String> = page.options.iter().flat_map(Known::names).collect();
            names.sort();
            let all = names.len();
            names.dedup();
            assert_eq!(names.len(), all, "{}", page.name);
        }
    }
}
