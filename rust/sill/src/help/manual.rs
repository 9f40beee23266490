//! The pages as Markdown, which is docs/sill.md, and as a man page.
use super::{EXIT_STATUS, INTRODUCTION, Known, PAGES, Page};
use std::fmt::Write;

/// docs/sill.md.
pub fn manual() -> String {
    let mut manual = format!(
        "# sill\n\n{INTRODUCTION}\n\nThis page is what `sill manual` prints, from the same text as `--help`.\n\n{EXIT_STATUS}\n"
    );
    for page in PAGES {
        let _ = write!(manual, "\n{}", markdown(page));
    }
    manual
}

fn markdown(page: &Page) -> String {
    let mut shown = format!("## sill {}\n\n```\n{}\n```\n\n{}\n", page.name, page.usage(), page.sentence());
    for paragraph in page.text.split("\n\n") {
        let fence = if is_table(paragraph) { "```\n" } else { "" };
        let closing = if is_table(paragraph) { "\n```" } else { "" };
        let _ = writeln!(shown, "\n{fence}{paragraph}{closing}");
    }
    let _ = write!(shown, "\n```\n{}```\n", page.listed());
    shown
}

/// Whether a paragraph stands in columns.
fn is_table(paragraph: &str) -> bool {
    paragraph.starts_with(' ')
}

/// A page for `man`.
pub fn man() -> String {
    let version = env!("CARGO_PKG_VERSION");
    let mut shown = format!(
        ".TH SILL 1 \"\" \"sill {version}\" \"User Commands\"\n.SH NAME\nsill \\- read, check, compare and repair golden files\n\
         .SH SYNOPSIS\n.B sill\n.I COMMAND\n.RI [ OPTIONS ] \" NAMES\"\n.SH DESCRIPTION\n{}",
        roff(INTRODUCTION)
    );
    for page in PAGES {
        let _ = write!(
            shown,
            ".SH {}\n.nf\n{}.fi\n.PP\n{}",
            page.name.to_uppercase(),
            roff(&page.usage()),
            roff(&page.sentence())
        );
        for paragraph in page.text.split("\n\n") {
            let (before, after) = if is_table(paragraph) { (".PP\n.nf\n", ".fi\n") } else { (".PP\n", "") };
            let _ = write!(shown, "{before}{}{after}", roff(paragraph));
        }
        page.options.iter().for_each(|known| shown += &option(known));
    }
    shown + ".SH EXIT STATUS\n" + &roff(EXIT_STATUS.trim_start_matches("Exit status: "))
}

fn option(known: &Known) -> String {
    format!(".TP\n.B {}{}", roff(&known.label()), roff(known.text))
}

/// Text whose lines begin no request, with every dash and backslash as it is.
fn roff(text: &str) -> String {
    let escaped = text.replace('\\', "\\e").replace('-', "\\-");
    escaped.lines().fold(String::new(), |shown, line| {
        let guard = if line.starts_with(['.', '\'']) { "\\&" } else { "" };
        shown + guard + line + "\n"
    })
}

#[cfg(test)]
mod tests {
    use super::*;

    #[test]
    fn the_man_page_has_every_page_and_option() {
        let man = man();
        for page in PAGES {
            assert!(man.contains(&format!(".SH {}\n", page.name.to_uppercase())), "{}", page.name);
            assert!(page.options.iter().all(|known| man.contains(&option(known))), "{}", page.name);
            assert!(page.text.split("\n\n").all(|paragraph| man.contains(&roff(paragraph))), "{}", page.name);
        }
    }

    #[test]
    fn no_line_is_taken_for_a_request() {
        assert_eq!(roff(".a-b\n'c\\"), "\\&.a\\-b\n\\&'c\\e\n");
    }
}
