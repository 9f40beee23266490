//! A page that stands alone: one file of markup, style, script and data. Its policy lets a browser use its own style and script and
//! nothing else. What comes from files stands in the data alone, where nothing can be taken for markup, and the whole is ASCII.
mod refusal;
mod sha256;
mod trail;
mod ways;
mod when;

pub use refusal::{refusal, refused_value};
pub use ways::{Ways, way};
pub use when::made;

use sha256::base64_of;
use std::fmt::Write;

/// What differs between the pages; markup and script are the command's own, and have nothing from a file.
pub struct Page<'a> {
    pub title: &'a str,
    pub markup: &'a str,
    pub script: &'a str,
    /// JSON, of what came from files.
    pub data: &'a str,
}

const STYLE: &str = include_str!("page/style.css");
const SHARED: &str = include_str!("page/shared.js");

impl Page<'_> {
    pub fn whole(&self) -> String {
        let Self { title, markup, script, data } = self;
        let script = format!("{SHARED}{script}");
        let policy = format!(
            "default-src 'none'; script-src 'sha256-{}'; style-src 'sha256-{}'; base-uri 'none'; form-action 'none'; \
             require-trusted-types-for 'script'; trusted-types 'none'",
            base64_of(&script),
            base64_of(STYLE)
        );
        let version = env!("CARGO_PKG_VERSION");
        format!(
            "<!doctype html>\n<html lang=\"en\">\n<head>\n<meta charset=\"utf-8\">\n\
             <meta http-equiv=\"Content-Security-Policy\" content=\"{policy}\">\n\
             <meta name=\"viewport\" content=\"width=device-width, initial-scale=1\">\n\
             <meta name=\"referrer\" content=\"no-referrer\">\n<meta name=\"generator\" content=\"sill {version}\">\n\
             <title>{title}</title>\n<style>{STYLE}</style>\n</head>\n<body>\n{markup}\
             <script type=\"application/json\" id=\"data\">{}</script>\n<script>{script}</script>\n</body>\n</html>\n",
            in_markup(data)
        )
    }
}

/// JSON that means the same and stands in a page: outside its strings are none of these letters, and inside them an escape is the
/// letter.
fn in_markup(json: &str) -> String {
    let mut shown = String::with_capacity(json.len() + json.len() / 16);
    for letter in json.chars() {
        match letter {
            '<' | '>' | '&' | '\'' | '\u{7F}'.. => {
                for unit in letter.encode_utf16(&mut [0; 2]) {
                    let _ = write!(shown, "\\u{unit:04x}");
                }
            }
            letter => shown.push(letter),
        }
    }
    shown
}

#[cfg(test)]
mod tests {
    use super::*;

    #[test]
    fn nothing_in_the_data_is_markup() {
        assert_eq!(in_markup("[\"</script>\",1]"), "[\"\\u003c/script\\u003e\",1]");
        assert_eq!(in_markup("\"&'\u{7F}\u{202E}\u{1F33F}\""), "\"\\u0026\\u0027\\u007f\\u202e\\ud83c\\udf3f\"");
    }

    #[test]
    fn style_and_script_are_ascii_and_end_where_they_end() {
        let page = Page { title: "t", markup: "", script: "", data: "\"\u{20AC}<\"" }.whole();
        assert!(page.is_ascii());
        for tag in ["<script", "</script", "<style", "</style", "<!--"] {
            let all = if tag.ends_with("script") { 2 } else { usize::from(tag.ends_with("style")) };
            assert_eq!(page.matches(tag).count(), all, "{tag}");
        }
    }
}
