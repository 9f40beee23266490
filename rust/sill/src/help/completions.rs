//! Completions for bash, zsh and fish: commands, their options, and the words of those that only take some.
use super::{Known, PAGES, Page};
use std::fmt::Write;

/// What a shell reads; nothing for a shell that is not known.
pub fn completions(shell: &str) -> Option<String> {
    match shell {
        "bash" => Some(bash()),
        "zsh" => Some(zsh()),
        "fish" => Some(fish()),
        _ => None,
    }
}

/// Whether the word of an option is a file.
fn is_file(word: &str) -> bool {
    matches!(word, "OUT" | "FILE")
}

fn names() -> String {
    let names: Vec<&str> = PAGES.iter().map(|page| page.name).chain(["help"]).collect();
    names.join(" ")
}

/// `-q --quiet` of every option, in one line.
fn options(page: &Page) -> String {
    page.options.iter().flat_map(Known::names).collect::<Vec<_>>().join(" ")
}

/// The words that an operand may be, where it is no file.
fn operands(page: &Page) -> String {
    match page.name {
        "completions" => "bash zsh fish".to_string(),
        _ => String::new(),
    }
}

/// Every option that only takes some words, by its names, once: the same option has the same words on every page.
fn with_choices() -> Vec<(String, String)> {
    let known = PAGES.iter().flat_map(|page| page.options).filter(|known| !known.choices().is_empty());
    let mut listed: Vec<(String, String)> =
        known.map(|known| (known.names().collect::<Vec<_>>().join("|"), known.choices().join(" "))).collect();
    listed.sort();
    listed.dedup();
    listed
}

fn bash() -> String {
    let mut shown = format!(
        "# bash completion for sill; made by: sill completions bash\n_sill() {{\n    local word=${{COMP_WORDS[COMP_CWORD]}} \
         before=${{COMP_WORDS[COMP_CWORD - 1]}} words=\n    [ \"$word\" = = ] && word=\n    \
         [ \"$before\" = = ] && before=${{COMP_WORDS[COMP_CWORD - 2]}}\n    \
         if [ \"$COMP_CWORD\" -eq 1 ] || {{ [ \"$COMP_CWORD\" -eq 2 ] && [ \"${{COMP_WORDS[1]}}\" = help ]; }}; then\n        \
         mapfile -t COMPREPLY < <(compgen -W \"{} --help --version\" -- \"$word\")\n        return\n    fi\n    case $before in\n",
        names()
    );
    for (names, words) in with_choices() {
        let _ = writeln!(shown, "        {names}) words=\"{words}\" ;;");
    }
    shown += "    esac\n    if [ -z \"$words\" ]; then\n        case ${COMP_WORDS[1]}:$word in\n";
    for page in PAGES {
        let _ = writeln!(shown, "            {}:-*) words=\"{}\" ;;", page.name, options(page));
        if !operands(page).is_empty() {
            let _ = writeln!(shown, "            {}:*) words=\"{}\" ;;", page.name, operands(page));
        }
    }
    shown
        + "        esac\n    fi\n    if [ -n \"$words\" ]; then\n        mapfile -t COMPREPLY < <(compgen -W \"$words\" -- \"$word\")\n    \
             else\n        compopt -o filenames 2> /dev/null\n        mapfile -t COMPREPLY < <(compgen -f -- \"$word\")\n    fi\n}\n\
             complete -F _sill sill\n"
}

/// A text within single quotes, with what zsh would take for its own escaped.
fn zsh_text(text: &str) -> String {
    text.replace('\'', "'\\''").replace('[', "\\[").replace(']', "\\]").replace(':', "\\:")
}

fn zsh_option(known: &Known) -> String {
    let word = match (known.word, known.choices().join(" ")) {
        (None, _) => String::new(),
        (Some(word), _) if is_file(word) => format!(":{word}:_files"),
        (Some(word), choices) if choices.is_empty() => format!(":{word}: "),
        (Some(_), choices) => format!(":word:({choices})"),
    };
    let joined = if known.word.is_some() { "=" } else { "" };
    let long = format!("'*--{}{joined}[{}]{word}'", known.long, zsh_text(known.text));
    let plus = if known.word.is_some() { "+" } else { "" };
    match known.short {
        Some(short) => format!("{long} '*-{short}{plus}[{}]{word}'", zsh_text(known.text)),
        None => long,
    }
}

fn zsh() -> String {
    let mut shown = "#compdef sill\n# zsh completion for sill; made by: sill completions zsh\n_sill() {\n    local -a commands\n    \
                     commands=(\n"
        .to_string();
    for page in PAGES {
        let _ = writeln!(shown, "        '{}:{}'", page.name, zsh_text(page.summary));
    }
    shown += "        'help:show a page of help'\n    )\n    if (( CURRENT == 2 )) || [[ $CURRENT -eq 3 && $words[2] == help ]]; then\n        \
              _describe command commands\n        return\n    fi\n    local command=$words[2]\n    shift words\n    (( CURRENT-- ))\n    \
              case $command in\n";
    for page in PAGES {
        let _ = writeln!(shown, "        {})\n            _arguments \\", page.name);
        for known in page.options {
            let _ = writeln!(shown, "                {} \\", zsh_option(known));
        }
        match operands(page) {
            words if words.is_empty() => shown += "                '*:file:_files'\n            ;;\n",
            words => {
                let _ = writeln!(shown, "                '1:word:({words})'\n            ;;");
            }
        }
    }
    shown + "    esac\n}\n_sill \"$@\"\n"
}

fn fish() -> String {
    let quoted = |text: &str| format!("'{}'", text.replace('\\', "\\\\").replace('\'', "\\'"));
    let mut shown = "# fish completion for sill; made by: sill completions fish\n".to_string();
    for (name, summary) in PAGES.iter().map(|page| (page.name, page.summary)).chain([("help", "show a page of help")]) {
        let _ = writeln!(shown, "complete -c sill -n __fish_use_subcommand -f -a {name} -d {}", quoted(summary));
    }
    let _ = writeln!(shown, "complete -c sill -n '__fish_seen_subcommand_from help' -f -a '{}'", names());
    for page in PAGES {
        let seen = format!("complete -c sill -n '__fish_seen_subcommand_from {}'", page.name);
        if !operands(page).is_empty() {
            let _ = writeln!(shown, "{seen} -f -a '{}'", operands(page));
        }
        for known in page.options {
            let short = known.short.map_or(String::new(), |short| format!(" -s {short}"));
            let word = match (known.word, known.choices().join(" ")) {
                (None, _) => String::new(),
                (Some(word), _) if is_file(word) => " -r -F".to_string(),
                (Some(_), choices) if choices.is_empty() => " -x".to_string(),
                (Some(_), choices) => format!(" -x -a '{choices}'"),
            };
            let _ = writeln!(shown, "{seen}{short} -l {}{word} -d {}", known.long, quoted(known.text));
        }
    }
    shown
}

#[cfg(test)]
mod tests {
    use super::*;

    #[test]
    fn every_command_and_option_is_in_each() {
        for shell in ["bash", "zsh", "fish"] {
            let shown = completions(shell).unwrap();
            for page in PAGES {
                assert!(shown.contains(page.name), "{shell}: {}", page.name);
                for known in page.options {
                    let name =
                        if shell == "fish" { format!(" -l {}", known.long) } else { format!("--{}", known.long) };
                    assert!(shown.contains(&name), "{shell}: {name}");
                    let words = known.choices().join(" ");
                    assert!(shown.contains(&words), "{shell}: {words}");
                }
            }
        }
        assert_eq!(completions("sh"), None);
    }
}
