//! How the command is called, and its help.
use super::*;

const COMMANDS: [&str; 10] =
    ["check", "show", "lines", "row", "write", "repair", "diff", "totals", "manual", "completions"];

#[test]
fn docs_are_what_the_command_prints() {
    let page = fs::read_to_string(root().join("docs/sill.md")).unwrap();
    assert_eq!(ended(&["manual"]), (0, page, String::new()));
}

#[test]
fn every_command_has_help() {
    for command in COMMANDS {
        let (status, shown, complaints) = ended(&[command, "--help"]);
        assert_eq!((status, complaints.as_str()), (0, ""));
        assert!(shown.starts_with(&format!("usage: sill {command} ")), "{shown}");
        assert_eq!(ended(&["help", command]), (0, shown, String::new()));
    }
    assert_eq!(ended(&["help"]), ended(&["--help"]));
    assert_eq!(ended(&["help", "--help"]), ended(&["--help"]));
    let (status, shown, _) = ended(&["--help"]);
    assert_eq!(status, 0);
    assert!(shown.contains("\n  sill check "), "{shown}");
    assert_eq!(ended(&["--version"]).1, format!("sill {}\n", env!("CARGO_PKG_VERSION")));
}

#[test]
fn called_wrongly() {
    let complaint = |words: &[&str]| {
        let (status, shown, complaints) = ended(words);
        assert_eq!((status, shown.as_str()), (2, ""));
        complaints
    };
    assert_eq!(complaint(&[]), "sill: a command is wanted; sill --help says how to call it\n");
    let told = "sill: there is no command 'chek'; did you mean check? sill --help says how to call it\n";
    assert_eq!((complaint(&["chek"]), complaint(&["help", "chek"])), (told.to_string(), told.to_string()));
    assert_eq!(complaint(&["frobnicate"]), "sill: there is no command 'frobnicate'; sill --help says how to call it\n");
    assert_eq!(complaint(&["check"]), "sill: too few names: wants PATH..; sill check --help says how to call it\n");
    assert_eq!(complaint(&["show", "-x"]), "sill: unknown option '-x'; sill show --help says how to call it\n");
    assert_eq!(
        complaint(&["show", "--depth", "deep", "goldens/rates.golden"]),
        "sill: show: --depth wants a whole number; sill show --help says how to call it\n"
    );
    assert_eq!(complaint(&["show", "goldens"]), "sill: goldens: Is a directory\n");
}

/// Every line of `--help` stands in the man page, which man lays out without a warning.
#[test]
fn the_man_page_is_laid_out() {
    let (status, page, _) = ended(&["manual", "--man"]);
    assert_eq!(status, 0);
    let path = file(&folder("man"), "sill.1", page.as_bytes());
    let Ok(laid_out) = Command::new("man").args(["--warnings", "-l", &path]).env("MANWIDTH", "200").output() else {
        return; // no man here
    };
    let (text, warnings) = (String::from_utf8_lossy(&laid_out.stdout), String::from_utf8_lossy(&laid_out.stderr));
    assert_eq!((laid_out.status.code(), &*warnings), (Some(0), ""));
    let words = |text: &str| text.split_whitespace().map(String::from).collect::<Vec<_>>().join(" ");
    let text = words(&text.replace(['‐', '−'], "-"));
    for command in COMMANDS {
        let shown = ended(&[command, "--help"]).1;
        let options = shown.lines().filter(|line| line.starts_with("  -"));
        for option in options.map(|line| words(line.split("  ").nth(1).unwrap())) {
            assert!(text.contains(&option), "{command}: {option}");
        }
    }
}

#[test]
fn completions_are_read_by_bash() {
    let script = ended(&["completions", "bash"]).1;
    let path = file(&folder("completions-bash"), "sill.bash", script.as_bytes());
    let completed = |words: &[&str]| {
        let call = format!(
            "source '{path}'; COMP_WORDS=({}); COMP_CWORD={}; _sill; printf '%s\\n' \"${{COMPREPLY[@]}}\"",
            words.iter().map(|word| format!("'{word}'")).collect::<Vec<_>>().join(" "),
            words.len() - 1
        );
        let output = Command::new("bash").args(["-c", &call]).current_dir(root()).output().unwrap();
        assert_eq!(String::from_utf8_lossy(&output.stderr), "", "{words:?}");
        String::from_utf8(output.stdout).unwrap().lines().map(String::from).collect::<Vec<_>>()
    };
    assert!(Command::new("bash").args(["-n", &path]).status().unwrap().success());
    assert_eq!(completed(&["sill", "ch"]), ["check"]);
    assert_eq!(completed(&["sill", "help", "li"]), ["lines"]);
    assert_eq!(completed(&["sill", "check", "--no"]), [""]);
    assert_eq!(completed(&["sill", "check", "--str"]), ["--strict"]);
    assert_eq!(completed(&["sill", "check", "--format", "j"]), ["json", "junit"]);
    assert_eq!(completed(&["sill", "check", "--format", "=", "s"]), ["sarif"]);
    assert_eq!(completed(&["sill", "check", "-l", "no"]), ["not-whole", "no-place"]);
    assert_eq!(completed(&["sill", "completions", "f"]), ["fish"]);
    assert_eq!(completed(&["sill", "check", "golde"]), ["goldens"]);
    assert_eq!(ended(&["completions", "csh"]).0, 2);
}

/// Where these shells are there, they read what is made for them.
#[test]
fn completions_are_read_by_zsh_and_fish() {
    for shell in ["zsh", "fish"] {
        let (status, script, _) = ended(&["completions", shell]);
        assert_eq!(status, 0);
        let path = file(&folder("completions-others"), shell, script.as_bytes());
        if let Ok(read) = Command::new(shell).args(["-n", &path]).status() {
            assert!(read.success(), "{shell}");
        }
    }
}

#[test]
fn options_in_every_spelling() {
    let path = file(&folder("spelling"), "deep.golden", b")\x01)\x01)\x01N");
    let shown = ended(&["show", "--depth", "2", &path]).1;
    assert_eq!(shown.lines().count(), 4);
    for words in [["show", "-d2", &path], ["show", "--depth=2", &path], ["show", "-d=2", &path]] {
        assert_eq!(ended(&words).1, shown, "{words:?}");
    }
}

#[test]
fn colours_as_they_are_asked_for() {
    let coloured = |words: &[&str]| ended(&[&["check", "goldens/rates.golden"], words].concat()).1.contains("\x1b[32m");
    assert!(coloured(&["--color=always"]) && coloured(&["--color", "always"]));
    assert!(!coloured(&["--color=never"]) && !coloured(&["--color=auto"]) && !coloured(&[]));
    let (_, shown, _) = ended(&["lines", "--color=always", "goldens/cut-line-table.golden"]);
    assert!(shown.contains("\x1b[33m! left over\x1b[0m"), "{shown}");
    assert_eq!(ended(&["check", "--color=maybe", "goldens"]).0, 2);
}
