//! Runs each program of examples/ and holds what it shows; docs/RUST.md has two of them and what they show word for word.
use std::path::{Path, PathBuf};
use std::process::{Command, Output};

fn root() -> PathBuf {
    Path::new(env!("CARGO_MANIFEST_DIR")).join("../..")
}

/// Runs the example that cargo has built beside this test.
fn run(name: &str) -> Output {
    let here = std::env::current_exe().unwrap();
    let example = here.parent().unwrap().with_file_name("examples").join(name);
    Command::new(&example).current_dir(root()).output().unwrap_or_else(|error| panic!("{}: {error}", example.display()))
}

fn shown(output: &Output) -> &str {
    std::str::from_utf8(&output.stdout).unwrap()
}

#[test]
fn the_page_has_the_programs_and_what_they_show() {
    let ends = [
        ("cut_golden", "instruction 40 comes from row 212\n"),
        ("session", "<module>, of rates.sheet: 45 instructions\n"),
    ];
    for (name, end) in ends {
        let output = run(name);
        assert!(output.status.success() && shown(&output).ends_with(end), "{name}: {output:?}");
        let page = std::fs::read_to_string(root().join("docs/RUST.md")).unwrap();
        let program = std::fs::read_to_string(root().join(format!("rust/sillgarland/examples/{name}.rs"))).unwrap();
        assert!(page.contains(&format!("```rust\n{program}```\n")), "{name}");
        assert!(page.contains(&format!("```\n{}```\n", shown(&output))), "{name}");
    }
}

#[test]
fn a_refusal_ends_a_program_with_a_sentence() {
    let output = run("refused");
    assert_eq!(output.status.code(), Some(1));
    let told =
        "Error: 9 InvalidUtf8 at byte 190: the text that starts here is not UTF-8 (surrogates would be allowed)\n";
    assert_eq!(std::str::from_utf8(&output.stderr), Ok(told));
}

#[test]
fn forty_shared_tuples_are_walked() {
    assert_eq!(
        shown(&run("shared_tuples")),
        "487 bytes, and 41 values in the last tuple\na copy of it is equal: true\n"
    );
}

/// Each function that sillgarland-sys declares is called by this crate.
#[test]
fn every_export_is_reached() {
    let text = |path: &Path| std::fs::read_to_string(path).unwrap();
    let declared = text(&root().join("rust/sillgarland-sys/src/lib.rs"));
    let sources = std::fs::read_dir(root().join("rust/sillgarland/src")).unwrap();
    let own: String = sources.map(|entry| text(&entry.unwrap().path())).collect();
    let names = declared.lines().filter_map(|line| {
        line.trim().strip_prefix("pub ")?.trim_start_matches("safe ").strip_prefix("fn ")?.split('(').next()
    });
    let (reached, missing): (Vec<&str>, Vec<&str>) = names.partition(|name| own.contains(&format!("{name}(")));
    assert!(missing.is_empty(), "{missing:?}");
    assert!(reached.len() >= 25, "{reached:?}");
}
