//! The parts of the page as they come together, in the order of the files, and the page that they make.
use super::damage::Drawn;
use super::file::{Entry, Told};
use crate::check::{Manner, Totals, Verdict, totals_as_json};
use crate::json::{self, Object};
use crate::origins::ORIGINS;
use crate::page::{Page, made};
use crate::text;
use sillgarland::Refusal;
use std::collections::HashMap;
use std::ffi::OsString;
use std::path::Path;

/// How much is drawn of the first damaged code object of each file, and of the others, in bytes. What is over is told, not drawn.
const ROOM_FOR_FIRST: usize = 1_200_000;
const ROOM_FOR_OTHERS: usize = 500_000;

/// How many of the paths that were given the page names.
const MOST_PATHS: usize = 8;

/// The page's own script: the table of files, what is known of one, and the page.
const SCRIPT: &str =
    concat!(include_str!("../page/table.js"), include_str!("../page/known.js"), include_str!("../page/report.js"));

#[derive(Default)]
pub struct Gathered {
    /// Folders in the order in which they were met, and their numbers.
    folders: Vec<String>,
    numbers: HashMap<String, usize>,
    sound: Vec<String>,
    damaged: Vec<String>,
    /// How much is drawn, of first objects and of others.
    drawn: [usize; 2],
    undrawn: usize,
}

impl Gathered {
    pub fn add(&mut self, entry: Entry) {
        let Entry { folder, name, told } = entry;
        let folder = self.number_of(folder);
        match told {
            Told::Sound(numbers) => self.sound.push(format!("[{folder},{},{numbers}]", json::string(&name))),
            Told::NotAccepted(fields, damaged) => {
                let objects = damaged.objects.into_iter().enumerate().map(|(at, drawn)| self.fitted(at, drawn));
                let objects = json::list(objects.collect::<Vec<_>>());
                let file = Object::new().with("folder", folder).text("name", &name).and(fields).and(damaged.fields);
                self.damaged.push(file.with("objects", objects).end());
            }
        }
    }

    fn number_of(&mut self, folder: String) -> usize {
        let next = self.folders.len();
        *self.numbers.entry(folder).or_insert_with_key(|folder| {
            self.folders.push(folder.clone());
            next
        })
    }

    /// A code object with its drawing, if there is room for it.
    fn fitted(&mut self, at: usize, object: Drawn) -> String {
        let (kind, room) = if at == 0 { (0, ROOM_FOR_FIRST) } else { (1, ROOM_FOR_OTHERS) };
        let Drawn { told, drawing } = object;
        let size = drawing.size();
        if self.drawn[kind] + size > room {
            self.undrawn += 1;
            return told.end();
        }
        self.drawn[kind] += size;
        told.and(drawing).end()
    }

    pub fn page(&self, totals: &Totals, paths: &[OsString], manner: &Manner) -> String {
        let damaged = totals.paths() - totals.of(Verdict::Accepted);
        let title = format!("sill report: {damaged} of {} not accepted", text::count(totals.paths(), "file"));
        let list = |items: &[String]| format!("[\n{}\n]", items.join(",\n"));
        let shown = paths.iter().take(MOST_PATHS).map(|path| json::string(&text::path(Path::new(path))));
        let data = Object::new()
            .text("made", &made())
            .text("version", env!("CARGO_PKG_VERSION"))
            .with("paths", json::list(shown))
            .with("more_paths", paths.len().saturating_sub(MOST_PATHS))
            .with("strict", manner.strict)
            .text("prefix", &text::short(&manner.scope.prefix))
            .with("totals", totals_as_json(totals))
            .with("origins", json::list(ORIGINS.map(json::string)))
            .with("refusals", refusals())
            .with("undrawn", self.undrawn)
            .with("folders", json::list(self.folders.iter().map(|folder| json::string(folder))))
            .with("damaged", list(&self.damaged))
            .with("sound", list(&self.sound))
            .end();
        Page { title: &title, markup: &markup(totals), script: SCRIPT, data: &data }.whole()
    }
}

/// The names of refusals, by their numbers.
fn refusals() -> String {
    let all = (1..).map_while(Refusal::of_number);
    all.fold(Object::new(), |object, refusal| object.text(&refusal.number().to_string(), &format!("{refusal:?}"))).end()
}

/// What stands in the page before its script runs: the totals, which have nothing from a file.
fn markup(totals: &Totals) -> String {
    format!(
        "<header>\n<h1>sill report</h1>\n<p id=\"totals\">{totals}</p>\n<p id=\"made\"></p>\n</header>\n<main id=\"main\">\n\
         <noscript><p>The table of files needs this page's own script, and scripts are switched off.</p></noscript>\n</main>\n"
    )
}
