//! `sill diff --html`: the values of two files side by side, as a page on standard output.
use super::tree::{Room, Tree};
use super::values::{Side, number};
use crate::by_bytes::{self, Told};
use crate::json::{self, Object};
use crate::origins::ORIGINS;
use crate::page::{Page, made, refused_value};
use crate::{Outcome, text};
use sillgarland::{Golden, Reader};
use std::io::{self, Write};
use std::ops::Range;

/// How many lines of a page tell what differs, and how many what is the same.
const ROOM: Room = Room { different: 3_000, same: 3_000 };

pub fn show(sides: &mut [Side; 2], out: &mut dyn Write) -> io::Result<Outcome> {
    let mut gathered = Gathered::new();
    let mut readers = [Reader::new(), Reader::new()];
    for (side, reader) in sides.iter_mut().zip(&mut readers) {
        match side.skip(reader) {
            Ok(true) => {}
            Ok(false) => {
                side.complain();
                return Ok(Outcome::Trouble);
            }
            Err(_) => {} // it is refused again, and told, where the value is read
        }
    }
    while gathered.refused.is_empty() && sides.iter().all(Side::has_more) {
        let consumed = gathered.add_next(sides, &mut readers);
        sides.iter_mut().zip(consumed).for_each(|(side, consumed)| side.go_on(consumed));
    }
    gathered.end(sides);
    write!(out, "{}", gathered.page(sides))?;
    Ok(if gathered.different { Outcome::Bad } else { Outcome::Good })
}

/// What has come together.
struct Gathered {
    values: Vec<String>,
    /// Values that are the same, one after another up to here.
    same: Option<Same>,
    /// How many values that differ are not shown for want of room.
    more: usize,
    refused: Vec<String>,
    /// What is said of a file that goes on.
    longer: Option<String>,
    differences: usize,
    different: bool,
    room: Room,
}

/// Where values that are the same stand: the words for the first, its number, how many there are, and their bytes in both files.
struct Same {
    title: String,
    first: usize,
    count: usize,
    spans: [Range<usize>; 2],
}

impl Gathered {
    fn new() -> Self {
        let (values, refused) = (Vec::new(), Vec::new());
        Self { values, same: None, more: 0, refused, longer: None, differences: 0, different: false, room: ROOM }
    }

    /// Compares the next values, and says how many bytes they take.
    fn add_next(&mut self, sides: &[Side; 2], readers: &mut [Reader; 2]) -> [usize; 2] {
        let [one, other] = readers;
        match (sides[0].read(one), sides[1].read(other)) {
            (Ok(left), Ok(right)) => {
                self.add([left, right], sides);
                [left.consumed(), right.consumed()]
            }
            answers => {
                self.different = true;
                let answers = [answers.0.err(), answers.1.err()];
                let told = sides.iter().zip(answers).enumerate().filter_map(|(at, (side, answer))| {
                    let value = refused_value(&answer?, &side.input, side.value, side.at);
                    Some(Object::new().with("side", at).and(value).end())
                });
                self.refused = told.collect();
                [0, 0]
            }
        }
    }

    /// The written bytes decide; the tree says where two values differ, and decides where the bytes say nothing.
    fn add(&mut self, goldens: [Golden; 2], sides: &[Side; 2]) {
        let spans = [0, 1].map(|at| sides[at].at..sides[at].at + goldens[at].consumed());
        let (told, different) = match by_bytes::tell(goldens[0], goldens[1]) {
            Told::Same => return self.add_same(sides, spans),
            Told::Different { from } => (Object::new().with("written", from), true),
            Told::Nothing(why) => (Object::new().text("note", &why), false),
        };
        self.tell_same();
        let has_room = self.room.different > 0;
        let tree = Tree::of(goldens, [sides[0].at, sides[1].at], &mut self.room);
        self.differences += tree.differences;
        self.different |= different || !tree.same;
        if !has_room {
            self.more += usize::from(different || !tree.same);
            return;
        }
        let value = titled(&number(sides), &spans).and(told).with("differences", tree.differences);
        self.values.push(value.with("lines", format!("[\n{}\n]", tree.lines.join(",\n"))).end());
    }

    fn add_same(&mut self, sides: &[Side; 2], spans: [Range<usize>; 2]) {
        match &mut self.same {
            None => self.same = Some(Same { title: number(sides), first: sides[0].value, count: 1, spans }),
            Some(same) => {
                same.count += 1;
                same.spans.iter_mut().zip(spans).for_each(|(known, span)| known.end = span.end);
            }
        }
    }

    /// Tells of the values that were the same, all at once.
    fn tell_same(&mut self) {
        let Some(Same { title, first, count, spans }) = self.same.take() else { return };
        let title = if count == 1 { title } else { format!("values {first} to {}", first + count - 1) };
        self.values.push(titled(&title, &spans).with("same", true).end());
    }

    /// Where one file goes on behind the other's last value.
    fn end(&mut self, sides: &[Side; 2]) {
        self.tell_same();
        let longer = sides.iter().find(|side| side.has_more()).filter(|_| self.refused.is_empty());
        if let Some(side) = longer {
            self.different = true;
            self.longer = Some(format!("{} goes on at byte {}", text::path(&side.path), side.at));
        }
    }

    fn page(&self, sides: &[Side; 2]) -> String {
        let verdict = if self.different { "different" } else { "the same" };
        let data = Object::new()
            .text("made", &made())
            .text("version", env!("CARGO_PKG_VERSION"))
            .with("paths", json::list(sides.each_ref().map(|side| json::string(&text::path(&side.path)))))
            .with("origins", json::list(ORIGINS.map(json::string)))
            .with("differences", self.differences)
            .with("more", self.more)
            .with("refused", json::list(&self.refused))
            .or_null("longer", self.longer.as_deref().map(json::string))
            .with("values", json::list(&self.values))
            .end();
        let markup = format!(
            "<header>\n<h1>sill diff</h1>\n<p id=\"verdict\">{verdict}</p>\n<p id=\"made\"></p>\n</header>\n<main id=\"main\">\n\
             <noscript><p>The trees need this page's own script, and scripts are switched off.</p></noscript>\n</main>\n"
        );
        let title = format!("sill diff: {verdict}");
        Page { title: &title, markup: &markup, script: include_str!("../page/diff.js"), data: &data }.whole()
    }
}

fn titled(title: &str, spans: &[Range<usize>; 2]) -> Object {
    let spans = spans.each_ref().map(|span| json::list([span.start, span.end]));
    Object::new().text("title", title).with("spans", json::list(spans))
}
