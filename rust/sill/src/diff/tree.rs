//! Two values as one tree, line by line: what differs, and what is the same, folded. What the page has room for is bounded.
use super::beside::beside;
use super::classes::Classes;
use super::places::named_step;
use super::values::{first_different_byte, number_named};
use crate::json::{self, Object};
use crate::text;
use sillgarland::{Children, Golden, Step, Value, What, differences_at};
use std::collections::HashSet;
use std::ops::Range;

/// How many lines of a page tell what differs, and how many what is the same.
pub struct Room {
    pub different: usize,
    pub same: usize,
}

/// What a line is.
#[derive(Clone, Copy)]
enum State {
    Same,
    DiffersBelow,
    Differs,
    OnlyLeft,
    OnlyRight,
    /// A pair of shared values that stands further up.
    AsAbove,
    /// Words on what is left out.
    LeftOut,
}

/// Whether two values are the same, their lines, and how many differences these tell.
pub struct Tree<'a> {
    pub same: bool,
    pub lines: Vec<String>,
    pub differences: usize,
    starts: [usize; 2],
    classes: Classes,
    met: HashSet<[u32; 2]>,
    open: Vec<Open<'a>>,
}

/// Two values whose children are being compared.
struct Open<'a> {
    values: [Value<'a>; 2],
    children: [Children<'a>; 2],
    begun: usize,
    /// The key of a dict's next value, in the first file.
    key: Option<Value<'a>>,
    /// Children one after another that are the same: how many, the first of them, and the steps to the first and the last.
    same: usize,
    first: Vec<(String, [Value<'a>; 2])>,
    last: String,
}

/// How many of children that are the same, or only on one side, have a line of their own, and how deep these go.
const MOST_MEMBERS: usize = 24;
const MOST_LEVELS: usize = 4;
const LINE_TABLE: usize = 8;
/// How many bytes of rows take the room of a line.
const A_LINE: usize = 400;

impl<'a> Tree<'a> {
    /// Of two values that begin at these places of their files.
    pub fn of(goldens: [Golden<'a>; 2], starts: [usize; 2], room: &mut Room) -> Self {
        let classes = Classes::of(goldens);
        let same = classes.are_same(goldens.map(Golden::root));
        let (lines, met, open) = (Vec::new(), HashSet::new(), Vec::new());
        let mut tree = Self { same, lines, differences: 0, starts, classes, met, open };
        tree.enter(goldens.map(Golden::root), String::new(), room);
        while !tree.open.is_empty() && room.different > 0 {
            tree.go_on(room);
        }
        if !tree.open.is_empty() {
            tree.left_out(0, "the page has room for no more; sill diff --all tells every difference");
        }
        tree
    }

    /// The next children of what is open, or what is to be told at its end.
    fn go_on(&mut self, room: &mut Room) {
        let Some(innermost) = self.open.last_mut() else { return };
        let (at, values) = (innermost.begun, innermost.values);
        innermost.begun += 1;
        let step = Step::to_child(values[0], at);
        match (innermost.children[0].next(), innermost.children[1].next()) {
            (Some(left), Some(right)) => {
                let named = named_step(step, innermost.key);
                innermost.key = Some(left);
                if self.classes.are_same([left, right]) {
                    innermost.add_same(step, named, [left, right]);
                } else {
                    self.flush(room);
                    self.enter([left, right], named, room);
                }
            }
            (None, None) => {
                self.flush(room);
                self.open.pop();
            }
            (left, right) => {
                self.flush(room);
                self.alone([left, right], step, room);
            }
        }
    }

    /// A pair of values that differ, or the root of two that do not.
    fn enter(&mut self, values: [Value<'a>; 2], step: String, room: &mut Room) {
        let depth = self.open.len();
        if self.classes.are_same(values) {
            return self.same(values, step, depth, 0, room);
        }
        room.different = room.different.saturating_sub(1);
        let [left, right] = values;
        if !self.met.insert(values.map(Value::node)) {
            return self.line(depth, State::AsAbove, &step, values.map(Some), None);
        }
        let differ: Vec<What> = differences_at(left, right).collect();
        self.differences += differ.len();
        let state = if differ.is_empty() { State::DiffersBelow } else { State::Differs };
        let more = self.more(values, &differ);
        let lines = more.as_ref().map_or(0, |more| more.size() / A_LINE);
        room.different = room.different.saturating_sub(lines);
        self.line(depth, state, &step, values.map(Some), more);
        if !differ.contains(&What::Content) {
            self.open.push(Open::of(values));
        }
    }

    /// What else there is to tell of a difference: numbers of code objects, the first byte of contents, rows of line tables.
    fn more(&self, [left, right]: [Value; 2], differ: &[What]) -> Option<Object> {
        if let Some((one, other)) = left.as_code().zip(right.as_code()) {
            let numbers = differ.iter().filter_map(|what| match what {
                What::Number(name) => {
                    let [one, other] = [&one, &other].map(|code| number_named(code, name));
                    Some(format!("[{},{one},{other}]", json::string(name)))
                }
                _ => None,
            });
            return Some(Object::new().with("numbers", json::list(numbers)));
        }
        let object = Object::new().with("from", first_different_byte(left, right)?);
        let parents = self.open.last().filter(|open| open.begun == LINE_TABLE + 1);
        let codes = parents.and_then(|open| open.values[0].as_code().zip(open.values[1].as_code()));
        Some(match codes {
            Some((one, other)) => object.with("rows", beside([one, other])),
            None => object,
        })
    }

    /// Tells the children that were the same, folded.
    fn flush(&mut self, room: &mut Room) {
        let depth = self.open.len();
        let Some(innermost) = self.open.last_mut() else { return };
        let (same, first, last) = (
            std::mem::take(&mut innermost.same),
            std::mem::take(&mut innermost.first),
            std::mem::take(&mut innermost.last),
        );
        match &first[..] {
            [] => {}
            [(step, values)] if same == 1 => self.same(*values, step.clone(), depth, 0, room),
            [(step, values), ..] => {
                let told = format!("{step} to {last}");
                let held = Object::new().text("held", &text::count(same, "part"));
                self.line(depth, State::Same, &told, values.map(|_| None), Some(held));
                for (step, values) in &first {
                    self.same(*values, step.clone(), depth + 1, 0, room);
                }
                if same > first.len() {
                    self.left_out(depth + 1, &format!("and {} more, the same", same - first.len()));
                }
            }
        }
    }

    /// A pair of values that are the same, and what they hold, as far as there is room.
    fn same(&mut self, values: [Value<'a>; 2], step: String, depth: usize, levels: usize, room: &mut Room) {
        room.same = room.same.saturating_sub(1);
        self.line(depth, State::Same, &step, values.map(Some), None);
        let all = values[0].children().len();
        let shown = if levels < MOST_LEVELS { all.min(MOST_MEMBERS).min(room.same) } else { 0 };
        let mut key = None;
        for (at, (left, right)) in values[0].children().zip(values[1].children()).take(shown).enumerate() {
            let step = named_step(Step::to_child(values[0], at), key);
            key = Some(left);
            self.same([left, right], step, depth + 1, levels + 1, room);
        }
        if shown < all {
            self.left_out(depth + 1, &format!("{} more; sill show has all", all - shown));
        }
    }

    /// Children that only one side has.
    fn alone(&mut self, mut values: [Option<Value<'a>>; 2], step: Step, room: &mut Room) {
        let depth = self.open.len();
        let side = usize::from(values[0].is_none());
        let state = if side == 0 { State::OnlyLeft } else { State::OnlyRight };
        let Some(mut innermost) = self.open.pop() else { return };
        let (mut told, mut step) = (0, step);
        while let Some(value) = values[side].take() {
            if told < MOST_MEMBERS {
                room.different = room.different.saturating_sub(1);
                let shown = if side == 0 { [Some(value), None] } else { [None, Some(value)] };
                self.line(depth, state, &named_step(step, None), shown, None);
            }
            told += 1;
            step = Step::to_child(innermost.values[0], innermost.begun);
            innermost.begun += 1;
            values[side] = innermost.children[side].next();
        }
        if told > MOST_MEMBERS {
            self.left_out(depth, &format!("and {} more, on one side only", told - MOST_MEMBERS));
        }
    }

    fn left_out(&mut self, depth: usize, told: &str) {
        self.lines.push(json::list([depth.to_string(), (State::LeftOut as u8).to_string(), json::string(told)]));
    }

    /// Depth, state, step, and of each side what it holds and its first byte and the one behind its last; of what is the same it is
    /// said once.
    fn line(&mut self, depth: usize, state: State, step: &str, values: [Option<Value>; 2], more: Option<Object>) {
        let mut parts = vec![depth.to_string(), (state as u8).to_string(), json::string(step)];
        for (side, value) in values.into_iter().enumerate() {
            let Some(value) = value else {
                parts.extend(["null", "0", "0"].map(String::from));
                continue;
            };
            let Range { start, end } = value.span();
            let is_told = side == 0 || !matches!(state, State::Same);
            parts.push(if is_told { json::string(&text::holds(value)) } else { "null".to_string() });
            parts.extend([start, end].map(|at| (self.starts[side] + at).to_string()));
        }
        parts.extend(more.map(Object::end));
        self.lines.push(json::list(parts));
    }
}

impl<'a> Open<'a> {
    fn of(values: [Value<'a>; 2]) -> Self {
        let children = values.map(Value::children);
        Self { values, children, begun: 0, key: None, same: 0, first: Vec::new(), last: String::new() }
    }

    /// A dict's key that is the same is told by the step to its value.
    fn add_same(&mut self, step: Step, named: String, values: [Value<'a>; 2]) {
        if matches!(step, Step::Key(_)) {
            return;
        }
        self.same += 1;
        if self.first.len() < MOST_MEMBERS {
            self.first.push((named.clone(), values));
        }
        self.last = named;
    }
}
