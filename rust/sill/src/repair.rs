//! `sill repair`: line tables that are not whole are salvaged where they stand, and every other byte of the file stays.
use crate::options::Arguments;
use crate::words::{self, Within};
use crate::write::{beside_output, in_form_of, may_be_replaced, put};
use crate::{Outcome, complaints, files, json, text};
use sillgarland::{Code, Form, Golden, Lines, Reader, Records, Salvaged, Value};
use std::collections::{BTreeMap, HashSet};
use std::io::{self, Write};
use std::path::Path;

pub fn run(arguments: &Arguments, out: &mut dyn Write) -> io::Result<Outcome> {
    let path = Path::new(&arguments.operands()[0]);
    let dry = arguments.has("dry-run");
    let target = arguments.word_of("output").map(Path::new);
    let Some(target) = target.or(dry.then_some(path)) else {
        complaints::say("repair: -o OUT or --dry-run must be given; sill repair --help says how to call it");
        return Ok(Outcome::Trouble);
    };
    if let Some(error) = may_be_replaced(path, target).err().filter(|_| !dry) {
        complaints::about(target, &error);
        return Ok(Outcome::Trouble);
    }
    let Some(input) = files::read(path) else { return Ok(Outcome::Trouble) };
    let report = match repaired(&input) {
        Ok(report) => report,
        Err(reason) => {
            let told = format!("refused  {}: {reason}; nothing is written", text::path(path));
            return beside_output(target, out, &told).map(|()| Outcome::Bad);
        }
    };
    if let Some(error) = (!dry).then(|| put(target, &report.bytes, out)).and_then(Result::err) {
        complaints::about(target, &error);
        return Ok(Outcome::Trouble);
    }
    let written = (!dry).then_some(target);
    let told = if arguments.has("json") { report.as_json(written) } else { report.as_text(written, input.len()) };
    match written {
        Some(target) => beside_output(target, out, &told)?,
        None => writeln!(out, "{told}")?,
    }
    Ok(if report.told.values().any(|told| told.left.is_some()) { Outcome::Bad } else { Outcome::Good })
}

/// The file as it is to be, and what is said of each code object whose table is not whole.
struct Report {
    bytes: Vec<u8>,
    told: ByNumber,
}

/// By the number of a code object among those of the file.
type ByNumber = BTreeMap<usize, Told>;

/// A code object whose table is not whole.
struct Told {
    name: String,
    /// Why its table is left as it is.
    left: Option<String>,
    /// What is done to it.
    salvaged: Option<Salvaged>,
    /// The first instruction without a line, and the last row placed.
    first_without: Option<usize>,
    last_row: Option<u32>,
}

/// The bytes that take the place of a table's: where they stand in the file, length field included, and what they become.
struct Change {
    start: usize,
    end: usize,
    bytes: Vec<u8>,
}

/// What a repair of a file would do with each code object whose table is not whole, by its number among those of the file, as `--json`
/// tells it; or why nothing would be written.
pub fn planned(input: &[u8]) -> Result<BTreeMap<usize, String>, String> {
    Ok(repaired(input)?.told.into_iter().map(|(at, told)| (at, told.as_json())).collect())
}

/// A golden in fields is repaired as its values stand back to back, and goes back into fields: so a field's length is mended too.
fn repaired(input: &[u8]) -> Result<Report, String> {
    if Form::of(input) == Form::Plain {
        return repaired_plain(input);
    }
    let plain = Reader::new().golden_from_fields(input);
    let plain = plain.map_err(|refused| words::told(&refused, Within::Value(input), 0))?;
    let Report { bytes, told } = repaired_plain(&plain)?;
    Ok(Report { bytes: in_form_of(input, bytes)?, told })
}

/// Everything is decided by value: tables, and what else names them, lie within one.
fn repaired_plain(input: &[u8]) -> Result<Report, String> {
    let (mut told, mut changes, mut objects) = (ByNumber::new(), Vec::new(), 0);
    let ended = files::for_each_value(&mut Reader::new(), input, |start, golden| {
        decide(golden, start, objects, &mut told, &mut changes);
        objects += golden.code_objects().count();
        Ok::<(), String>(())
    })?;
    if let Some(refused) = ended.refused {
        return Err(words::told(&refused, Within::Value(input), 0));
    }
    let bytes = changed(input, &changes);
    read_back(input, &bytes, &mut told)?;
    Ok(Report { bytes, told })
}

/// The line tables of a value: each, by its node, with the code objects that name it.
fn decide(golden: Golden, start: usize, objects: usize, told: &mut ByNumber, changes: &mut Vec<Change>) {
    let mut tables: BTreeMap<u32, Vec<(usize, Code)>> = BTreeMap::new();
    for (at, code) in golden.code_objects().enumerate() {
        tables.entry(code.line_table().node()).or_default().push((objects + at, code));
    }
    let elsewhere = named_elsewhere(golden);
    for (node, users) in tables {
        let table = users[0].1.line_table();
        let repairs: Vec<_> = users.iter().map(|(_, code)| code.salvaged()).collect();
        let own = &golden_bytes(table);
        let is_whole = |repair: &Result<Salvaged, _>| repair.as_ref().is_ok_and(|repair| repair.table == *own);
        if repairs.iter().all(is_whole) {
            continue;
        }
        let left = why_left(&repairs, elsewhere.contains(&node));
        if left.is_none() {
            let bytes = repairs[0].as_ref().map_or(Vec::new(), |repair| repair.table.clone());
            changes.push(Change { start: start + table.place() - 4, end: start + table.place() + table.size(), bytes });
        }
        for ((at, code), repair) in users.iter().zip(repairs) {
            let whole = is_whole(&repair);
            if left.is_none() || !whole {
                let name = text::name(code.qualified_name());
                let salvaged = repair.ok().filter(|_| left.is_none());
                told.insert(*at, Told { name, left: left.clone(), salvaged, first_without: None, last_row: None });
            }
        }
    }
}

fn golden_bytes(table: Value) -> Vec<u8> {
    match table.content() {
        sillgarland::Content::Bytes(bytes) => bytes.to_vec(),
        _ => Vec::new(),
    }
}

/// Nodes that stand somewhere else than as a code object's line table.
fn named_elsewhere(golden: Golden) -> HashSet<u32> {
    const LINE_TABLE: usize = 8;
    let parents = golden.values().map(|value| (value.as_code().is_some(), value.children()));
    let named = parents.flat_map(|(code, children)| {
        children.enumerate().filter(move |(at, _)| !code || *at != LINE_TABLE).map(|(_, child)| child.node())
    });
    named.chain([golden.root().node()]).collect()
}

/// Why a table is not touched: a repair that is refused, users that want other bytes, or something else that names it.
fn why_left(repairs: &[Result<Salvaged, sillgarland::Refused>], elsewhere: bool) -> Option<String> {
    if let Some(refused) = repairs.iter().find_map(|repair| repair.as_ref().err()) {
        return Some(format!("its repair is refused: {refused}"));
    }
    let bytes = |repair: &Result<Salvaged, _>| repair.as_ref().ok().map(|repair: &Salvaged| repair.table.clone());
    if repairs.iter().any(|repair| bytes(repair) != bytes(&repairs[0])) {
        return Some(
            "its line table is shared with another code object, whose repair would give other bytes".to_string(),
        );
    }
    elsewhere.then(|| "its line table is shared with something that is no line table".to_string())
}

fn changed(input: &[u8], changes: &[Change]) -> Vec<u8> {
    let mut in_order: Vec<&Change> = changes.iter().collect();
    in_order.sort_by_key(|change| change.start);
    let (mut bytes, mut from) = (Vec::with_capacity(input.len()), 0);
    for Change { start, end, bytes: table } in in_order {
        bytes.extend(&input[from..*start]);
        bytes.extend((table.len() as u32).to_le_bytes());
        bytes.extend(table);
        from = *end;
    }
    bytes.extend(&input[from..]);
    bytes
}

/// All values are the same but for the repaired tables, and every table is whole but those told; and of each repaired one,
/// how far its lines go.
fn read_back(input: &[u8], bytes: &[u8], told: &mut ByNumber) -> Result<(), String> {
    let (mut before, mut after, mut records) = (Reader::new(), Reader::new(), Records::default());
    let (mut from, mut to, mut objects) = (0, 0, 0);
    while from < input.len() {
        let old = files::read_value(&mut before, input, from).map_err(|refused| refused.to_string())?;
        let new =
            files::read_value(&mut after, bytes, to).map_err(|refused| format!("would not read back: {refused}"))?;
        if !same_but_for(old, new, &input[from..], &bytes[to..], |at| {
            told.get(&(objects + at)).is_some_and(|told| told.left.is_none())
        }) {
            return Err(format!("value at byte {from}: would not read back as the same value"));
        }
        for (at, code) in new.code_objects().enumerate() {
            hold_lines(&code, told.get_mut(&(objects + at)), &mut records)?;
        }
        objects += old.code_objects().count();
        (from, to) = (from + old.consumed(), to + new.consumed());
    }
    if to == bytes.len() { Ok(()) } else { Err("would not read back: bytes are left".to_string()) }
}

/// Node by node: letters, children, numbers and own bytes, but for the tables of the code objects that are mended.
fn same_but_for(old: Golden, new: Golden, input: &[u8], bytes: &[u8], mended: impl Fn(usize) -> bool) -> bool {
    let codes = old.code_objects().enumerate();
    let tables: HashSet<u32> = codes.filter(|(at, _)| mended(*at)).map(|(_, code)| code.line_table().node()).collect();
    let own = |value: Value, bytes: &[u8]| bytes[value.place()..value.place() + value.size()].to_vec();
    let alike = |(a, b): (Value, Value)| {
        let children = a.children().map(Value::node).eq(b.children().map(Value::node));
        let held = match (a.as_code(), b.as_code()) {
            (Some(a), Some(b)) => (a.numbers(), a.first_line()) == (b.numbers(), b.first_line()),
            (None, None) => tables.contains(&a.node()) || own(a, input) == own(b, bytes),
            _ => false,
        };
        a.letter() == b.letter() && children && held
    };
    old.values().len() == new.values().len() && old.values().zip(new.values()).all(alike)
}

fn hold_lines(code: &Code, told: Option<&mut Told>, records: &mut Records) -> Result<(), String> {
    let whole = code.lines(records).ok().and_then(Lines::whole);
    let salvaged = told.as_ref().and_then(|told| told.salvaged.as_ref());
    match (whole, told.is_some(), salvaged) {
        (Some(locations), true, Some(salvaged)) => {
            let placed = locations.len() - salvaged.covered;
            let first_without = (salvaged.covered > 0).then_some(placed);
            if let Some(told) = told {
                (told.first_without, told.last_row) = (first_without, locations.last_row());
            }
            Ok(())
        }
        (Some(_), _, _) | (None, true, None) => Ok(()),
        (None, _, _) => Err(format!("code object {}: would not be whole", text::name(code.qualified_name()))),
    }
}

impl Report {
    fn as_text(&self, target: Option<&Path>, was: usize) -> String {
        let told: String = self.told.values().map(|told| told.as_text() + "\n").collect();
        let left = self.told.values().filter(|told| told.left.is_some()).count();
        let mended = text::count(self.told.len() - left, "code object");
        let totals = format!("{mended} mended, {left} left as they are");
        match target {
            Some(target) => {
                let bytes = text::count(self.bytes.len(), "byte");
                format!("{told}written  {}: {bytes} (was {was}): {totals}", text::path(target))
            }
            None => format!("{told}dry run  {totals}; nothing is written"),
        }
    }

    fn as_json(&self, target: Option<&Path>) -> String {
        let codes: Vec<String> = self.told.values().map(Told::as_json).collect();
        let written = target.map_or("null".to_string(), |_| self.bytes.len().to_string());
        format!("{{\"written\": {written}, \"code_objects\": [{}]}}", codes.join(", "))
    }
}

impl Told {
    fn as_text(&self) -> String {
        let Some(Salvaged { kept, dropped, shortened, covered, .. }) = &self.salvaged else {
            let reason = self.left.as_deref().unwrap_or("it is not whole");
            return format!("left     code object {}: {reason}", self.name);
        };
        let first =
            self.first_without.map_or(String::new(), |at| format!("; instruction {at} is the first without a line"));
        let last =
            self.last_row.map_or("; no row is placed".to_string(), |row| format!("; the last row placed is {row}"));
        format!(
            "mended   code object {}: {} kept, {} dropped, {} shortened, {} covered{first}{last}",
            self.name,
            if *kept == 1 { "1 entry".to_string() } else { format!("{kept} entries") },
            text::count(*dropped, "byte"),
            if *shortened { "one" } else { "none" },
            text::count(*covered, "instruction"),
        )
    }

    fn as_json(&self) -> String {
        let number = |number: Option<usize>| number.map_or("null".to_string(), |number| number.to_string());
        let name = json::string(&self.name);
        match &self.salvaged {
            None => {
                let reason = json::string(self.left.as_deref().unwrap_or_default());
                format!("{{\"name\": {name}, \"mended\": false, \"reason\": {reason}}}")
            }
            Some(Salvaged { kept, dropped, shortened, covered, .. }) => format!(
                "{{\"name\": {name}, \"mended\": true, \"kept\": {kept}, \"dropped\": {dropped}, \
                 \"shortened\": {shortened}, \"covered\": {covered}, \"first_without_line\": {}, \"last_row\": {}}}",
                number(self.first_without),
                number(self.last_row.map(|row| row as usize)),
            ),
        }
    }
}
