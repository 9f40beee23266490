//! Sessions: random runs of reading, keeping a part and reading more behind it. Each step is held to the models of the move and of the
//! append; after each, every value of the session is shown, and written, as where its input is read alone.
use crate::keep::{self, Keeps};
use crate::lent::{Lent, Part};
use crate::more::{self, Mores};
use crate::random::Random;
use crate::read::{self, LONGEST_TEXT};
use crate::reading::{Held, NODE_WIDTH, Reading, Shown, ample, read};
use crate::shares::{self, Share};
use crate::subject::held;
use crate::tally::Tally;
use crate::text::hex;
use crate::values::random_inputs;
use crate::write_model::Store;
use crate::writing::Source;
use sillgarland_sys::refusals::{ACCEPTED, MOST_NESTING};
use sillgarland_sys::{Read, Written};

/// A value of the session, and what it is where it is read alone.
struct Value {
    root: u32,
    number: u32,
    input: Vec<u8>,
    alone: Alone,
}

#[derive(PartialEq, Debug)]
struct Alone {
    shown: String,
    written: (Written, Vec<u8>),
}

/// How many bytes are written of a value.
const ROOM: usize = 4096;

struct Session {
    stores: [Vec<u32>; 3],
    used: [u32; 2],
    values: Vec<Value>,
}

/// What stores hold at a node.
fn look(input: &[u8], nodes: &[u32], entries: &[u32], used: [u32; 2], root: u32) -> Result<Alone, String> {
    let part = Part::new(input);
    let answer = Read { refusal: ACCEPTED, place: 0, consumed: 0, nodes: used[0], entries: used[1], slots: 0 };
    let reading = Reading { answer, stores: [Lent::of(nodes), Lent::of(entries), Lent::of(&[])] };
    let shown = Held { input: part.bytes(), reading: &reading }.text_of(root, Shown::AsStored, LONGEST_TEXT)?;
    let (answer, out) = Source::new(&Store { input, nodes, entries, used }).write(root, MOST_NESTING, ROOM);
    // A refusal stands at a node's number, which the session has otherwise.
    let place = if answer.refusal == ACCEPTED { answer.place } else { 0 };
    Ok(Alone { shown, written: (Written { place, ..answer }, out.cells().to_vec()) })
}

fn alone(input: &[u8], root: u32) -> Result<Alone, String> {
    let reading = read(&Part::new(input), MOST_NESTING, ample(input));
    let [nodes, entries, _] = reading.stores.each_ref().map(|store| store.cells());
    look(input, nodes, entries, [reading.answer.nodes, reading.answer.entries], root)
}

impl Session {
    fn new() -> Self {
        Self { stores: Default::default(), used: [0, 0], values: Vec::new() }
    }

    /// Reads one more, in about as much room as it may need.
    fn read_more(&mut self, random: &mut Random, input: Vec<u8>) -> Result<&'static str, String> {
        let [mut nodes, mut entries, _] = std::mem::take(&mut self.stores);
        let room = input.len().saturating_sub(random.one_of(&[0, 0, 0, 2, 5]));
        nodes.resize(NODE_WIDTH * (self.used[0] as usize + room) + random.below(NODE_WIDTH), 7);
        entries.resize(2 * (self.used[1] as usize + room) + random.below(2), 7);
        let number = (0..).find(|number| self.values.iter().all(|value| value.number != *number)).unwrap_or(0);
        let asked = more::Ask {
            slots: input.len(),
            stores: [nodes, entries],
            nesting: MOST_NESTING,
            kept: self.used,
            number,
            input,
        };
        let answer = more::by_the_model(&asked);
        held::<Mores>(&asked, &answer)?;
        self.stores = answer.stores;
        if answer.read.refusal != ACCEPTED {
            return Ok("refused, and what was kept stays");
        }
        let input = asked.input[..answer.read.consumed as usize].to_vec();
        let alone = alone(&input, 0)?;
        self.values.push(Value { root: self.used[0], number, input, alone });
        self.used = [answer.read.nodes, answer.read.entries];
        Ok("values read behind others")
    }

    /// Keeps a node of one of the values.
    fn keep(&mut self, random: &mut Random) -> Result<&'static str, String> {
        let value = self.values.swap_remove(random.below(self.values.len()));
        let own = self.nodes_of(value.number);
        let node = if random.below(3) == 0 { value.root } else { own[random.below(own.len())] };
        let [nodes, entries, _] = &self.stores;
        let was = look(&value.input, nodes, entries, self.used, node)?;
        let stack = keep::need(self.used) + random.below(2);
        let asked = keep::Ask { stores: std::mem::take(&mut self.stores), used: self.used, node, stack };
        let answer = keep::by_the_model(&asked);
        held::<Keeps>(&asked, &answer)?;
        if answer.kept.refusal != ACCEPTED {
            return Err(format!("a session's node is not kept: {:?}", answer.kept));
        }
        self.stores = answer.stores;
        self.used = [answer.kept.nodes, answer.kept.entries];
        if self.nodes_of(value.number).len() != answer.kept.nodes as usize {
            return Err("a kept node names another input".to_string());
        }
        self.values = vec![Value { root: 0, alone: was, ..value }];
        Ok("parts kept")
    }

    /// The nodes that name an input.
    fn nodes_of(&self, number: u32) -> Vec<u32> {
        let used = self.stores[0].chunks_exact(NODE_WIDTH).take(self.used[0] as usize);
        (0..).zip(used).filter(|(_, node)| node[6] == number).map(|(at, _)| at).collect()
    }

    /// Every value is what it is alone.
    fn hold_values(&self) -> Result<(), String> {
        let [nodes, entries, _] = &self.stores;
        for Value { root, input, alone, .. } in &self.values {
            let found = look(input, nodes, entries, self.used, *root)?;
            if found != *alone {
                return Err(format!("{} at node {root}: {found:?} and not {alone:?}", hex(input)));
            }
        }
        Ok(())
    }
}

fn run(random: &mut Random, inputs: &mut impl Iterator<Item = read::Ask>, tally: &mut Tally) {
    let mut session = Session::new();
    for _ in 0..2 + random.below(8) {
        let step = if session.values.is_empty() || random.below(5) < 3 {
            let Some(read) = inputs.next() else { return };
            session.read_more(random, read.input)
        } else {
            session.keep(random)
        };
        let (class, outcome) = match step {
            Ok(class) => (class, session.hold_values()),
            Err(fault) => ("", Err(fault)),
        };
        let failed = outcome.is_err();
        tally.count(class, outcome);
        if failed {
            return;
        }
    }
}

pub fn hold(seed: u64, count: usize) -> bool {
    let tally = shares::tallied("sessions", |share: Share, tally| {
        for turn in share.cases(0..count as u64) {
            let mut random = Random::new(seed.wrapping_mul(0x9E37_79B9) ^ turn);
            run(&mut random, &mut random_inputs(seed ^ (turn << 20), usize::MAX), tally);
            if !tally.none_failed() {
                share.stop();
            }
        }
    });
    tally.finish()
}
