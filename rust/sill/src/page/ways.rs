//! The ways from a value's root to its nodes, all found in one walk.
use crate::diff::named_step;
use sillgarland::{Golden, Step, Value};

/// Of each node the value that it stands in, as its number and which of its children, and the child before it.
pub struct Ways {
    above: Vec<Option<Above>>,
}

#[derive(Clone, Copy)]
struct Above {
    parent: u32,
    at: usize,
    before: Option<u32>,
}

impl Ways {
    /// A node may be a child of many. Where it stands itself, and not a reference to it, is the last of those whose headers are
    /// before its own: values that only refer to it begin behind it, or hold that one too and begin before it.
    pub fn of(golden: Golden) -> Self {
        let mut above: Vec<Option<Above>> = vec![None; golden.values().len()];
        for parent in golden.values() {
            let mut before = None;
            for (at, child) in parent.children().enumerate() {
                let known = &mut above[child.node() as usize];
                let begins_before = parent.node() < child.node();
                if begins_before && known.is_none_or(|above| above.parent != parent.node()) {
                    *known = Some(Above { parent: parent.node(), at, before });
                }
                before = Some(child.node());
            }
        }
        Self { above }
    }

    /// The steps from the root to a node, each with the child before the one that it leads to.
    pub fn steps<'a>(&self, values: &[Value<'a>], mut node: u32) -> Vec<(Step, Option<Value<'a>>)> {
        let mut steps = Vec::new();
        while let Some(Above { parent, at, before }) = self.above[node as usize] {
            let step = Step::to_child(values[parent as usize], at);
            steps.push((step, before.map(|key| values[key as usize])));
            node = parent;
        }
        steps.reverse();
        steps
    }

    /// `.constants[2]["rows"]`, from the root to a node; nothing for the root itself.
    pub fn to(&self, values: &[Value], node: u32) -> String {
        let steps = self.steps(values, node).into_iter().map(|(step, before)| named_step(step, before));
        shown(&steps.collect::<Vec<_>>())
    }
}

/// `value 2 .constants[0]`: a way in the file, from one of its values on.
pub fn way(value: usize, steps: &str) -> String {
    let space = if steps.is_empty() { "" } else { " " };
    format!("value {value}{space}{steps}")
}

/// How many steps of a long way are shown, at its beginning and at its end.
const FIRST: usize = 8;
const LAST: usize = 16;

/// A way on one line; the middle of a long one is left out, and told.
pub fn shown(steps: &[String]) -> String {
    if steps.len() <= FIRST + LAST {
        return steps.concat();
    }
    let (first, rest) = steps.split_at(FIRST);
    let (left, last) = rest.split_at(rest.len() - LAST);
    format!("{} … {} steps … {}", first.concat(), left.len(), last.concat())
}

#[cfg(test)]
mod tests {
    use super::*;
    use sillgarland::Reader;

    fn ways(input: &[u8]) -> Vec<String> {
        let mut reader = Reader::new();
        let golden = reader.read(input).unwrap();
        let (ways, values) = (Ways::of(golden), golden.values().collect::<Vec<_>>());
        (0..values.len()).map(|node| ways.to(&values, node as u32)).collect()
    }

    #[test]
    fn where_a_node_stands() {
        assert_eq!(ways(b")\x02)\x01NT"), ["", "[0]", "[0][0]", "[1]"]);
        assert_eq!(ways(b"{z\x04rows)\x01NNT0"), ["", "{key 0}", "[\"rows\"]", "[\"rows\"][0]", "{key 1}", "[None]"]);
    }

    /// Not where references name it, be they in what it stands in or behind it.
    #[test]
    fn a_shared_node_stands_once() {
        assert_eq!(ways(b")\x02)\x02\xCEr\0\0\0\0r\0\0\0\0"), ["", "[0]", "[0][0]"]);
        assert_eq!(ways(b")\x02\xCE)\x02Tr\0\0\0\0"), ["", "[0]", "[1]", "[1][0]"]);
    }

    #[test]
    fn a_long_way_is_cut() {
        let deep = [b")\x01".repeat(30), b"N".to_vec()].concat();
        assert_eq!(ways(&deep)[30], format!("{} … 6 steps … {}", "[0]".repeat(8), "[0]".repeat(16)));
    }
}
