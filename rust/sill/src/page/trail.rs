//! The way to a byte of a value that is refused. Such a reading leaves no nodes, so the headers up to the byte are followed here, by
//! their letters and lengths alone: all before the place of a refusal is sound. Held to the port's nodes by a test, not proved.
use super::ways;
use crate::diff::named_step;
use crate::files;
use sillgarland::{Golden, Reader, Step};

/// The way from the value that begins at `start` to the value that the byte at `place` belongs to, or that is missing there.
pub fn way_to(input: &[u8], start: usize, place: usize) -> String {
    let steps: Vec<String> = followed(input, start, place).iter().map(|open| open.named(input)).collect();
    ways::shown(&steps)
}

/// A container on the way: what has begun in it, how much is yet to come, and where its last key stands.
struct Open {
    letter: u8,
    begun: usize,
    left: usize,
    key: usize,
}

/// A code object's first line stands between its parts, behind so many.
const FIRST_LINE: usize = 8;
/// What ends a dict; a value may not begin so.
const NULL: u8 = b'0';

/// The containers that are open at a place, each with the child that leads on.
fn followed(input: &[u8], start: usize, place: usize) -> Vec<Open> {
    let (mut open, mut at): (Vec<Open>, _) = (Vec::new(), start);
    loop {
        let header = input.get(at).map_or(NULL, |header| header & 0x7F);
        if let Some(field) = open.last_mut().and_then(|innermost| innermost.pass_field(header)) {
            at += field;
            if place < at {
                open.pop();
                return open;
            }
        } else {
            open.iter_mut().next_back().into_iter().for_each(|innermost| innermost.begin_child(at));
            let (own, left) = own_bytes(header, input.get(at + 1..).unwrap_or_default());
            if place <= at.saturating_add(own) {
                return open;
            }
            at += 1 + own;
            open.push(Open { letter: header, begun: 0, left, key: 0 });
        }
        while open.last().is_some_and(|innermost| innermost.left == 0) {
            open.pop();
        }
        if open.is_empty() {
            return open;
        }
    }
}

impl Open {
    /// How many bytes stand here that are no child: a code object's first line, a dict's end.
    fn pass_field(&mut self, header: u8) -> Option<usize> {
        match self.letter {
            b'c' if self.begun == FIRST_LINE => {
                (self.begun, self.left) = (self.begun + 1, self.left - 1);
                Some(4)
            }
            b'{' if self.begun.is_multiple_of(2) && header == NULL => {
                self.left = 0;
                Some(1)
            }
            _ => None,
        }
    }

    fn begin_child(&mut self, at: usize) {
        if self.begun.is_multiple_of(2) {
            self.key = at;
        }
        (self.begun, self.left) = (self.begun + 1, self.left - 1);
    }

    fn step(&self) -> Step {
        let at = self.begun - 1;
        match self.letter {
            b'c' => Step::Part(at - usize::from(at > FIRST_LINE)),
            b'{' if at.is_multiple_of(2) => Step::Key(at / 2),
            b'{' => Step::ValueOf(at / 2),
            _ => Step::Member(at),
        }
    }

    /// The step as people read it: to a dict's value by its key, where that holds no other value and refers to none.
    fn named(&self, input: &[u8]) -> String {
        let (step, mut reader) = (self.step(), Reader::new());
        let is_alone = input.get(self.key).is_some_and(|header| !b"()[<>:{cr".contains(&(header & 0x7F)));
        let key = match step {
            Step::ValueOf(_) if is_alone => files::read_value(&mut reader, input, self.key).ok(),
            _ => None,
        };
        named_step(step, key.map(Golden::root))
    }
}

/// How many bytes of its own stand behind a header, and how many children follow them, a code object's first line among them.
fn own_bytes(letter: u8, behind: &[u8]) -> (usize, usize) {
    let number = || behind.first_chunk().map_or(0, |field| i32::from_le_bytes(*field));
    let (length, short) = (number().max(0) as usize, usize::from(*behind.first().unwrap_or(&0)));
    match letter {
        b'i' | b'r' => (4, 0),
        b'I' | b'g' => (8, 0),
        b'y' => (16, 0),
        b'l' => (4 + 2 * number().unsigned_abs() as usize, 0),
        b's' | b'u' | b't' | b'a' | b'A' => (4 + length, 0),
        b'z' | b'Z' => (1 + short, 0),
        b'(' | b'[' | b'<' | b'>' => (4, length),
        b')' => (1, short),
        b':' => (0, 3),
        b'{' => (0, usize::MAX),
        b'c' => (20, 11),
        _ => (0, 0),
    }
}

#[cfg(test)]
mod tests {
    use super::super::ways::Ways;
    use super::*;
    use crate::samples;
    use sillgarland::Value;

    /// Where nodes are known, the way to a node's header, and to each byte of its own, is the way to the node.
    #[test]
    fn ways_of_samples() {
        for (path, input) in samples::all() {
            samples::each_value(&input, |start, golden| {
                let ways = Ways::of(golden);
                let values: Vec<Value> = golden.values().collect();
                for value in &values {
                    let span = value.span();
                    let own = if value.children().len() > 0 { span.start } else { span.end - 1 };
                    let known: Vec<Step> = ways.steps(&values, value.node()).iter().map(|step| step.0).collect();
                    for at in [span.start, own].map(|at| start + at) {
                        let steps: Vec<Step> = followed(&input, start, at).iter().map(Open::step).collect();
                        assert_eq!(steps, known, "{path} at byte {at}");
                    }
                }
            });
        }
    }

    #[test]
    fn bytes_between_children() {
        let dict = b"{z\x01k)\x01NT?";
        assert_eq!(way_to(dict, 0, 6), "[\"k\"][0]");
        assert_eq!((way_to(dict, 0, 7), way_to(dict, 0, 8)), ("{key 1}".to_string(), "[True]".to_string()));
        let code = [b"c", &[0; 20][..], b"s\0\0\0\0)\0)\0)\0s\0\0\0\0z\0z\0z\0", b"\x01\0\0\0N"].concat();
        assert_eq!(way_to(&code, 0, 43), "", "the first line is the code object's");
        assert_eq!(way_to(&code, 0, 47), ".line_table");
        assert_eq!(way_to(&code, 0, 36), ".kinds");
    }

    /// References by their index, and what the file ends before.
    #[test]
    fn what_is_no_node() {
        assert_eq!(way_to(b")\x02Nr\x09\0\0\0", 0, 4), "[1]");
        assert_eq!(way_to(b"(\x05\0\0\0NN", 0, 7), "[2]");
        assert_eq!(way_to(b"NN)\x01?", 2, 4), "[0]");
        assert_eq!((way_to(b"", 0, 0), way_to(b"(\xFF\xFF\xFF\xFF", 0, 1)), (String::new(), String::new()));
    }

    /// Where a key cannot be read by itself it is told by its number.
    #[test]
    fn keys_that_hold_others() {
        assert_eq!(way_to(b"{)\x01N)\x01?", 0, 6), "{value of key 0}[0]");
        assert_eq!(way_to(b"{\xDA\x01kNr\0\0\0\0)\x01?", 0, 12), "{value of key 1}[0]");
    }
}
