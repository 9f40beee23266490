//! A session: values read one behind another into stores that are kept, and of which one value at a time can be moved to the front.
//! The session owns the inputs, so that every value is asked about with the input that its node names.
use crate::reader::{FIRST_ROOM, asks_for_room, more_room};
use crate::{Golden, MOST_RECORDS, Place, Reader, Refused, Value};
use std::fmt;
use std::sync::atomic::{AtomicU64, Ordering};

/// Values that are kept and read side by side. An interactive program keeps one part of a value, reads more behind it, and goes on so
/// without the stores growing: [`keep`](Self::keep) reclaims what the part does not need.
///
/// ```
/// use sillgarland::Session;
///
/// let mut session = Session::new();
/// let expected = session.read(b")\x02T[\x02\0\0\0\xE9\x05\0\0\0r\0\0\0\0")?;
/// let row = session.value(expected).children().last().unwrap();
///
/// let kept = session.keep(session.held(row)); // the list alone, with its one shared number
/// assert_eq!((kept.nodes, kept.entries), (2, 2));
///
/// let found = session.read_more(b"(\x02\0\0\0i\x05\0\0\0i\x06\0\0\0")?; // from another input
/// let [first, second] = [kept.value, found].map(|held| session.value(held).children().next().unwrap());
/// assert_eq!(first, second); // each from its own input
/// assert_eq!(session.value(kept.value).written()?, b"[\x02\0\0\0i\x05\0\0\0i\x05\0\0\0");
/// assert!(session.get(expected).is_none()); // it was not kept
/// # Ok::<(), sillgarland::Refused>(())
/// ```
///
/// [`read`](Self::read) begins anew; [`read_more`](Self::read_more) goes on behind what is there, and where it is refused all that was
/// there stays. Together the values of a session may have [`MOST_RECORDS`] nodes and as many entries.
pub struct Session {
    reader: Reader,
    /// By their numbers; none where no value names it any more.
    inputs: Vec<Option<Box<[u8]>>>,
    used: [usize; 2],
    stack: Vec<u32>,
    /// Which session this is, and how often its values have been replaced.
    turn: Turn,
}

#[derive(Clone, Copy, Debug, PartialEq, Eq, Hash)]
struct Turn {
    session: u64,
    number: u64,
}

/// A value of a [`Session`], by name. It stands for the same value until the session's next [`keep`](Session::keep) or
/// [`read`](Session::read), and for none afterwards; in another session it never stands for one.
#[derive(Clone, Copy, Debug, PartialEq, Eq, Hash)]
pub struct Held {
    turn: Turn,
    node: u32,
}

/// What became of a [`keep`](Session::keep).
#[derive(Clone, Copy, Debug, PartialEq, Eq)]
pub struct Kept {
    /// The value that is kept, the same as before.
    pub value: Held,
    /// How many nodes and entries it takes.
    pub nodes: usize,
    /// Its entries.
    pub entries: usize,
    /// How many nodes more the stores have room for, before they grow.
    pub free_nodes: usize,
    /// How many entries more.
    pub free_entries: usize,
}

impl Default for Session {
    fn default() -> Self {
        Self::with(Reader::new())
    }
}

impl Session {
    /// A session without values.
    pub fn new() -> Self {
        Self::default()
    }

    /// A session that allows no deeper nesting; more than [`MOST_NESTING`](crate::MOST_NESTING) counts as that.
    pub fn allowing(nesting: u32) -> Self {
        Self::with(Reader::allowing(nesting))
    }

    fn with(reader: Reader) -> Self {
        static SESSIONS: AtomicU64 = AtomicU64::new(0);
        let session = SESSIONS.fetch_add(1, Ordering::Relaxed);
        Self { reader, inputs: Vec::new(), used: [0, 0], stack: Vec::new(), turn: Turn { session, number: 0 } }
    }

    /// Reads the value that the input begins with, in place of all values of the session. Refused, the session has none. The bytes of
    /// the value are copied; [`consumed`](Self::consumed) says how many they are.
    pub fn read(&mut self, input: &[u8]) -> Result<Held, Refused> {
        self.turn.number += 1;
        self.inputs.clear();
        self.used = [0, 0];
        let golden = self.reader.read(input)?;
        self.used = [golden.nodes.len(), golden.entries.len()];
        self.inputs.push(Some(input[..golden.consumed].into()));
        Ok(Held { turn: self.turn, node: 0 })
    }

    /// Reads the value that the input begins with behind those of the session, which stay, also where this one is refused.
    pub fn read_more(&mut self, input: &[u8]) -> Result<Held, Refused> {
        let number = self.inputs.iter().position(Option::is_none).unwrap_or(self.inputs.len());
        let [nodes, entries] = self.used;
        let enough = MOST_RECORDS.min(input.len() + nodes.max(entries));
        let mut room = enough.min(nodes.max(entries) + FIRST_ROOM);
        let answer = loop {
            let answer = self.try_read_more(input, room, number as u32);
            match Refused::unless_accepted(answer.refusal, |_| Place::Byte(answer.place as usize)) {
                Ok(()) => break answer,
                Err(refused) if asks_for_room(refused.refusal) && room < enough => room = more_room(room, enough),
                Err(refused) => return Err(refused),
            }
        };
        if number == self.inputs.len() {
            self.inputs.push(None);
        }
        self.inputs[number] = Some(input[..answer.consumed as usize].into());
        self.used = [answer.nodes as usize, answer.entries as usize];
        Ok(Held { turn: self.turn, node: nodes as u32 })
    }

    /// Keeps this value alone: it and everything in it move to the front of the stores, and all other values and inputs go. The value is
    /// the same, and what was shared in it stays shared.
    ///
    /// # Panics
    ///
    /// If the session has no such value any more.
    pub fn keep(&mut self, value: Held) -> Kept {
        let number = self.input_of(value).expect(GONE);
        let answer = self.try_keep(value.node);
        assert_eq!(answer.refusal, 0, "what was read is sound, and the stack is as long as is asked for");
        self.inputs.iter_mut().enumerate().filter(|(at, _)| *at != number).for_each(|(_, input)| *input = None);
        let [nodes, entries, free_nodes, free_entries] =
            [answer.nodes, answer.entries, answer.free_nodes, answer.free_entries].map(|count| count as usize);
        self.used = [nodes, entries];
        self.turn.number += 1;
        Kept { value: Held { turn: self.turn, node: 0 }, nodes, entries, free_nodes, free_entries }
    }

    /// The value, to be walked, asked and written; none where it was not kept.
    pub fn get(&self, value: Held) -> Option<Value<'_>> {
        let input = self.inputs[self.input_of(value)?].as_deref()?;
        let [nodes, entries] = self.used;
        let (nodes, entries) = self.reader.first(nodes, entries);
        Some(Golden { input, nodes, entries, consumed: input.len(), in_session: true }.value(value.node))
    }

    /// The value, to be walked, asked and written.
    ///
    /// # Panics
    ///
    /// If the session has no such value any more; [`get`](Self::get) then gives none.
    pub fn value(&self, value: Held) -> Value<'_> {
        self.get(value).expect(GONE)
    }

    /// A name for a value of this session, or for one that is in it, that does not borrow the session.
    ///
    /// # Panics
    ///
    /// If the value is not of this session.
    pub fn held(&self, value: Value) -> Held {
        let own = self.reader.first(self.used[0], self.used[1]).0;
        assert!(std::ptr::eq(own, value.golden.nodes), "the value is not of this session");
        Held { turn: self.turn, node: value.node() }
    }

    /// How many bytes the value took from the start of its input, of which the session has a copy; of a part those of the whole.
    pub fn consumed(&self, value: Held) -> Option<usize> {
        self.inputs[self.input_of(value)?].as_ref().map(|input| input.len())
    }

    /// How many nodes and entries the values of the session take.
    pub fn used(&self) -> [usize; 2] {
        self.used
    }

    /// The number of the input that a value names, if the session has it.
    fn input_of(&self, value: Held) -> Option<usize> {
        let [nodes, entries] = self.used;
        let record = self.reader.first(nodes, entries).0.get(value.node as usize)?;
        (value.turn == self.turn).then_some(record[6] as usize)
    }

    fn try_read_more(&mut self, input: &[u8], room: usize, number: u32) -> sillgarland_sys::Read {
        let ([kept_nodes, kept_entries], nesting) = (self.used.map(|used| used as u32), self.reader.nesting());
        let [nodes, entries, slots] = self.reader.stores(room);
        // SAFETY: four slices of their own, each handed on by its pointer and its length.
        unsafe {
            sillgarland_sys::sill_read_more(
                input.as_ptr(),
                input.len(),
                nodes.as_mut_ptr(),
                nodes.len(),
                entries.as_mut_ptr(),
                entries.len(),
                slots.as_mut_ptr(),
                slots.len(),
                nesting,
                kept_nodes,
                kept_entries,
                number,
            )
        }
    }

    fn try_keep(&mut self, node: u32) -> sillgarland_sys::Kept {
        let [used_nodes, used_entries] = self.used.map(|used| used as u32);
        let need = sillgarland_sys::sill_keep_need(used_nodes, used_entries) as usize;
        if self.stack.len() < need {
            self.stack.resize(need, 0);
        }
        let [nodes, entries, slots] = self.reader.all_stores();
        // SAFETY: four slices of their own, each handed on by its pointer and its length.
        unsafe {
            sillgarland_sys::sill_keep(
                nodes.as_mut_ptr(),
                nodes.len(),
                entries.as_mut_ptr(),
                entries.len(),
                slots.as_mut_ptr(),
                slots.len(),
                used_nodes,
                used_entries,
                node,
                self.stack.as_mut_ptr(),
                need,
            )
        }
    }
}

const GONE: &str = "the session has no such value any more";

impl fmt::Debug for Session {
    fn fmt(&self, f: &mut fmt::Formatter) -> fmt::Result {
        let inputs = self.inputs.iter().flatten().count();
        write!(f, "Session of {} nodes, {} entries and {inputs} inputs", self.used[0], self.used[1])
    }
}

#[cfg(test)]
mod tests {
    use super::*;
    use crate::code::tests::put_code;
    use crate::{Lines, MOST_NESTING, Records, Refusal};

    fn list_of(count: u32, letter: u8) -> Vec<u8> {
        [b"[".as_slice(), &count.to_le_bytes(), &vec![letter; count as usize]].concat()
    }

    /// What the value has in every way in which it can be asked, alone and in the session.
    fn alike(session: &Session, held: Held, alone: &[u8]) {
        let mut reader = Reader::new();
        let (value, other) = (session.value(held), reader.read(alone).unwrap().root());
        assert_eq!(value, other);
        assert_eq!(value.written(), other.written());
        assert_eq!((value.standing().closed, value.to_owned_value()), (true, other.to_owned_value()));
        assert_eq!(session.consumed(held), Some(alone.len()));
        for (one, two) in value.walk().zip(other.walk()) {
            let bytes = |value: Value| value.golden.bytes_of(value.span());
            assert_eq!((bytes(one), one.alone()), (bytes(two), two.alone()));
            assert_eq!(one.content(), two.content());
            assert_eq!(session.value(session.held(one)), one);
        }
    }

    #[test]
    fn each_value_is_asked_with_its_own_input() {
        let code = put_code(3, &["a", "b"], &[0x20, 0x40], 10, &[0xE9, 0x02]);
        let inputs: [&[u8]; 4] = [b")\x02\xE9\x05\0\0\0r\0\0\0\0", &code, b"i\x07\0\0\0", b"[\x01\0\0\0z\x03abc"];
        let mut session = Session::new();
        let mut held = vec![session.read(inputs[0]).unwrap()];
        held.extend(inputs[1..].iter().map(|input| session.read_more(input).unwrap()));
        for (held, input) in held.iter().zip(inputs) {
            alike(&session, *held, input);
        }
        let mut records = Records::default();
        let located = session.value(held[1]).as_code().unwrap();
        assert!(matches!(located.lines(&mut records), Ok(Lines::NotWhole(lines)) if lines.counts().from_entries == 2));
        for (at, input) in inputs.iter().enumerate().rev() {
            let kept = session.keep(held[at]).value;
            alike(&session, kept, input);
            held.iter().for_each(|gone| assert!(session.get(*gone).is_none()));
            held = vec![kept];
            held.extend(inputs[..at].iter().map(|input| session.read_more(input).unwrap()));
            held.rotate_left(1);
        }
    }

    #[test]
    fn what_is_kept_stays_where_more_is_refused() {
        let mut session = Session::new();
        let first = session.read(b")\x02\xE9\x05\0\0\0r\0\0\0\0").unwrap();
        let refused = session.read_more(b")\x02Tu\x09\0\0\0a").unwrap_err();
        assert_eq!((refused.refusal, refused.place), (Refusal::DataTooShort, Place::Byte(8)));
        alike(&session, first, b")\x02\xE9\x05\0\0\0r\0\0\0\0");
        let refused = session.read_more(b"r\0\0\0\0").unwrap_err();
        assert_eq!(refused.refusal, Refusal::InvalidRef); // the slots of the first are not the second's
        let kept = session.keep(first);
        assert_eq!((kept.nodes, kept.entries, kept.free_nodes >= 10), (2, 2, true));
        alike(&session, kept.value, b")\x02\xE9\x05\0\0\0r\0\0\0\0");
        assert!(session.read(b"0").is_err() && session.get(kept.value).is_none());
        assert_eq!(session.used(), [0, 0]);
    }

    /// A part with a value in it that stands before the part itself.
    #[test]
    fn a_part_is_moved_with_what_it_shares() {
        let mut session = Session::new();
        let whole = session.read(b")\x03\xFA\x03abcN[\x02\0\0\0r\0\0\0\0T").unwrap();
        let part = session.value(whole).children().last().unwrap();
        let not = part.alone().unwrap_err();
        let kept = session.keep(session.held(part));
        assert_eq!((kept.nodes, kept.entries), (3, 2));
        let value = session.value(kept.value);
        assert_eq!(value.walk().map(Value::node).collect::<Vec<_>>(), [0, 1, 2]);
        assert_eq!((value.written().unwrap(), value.span()), (b"[\x02\0\0\0u\x03\0\0\0abcT".to_vec(), 8..19));
        assert_eq!(value.alone().unwrap_err(), not);
        assert_eq!(value.to_owned_value(), value);
    }

    #[test]
    fn stores_grow_behind_what_is_kept() {
        let mut session = Session::new();
        let kept = session.read(b")\x01N").unwrap();
        for count in [0, 1, 15, 16, 17, 1_000, 100_000] {
            let input = list_of(count, b'T' | 0x80);
            let more = session.read_more(&input).unwrap();
            assert_eq!(session.value(more).children().len(), count as usize);
            alike(&session, kept, b")\x01N");
        }
        assert_eq!(session.used()[0], 2 + 7 + 101_049);
    }

    #[test]
    fn kept_and_new_together_have_document_01s_limit() {
        let half = list_of(MOST_RECORDS as u32 / 2 - 1, b'N');
        let mut session = Session::new();
        let first = session.read(&half).unwrap();
        session.read_more(&half).unwrap();
        let refused = session.read_more(b"N").unwrap_err();
        assert_eq!((refused.refusal, refused.place), (Refusal::NoNode, Place::Byte(0)));
        let kept = session.keep(first);
        assert_eq!((kept.nodes, kept.free_nodes), (MOST_RECORDS / 2, MOST_RECORDS / 2));
        session.read_more(&half).unwrap();
    }

    #[test]
    fn a_full_nesting_is_kept_and_read_behind() {
        let deep = [b")\x01".repeat(MOST_NESTING as usize - 1).as_slice(), b"N"].concat();
        let mut session = Session::new();
        let first = session.read(&deep).unwrap();
        let kept = session.keep(first).value;
        let more = session.read_more(&deep).unwrap();
        assert_eq!(session.value(kept), session.value(more));
    }

    #[test]
    #[should_panic = "the session has no such value any more"]
    fn a_value_of_another_session_is_none() {
        let (mut one, mut other) = (Session::new(), Session::new());
        let held = one.read(b"N").unwrap();
        other.read(b"N").unwrap();
        other.value(held);
    }

    #[test]
    #[should_panic = "the value is not of this session"]
    fn a_value_of_a_reader_is_not_of_a_session() {
        let mut session = Session::new();
        session.read(b"N").unwrap();
        session.held(Reader::new().read(b"N").unwrap().root());
    }
}
