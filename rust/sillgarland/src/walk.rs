//! A walk over a value and everything in it that meets each node once, however values are shared.
use crate::{Children, Value};

/// The values that [`Value::walk`] meets, each before its children.
#[derive(Clone, Debug)]
pub struct Walk<'a> {
    next: Option<Value<'a>>,
    open: Vec<Children<'a>>,
    met: Vec<u64>,
}

impl<'a> Value<'a> {
    /// This value and everything in it, depth first, each once: where a value is shared, its first visit counts.
    ///
    /// The natural recursion over [`children`](Self::children) visits a shared value as often as it is reached. Forty tuples of which
    /// each holds the one before twice are under 500 bytes and 2^40 visits, which never end; this walk meets 41 values.
    ///
    /// ```
    /// # fn forty() -> Vec<u8> {
    /// #     let mut input = b"(\x29\0\0\0\xA9\0".to_vec();
    /// #     for slot in 0..40_u8 {
    /// #         input.extend([0xA9, 2, b'r', slot, 0, 0, 0, b'r', slot, 0, 0, 0]);
    /// #     }
    /// #     input
    /// # }
    /// let input = forty(); // a tuple of the empty tuple and of forty that hold the one before twice
    /// let mut reader = sillgarland::Reader::new();
    /// let last = reader.read(&input)?.root().children().last().unwrap();
    /// assert_eq!(last.walk().count(), 41);
    /// # Ok::<(), sillgarland::Refused>(())
    /// ```
    pub fn walk(self) -> Walk<'a> {
        let words = self.golden.nodes.len().div_ceil(64);
        let mut walk = Walk { next: Some(self), open: Vec::new(), met: vec![0; words] };
        walk.meet(self);
        walk
    }
}

impl<'a> Walk<'a> {
    /// Whether a value is met for the first time.
    fn meet(&mut self, value: Value<'a>) -> bool {
        let (word, bit) = (&mut self.met[value.node() as usize / 64], 1 << (value.node() % 64));
        let first = *word & bit == 0;
        *word |= bit;
        first
    }

    /// The next child that is yet to be met, of the innermost value that has one.
    fn next_child(&mut self) -> Option<Value<'a>> {
        loop {
            match self.open.last_mut()?.next() {
                Some(child) if self.meet(child) => return Some(child),
                Some(_) => {}
                None => drop(self.open.pop()),
            }
        }
    }
}

impl<'a> Iterator for Walk<'a> {
    type Item = Value<'a>;

    fn next(&mut self) -> Option<Value<'a>> {
        let value = self.next.take().or_else(|| self.next_child())?;
        self.open.push(value.children());
        Some(value)
    }
}

#[cfg(test)]
mod tests {
    use crate::{Reader, Value};

    fn nodes(input: &[u8]) -> Vec<u32> {
        Reader::new().read(input).unwrap().root().walk().map(Value::node).collect()
    }

    #[test]
    fn each_value_once_and_before_its_children() {
        assert_eq!(nodes(b"N"), [0]);
        assert_eq!(nodes(b")\x02)\x02NT)\x01F"), [0, 1, 2, 3, 4, 5]);
        assert_eq!(nodes(b")\x03\xE9\x05\0\0\0r\0\0\0\0)\x01r\0\0\0\0"), [0, 1, 2]);
    }

    #[test]
    fn only_what_is_below() {
        let mut reader = Reader::new();
        let golden = reader.read(b")\x02\xA9\x01N)\x02Tr\0\0\0\0").unwrap();
        let last = golden.root().children().last().unwrap();
        let met: Vec<u32> = last.walk().map(Value::node).collect();
        assert_eq!((met, golden.values().len()), (vec![3, 4, 1, 2], 5));
    }
}
