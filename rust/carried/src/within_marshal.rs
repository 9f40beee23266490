// Stands below marshal.rs in the same module, and so reaches what is private there.

/// `deserialize_value` with a nesting allowance of the caller's choice.
pub fn deserialize_value_within<R: Read, Bag: MarshalBag>(
    rdr: &mut R,
    bag: Bag,
    allowance: usize,
) -> Result<Bag::Value> {
    deserialize_value_depth(rdr, bag, allowance, &mut Vec::new())
}
