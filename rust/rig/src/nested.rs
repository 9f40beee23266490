//! Values nested so deep, for the limits of nesting and of the stack.

/// A value that needs just this nesting (code: up to two less): tuples, lists, dict keys, dict values, slices, code.
pub fn nested(levels: usize, kind: usize) -> Vec<u8> {
    let (open, close, each): (&[u8], &[u8], usize) = match kind {
        0 => (b")\x01", b"", 1),
        1 => (b"\xDB\x01\0\0\0", b"", 1),
        2 => (b"{", b"N0", 1),
        3 => (b"{N", b"\xB0", 1),
        4 => (b":NN", b"", 1),
        _ => (CODE_BEFORE, CODE_AFTER, 3),
    };
    let inner = (levels - 1) / each;
    [open.repeat(inner), b"N".to_vec(), close.repeat(inner)].concat()
}

/// A code object around one constant.
const CODE_BEFORE: &[u8] = b"c\0\0\0\0\0\0\0\0\0\0\0\0\0\0\0\0\0\0\0\0s\0\0\0\0)\x01";
const CODE_AFTER: &[u8] = b")\0)\0s\0\0\0\0z\0z\0z\0\x01\0\0\0s\0\0\0\0s\0\0\0\0";
