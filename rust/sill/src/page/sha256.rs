//! SHA-256 (FIPS 180-4) as a content security policy has it: by it a browser knows the page's own script and style.

/// The hash of a text in base 64.
pub fn base64_of(text: &str) -> String {
    base64(&hash(text.as_bytes()))
}

/// The first 32 bits of the fractional parts of the square roots, and below of the cube roots, of the first primes.
const START: [u32; 8] =
    [0x6a09e667, 0xbb67ae85, 0x3c6ef372, 0xa54ff53a, 0x510e527f, 0x9b05688c, 0x1f83d9ab, 0x5be0cd19];

#[rustfmt::skip]
const ROUNDS: [u32; 64] = [
    0x428a2f98, 0x71374491, 0xb5c0fbcf, 0xe9b5dba5, 0x3956c25b, 0x59f111f1, 0x923f82a4, 0xab1c5ed5,
    0xd807aa98, 0x12835b01, 0x243185be, 0x550c7dc3, 0x72be5d74, 0x80deb1fe, 0x9bdc06a7, 0xc19bf174,
    0xe49b69c1, 0xefbe4786, 0x0fc19dc6, 0x240ca1cc, 0x2de92c6f, 0x4a7484aa, 0x5cb0a9dc, 0x76f988da,
    0x983e5152, 0xa831c66d, 0xb00327c8, 0xbf597fc7, 0xc6e00bf3, 0xd5a79147, 0x06ca6351, 0x14292967,
    0x27b70a85, 0x2e1b2138, 0x4d2c6dfc, 0x53380d13, 0x650a7354, 0x766a0abb, 0x81c2c92e, 0x92722c85,
    0xa2bfe8a1, 0xa81a664b, 0xc24b8b70, 0xc76c51a3, 0xd192e819, 0xd6990624, 0xf40e3585, 0x106aa070,
    0x19a4c116, 0x1e376c08, 0x2748774c, 0x34b0bcb5, 0x391c0cb3, 0x4ed8aa4a, 0x5b9cca4f, 0x682e6ff3,
    0x748f82ee, 0x78a5636f, 0x84c87814, 0x8cc70208, 0x90befffa, 0xa4506ceb, 0xbef9a3f7, 0xc67178f2,
];

fn hash(message: &[u8]) -> [u8; 32] {
    let (blocks, rest) = message.as_chunks::<64>();
    let mut last = rest.to_vec();
    last.push(0x80);
    last.resize(if last.len() > 56 { 120 } else { 56 }, 0);
    last.extend((8 * message.len() as u64).to_be_bytes());
    let state = blocks.iter().chain(last.as_chunks::<64>().0).fold(START, compressed);
    let mut hash = [0; 32];
    hash.as_chunks_mut::<4>().0.iter_mut().zip(state).for_each(|(bytes, word)| *bytes = word.to_be_bytes());
    hash
}

fn compressed(state: [u32; 8], block: &[u8; 64]) -> [u32; 8] {
    let words = schedule(block);
    let mut after = state;
    for (word, round) in words.into_iter().zip(ROUNDS) {
        let [a, b, c, d, e, f, g, h] = after;
        let (big_e, big_a) = (turned(e, [6, 11, 25]), turned(a, [2, 13, 22]));
        let chosen = (e & f) ^ (!e & g);
        let one = [big_e, chosen, round, word].into_iter().fold(h, u32::wrapping_add);
        let two = big_a.wrapping_add((a & b) ^ (a & c) ^ (b & c));
        after = [one.wrapping_add(two), a, b, c, d.wrapping_add(one), e, f, g];
    }
    std::array::from_fn(|at| state[at].wrapping_add(after[at]))
}

fn turned(word: u32, by: [u32; 3]) -> u32 {
    by.into_iter().fold(0, |turned, by| turned ^ word.rotate_right(by))
}

fn schedule(block: &[u8; 64]) -> [u32; 64] {
    let mut words = [0; 64];
    words.iter_mut().zip(block.as_chunks::<4>().0).for_each(|(word, bytes)| *word = u32::from_be_bytes(*bytes));
    for at in 16..64 {
        let (near, far) = (words[at - 2], words[at - 15]);
        let small = far.rotate_right(7) ^ far.rotate_right(18) ^ far >> 3;
        let great = near.rotate_right(17) ^ near.rotate_right(19) ^ near >> 10;
        words[at] = [small, words[at - 7], great].into_iter().fold(words[at - 16], u32::wrapping_add);
    }
    words
}

fn base64(bytes: &[u8]) -> String {
    const LETTERS: &[u8; 64] = b"ABCDEFGHIJKLMNOPQRSTUVWXYZabcdefghijklmnopqrstuvwxyz0123456789+/";
    let mut shown = String::new();
    for three in bytes.chunks(3) {
        let bits = (0..3).fold(0, |bits, at| bits << 8 | u32::from(*three.get(at).unwrap_or(&0)));
        for at in 0..4 {
            let letter = LETTERS[(bits >> (18 - 6 * at) & 63) as usize] as char;
            shown.push(if at <= three.len() { letter } else { '=' });
        }
    }
    shown
}

#[cfg(test)]
mod tests {
    use super::*;

    fn hexadecimal(message: &[u8]) -> String {
        crate::json::hex(&hash(message))
    }

    /// The examples of FIPS 180-4, and lengths about a block's end: known from another implementation.
    #[test]
    fn known_hashes() {
        let known = [
            (&b""[..], "e3b0c44298fc1c149afbf4c8996fb92427ae41e4649b934ca495991b7852b855"),
            (b"abc", "ba7816bf8f01cfea414140de5dae2223b00361a396177a9cb410ff61f20015ad"),
            (&[b'a'; 55], "9f4390f8d30c2dd92ec9f095b65e2b9ae9b0a925a5258e241c9f1e910f734318"),
            (&[b'a'; 56], "b35439a4ac6f0948b6d6f9e3c6af0f5f590ce20f1bde7090ef7970686ec6738a"),
            (&[b'a'; 64], "ffe054fe7ae0cb6dc65c3af9b61d5209f439851db43d0ba5997337df154668eb"),
            (&[b'a'; 1_000_000], "cdc76e5c9914fb9281a1c7e284d73e67f1809a48a497200e046d39ccc7112cd0"),
        ];
        for (message, hash) in known {
            assert_eq!(hexadecimal(message), hash, "{} bytes", message.len());
        }
    }

    #[test]
    fn ends_of_base_64() {
        assert_eq!(
            (base64(b"a"), base64(b"ab"), base64(b"abc\xFF\xFE")),
            ("YQ==".into(), "YWI=".into(), "YWJj//4=".into())
        );
    }
}
