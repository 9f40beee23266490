//! Files for tests: the sample goldens, and a value of every kind with what is shared and nested.
use crate::files;
use sillgarland::{Golden, Reader};
use std::path::Path;

/// Of every letter that is read: shared within itself and behind, keys of several kinds, empty containers.
pub const EVERY_KIND: &[u8] =
    b"[\x12\0\0\0NFTS.i\xFF\xFF\xFF\xFFI\0\0\0\0\x01\0\0\0l\x02\0\0\0\x01\0\x02\0g\0\0\0\0\0\0\xF8\x3F\
y\0\0\0\0\0\0\xF8\x3F\0\0\0\0\0\0\0\x40\xF3\x03\0\0\0a\xFFbu\x02\0\0\0\xC3\xA9:NNi\x02\0\0\0\
{z\x04rows[\x02\0\0\0\xA9\x02TFr\x01\0\0\0r\0\0\0\0\x3C\x01\0\0\0Z\x01q)\x01z\x01k{0i\x07\0\0\0a\x01\0\0\0x0\
>\0\0\0\0(\x01\0\0\0)\x01r\x01\0\0\0A\x02\0\0\0hir\0\0\0\0";

/// Every sample by its name.
pub fn all() -> Vec<(String, Vec<u8>)> {
    let folder = Path::new(env!("CARGO_MANIFEST_DIR")).join("../../goldens");
    let files = std::fs::read_dir(folder).unwrap().map(|entry| entry.unwrap().path());
    let goldens = files.map(|path| (path.display().to_string(), std::fs::read(&path).unwrap()));
    goldens.chain([("every kind".to_string(), EVERY_KIND.to_vec())]).collect()
}

pub fn each_value(input: &[u8], mut act: impl FnMut(usize, Golden)) {
    let ended = files::for_each_value(&mut Reader::new(), input, |start, golden| {
        act(start, golden);
        Ok::<(), std::convert::Infallible>(())
    });
    ended.unwrap();
}

#[test]
fn the_value_of_every_kind_is_sound() {
    let mut letters = std::collections::BTreeSet::new();
    each_value(EVERY_KIND, |_, golden| letters.extend(golden.values().map(|value| value.letter())));
    assert_eq!(letters.into_iter().collect::<String>(), "().:<>AFINSTZ[agilsuyz{");
}
