//! The examples of the repository.
use btcheck::Session;
use std::fs;

pub fn example(name: &str) -> Vec<u8> {
    fs::read(format!(
        "{}/../../../examples/{name}",
        env!("CARGO_MANIFEST_DIR")
    ))
    .unwrap()
}

/// The file `a` of the pair: a block, and one byte more.
pub fn file() -> Vec<u8> {
    example("pair/a")
}

pub fn opened() -> Session {
    Session::open(example("pair.torrent"), true).unwrap()
}
