//! Streams of messages for the program `standing`: `stream SEED` writes one, and `stream` alone reads one and prints what the
//! program is to print.

use second::gen::{self, Rng};
use second::{make, message, standing, Index, GREATEST, MESSAGE};
use std::io::{self, Read, Write};

/// Messages that speak of what stands, some of them damaged, and every other time a last piece that is too short.
fn stream(seed: u64) -> Vec<u8> {
    let mut rng = Rng(seed);
    let mut block = make(&[0; GREATEST]).1;
    let mut stream = Vec::new();
    for _ in 0..rng.below(1_500) {
        let index = Index::decode(&block).expect("a good block");
        let mut m = gen::message(&mut rng, &index);
        m.resize(MESSAGE, 0);
        block = message(&block, &m).1;
        stream.extend(m);
    }
    if rng.one_in(2) {
        stream.extend(gen::bytes(&mut rng, MESSAGE as u64 - 1));
    }
    stream
}

fn main() -> io::Result<()> {
    let bytes = match std::env::args().nth(1) {
        Some(seed) => stream(seed.parse().expect("a number")),
        None => {
            let mut input = Vec::new();
            io::stdin().read_to_end(&mut input)?;
            standing(&input)
        }
    };
    io::stdout().write_all(&bytes)
}
