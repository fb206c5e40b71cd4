//! The plain Rust beside which `turns.sh` measures: it runs the image on standard input, of either kind, to its end in turns
//! of at most 256 steps, where a write is done at once, and writes the last word that the image wrote.

#[allow(dead_code)]
#[path = "page_rules.rs"]
mod page_rules;

use page_rules::{TurnEnd, load};
use std::io::{self, Read};

fn main() {
    let mut image = Vec::new();
    io::stdin().read_to_end(&mut image).expect("standard input fails");
    let mut core = load(&image);
    let mut last = 0;
    loop {
        match core.turn() {
            TurnEnd::Write(_, word) => {
                last = word;
                core.resume_write();
            }
            TurnEnd::Read(_) => panic!("an image with in-ports"),
            TurnEnd::Ended => break,
            TurnEnd::Limit => {}
        }
    }
    println!("{last}");
}
